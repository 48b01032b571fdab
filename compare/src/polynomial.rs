//! Polynomials with whole coefficients in up to four variables, kept sparse: sorted terms, none with coefficient zero.
//!
//! A term's exponents are packed into one number, a byte for each variable: the **outermost** quantifier's variable in the
//! lowest byte, the next one in the byte above it, and so on. So while the innermost variables are eliminated the packing of
//! what remains never changes, and the variable to be eliminated, the *main* one, is always in the highest byte in use. Terms
//! sorted by that number are sorted by their degree in the main variable first.

use crate::sign::Sign;

const NUMBER_BOUND: i128 = 1 << 27;
const MOST_COEFFICIENTS_IN_A_LIST: u32 = 9;
const MOST_NUMBERS: u32 = 64;
const BITS: u32 = 8;
const BYTE: u32 = (1 << BITS) - 1;

/// A variable, by the byte in which its exponent is kept.
#[derive(Clone, Copy, PartialEq, Eq, Debug)]
pub struct Variable {
    byte: u32,
}

impl Variable {
    /// The main variable of polynomials in `count` variables, at least one.
    pub fn main_of(count: usize) -> Variable {
        Variable {
            byte: count as u32 - 1,
        }
    }

    /// Variable `index` of `count`, counted from the innermost quantifier.
    pub fn from_inside(index: usize, count: usize) -> Variable {
        Variable::main_of(count - index)
    }

    fn exponent(self, exponents: u32) -> u32 {
        (exponents >> (BITS * self.byte)) & BYTE
    }

    fn power(self, exponent: u32) -> u32 {
        exponent << (BITS * self.byte)
    }
}

#[derive(Clone, Copy, PartialEq, Eq, Debug)]
struct Term {
    exponents: u32,
    coefficient: i128,
}

#[derive(Clone, PartialEq, Eq, Debug)]
pub struct Polynomial {
    terms: Vec<Term>,
}

impl Polynomial {
    pub fn number(value: i128) -> Polynomial {
        Polynomial::collect(vec![Term {
            exponents: 0,
            coefficient: value,
        }])
    }

    pub fn variable(variable: Variable) -> Polynomial {
        Polynomial::collect(vec![Term {
            exponents: variable.power(1),
            coefficient: 1,
        }])
    }

    /// Sorts terms, adds up those with the same exponents and drops those with coefficient zero.
    fn collect(mut terms: Vec<Term>) -> Polynomial {
        terms.sort_unstable_by_key(|term| term.exponents);
        let mut collected: Vec<Term> = Vec::with_capacity(terms.len());
        for term in terms {
            match collected.last_mut() {
                Some(last) if last.exponents == term.exponents => {
                    last.coefficient = last
                        .coefficient
                        .checked_add(term.coefficient)
                        .expect("sums stay small");
                }
                _ => collected.push(term),
            }
        }
        collected.retain(|term| term.coefficient != 0);
        Polynomial { terms: collected }
    }

    pub fn is_zero(&self) -> bool {
        self.terms.is_empty()
    }

    /// The sign of a polynomial without variables.
    pub fn sign_of_number(&self) -> Sign {
        assert!(self.terms.iter().all(|term| term.exponents == 0));
        Sign::of(self.terms.first().map_or(0, |term| term.coefficient))
    }

    pub fn plus(&self, other: &Polynomial) -> Polynomial {
        Polynomial::collect(self.terms.iter().chain(&other.terms).copied().collect())
    }

    pub fn negated(&self) -> Polynomial {
        let negate = |term: &Term| Term {
            coefficient: -term.coefficient,
            ..*term
        };
        Polynomial {
            terms: self.terms.iter().map(negate).collect(),
        }
    }

    pub fn times(&self, other: &Polynomial) -> Polynomial {
        let mut products = Vec::with_capacity(self.terms.len() * other.terms.len());
        for a in &self.terms {
            for b in &other.terms {
                let coefficient = a
                    .coefficient
                    .checked_mul(b.coefficient)
                    .expect("products of modest numbers fit");
                products.push(Term {
                    exponents: a.exponents + b.exponents,
                    coefficient,
                });
            }
        }
        Polynomial::collect(products)
    }

    fn times_power(&self, variable: Variable, exponent: u32) -> Polynomial {
        let shift = |term: &Term| Term {
            exponents: term.exponents + variable.power(exponent),
            ..*term
        };
        Polynomial {
            terms: self.terms.iter().map(shift).collect(),
        }
    }

    /// Whether numbers, lengths of lists and the count of numbers are within the limits, if the polynomial were written as
    /// nested lists of coefficients with the outermost quantifier's variable innermost.
    pub fn is_modest(&self) -> bool {
        self.terms
            .iter()
            .all(|term| term.coefficient.abs() < NUMBER_BOUND)
            && self
                .terms
                .iter()
                .all(|term| largest_exponent(term.exponents) < MOST_COEFFICIENTS_IN_A_LIST)
            && self.count_of_numbers() <= MOST_NUMBERS
    }

    /// How many numbers the nested lists have: an innermost list has as many as its degree plus one, zeros counted, and there
    /// is one such list for each choice of the other exponents that occurs.
    fn count_of_numbers(&self) -> u32 {
        let mut count = 0;
        for (i, term) in self.terms.iter().enumerate() {
            let list = term.exponents >> BITS;
            let is_last_of_its_list = self
                .terms
                .get(i + 1)
                .is_none_or(|next| next.exponents >> BITS != list);
            if is_last_of_its_list {
                count += (term.exponents & BYTE) + 1;
            }
        }
        count
    }

    /// One more than the degree in the main variable; none for the zero polynomial.
    pub fn count_of_coefficients(&self, main: Variable) -> u32 {
        self.terms
            .last()
            .map_or(0, |term| main.exponent(term.exponents) + 1)
    }

    /// Where the terms of the leading coefficient begin.
    fn leading_terms_from(&self, main: Variable) -> usize {
        let degree = self
            .terms
            .last()
            .map_or(0, |term| main.exponent(term.exponents));
        self.terms
            .partition_point(|term| main.exponent(term.exponents) < degree)
    }

    pub fn leading_coefficient(&self, main: Variable) -> Polynomial {
        let drop_main = |term: &Term| {
            let power = main.power(main.exponent(term.exponents));
            Term {
                exponents: term.exponents - power,
                ..*term
            }
        };
        Polynomial {
            terms: self.terms[self.leading_terms_from(main)..]
                .iter()
                .map(drop_main)
                .collect(),
        }
    }

    pub fn without_leading_coefficient(&self, main: Variable) -> Polynomial {
        Polynomial {
            terms: self.terms[..self.leading_terms_from(main)].to_vec(),
        }
    }

    pub fn derivative(&self, main: Variable) -> Polynomial {
        let mut terms = Vec::with_capacity(self.terms.len());
        for term in &self.terms {
            let exponent = main.exponent(term.exponents);
            if exponent > 0 {
                let coefficient = term.coefficient * i128::from(exponent);
                terms.push(Term {
                    exponents: term.exponents - main.power(1),
                    coefficient,
                });
            }
        }
        Polynomial { terms }
    }

    /// What has the sign of `self` wherever `divisor` is zero, if the divisor's leading coefficient has the nonzero sign given;
    /// nothing where a step on the way isn't modest.
    pub fn pseudo_remainder(
        &self,
        divisor: &Polynomial,
        leading_sign: Sign,
        main: Variable,
    ) -> Option<Polynomial> {
        let divisor_length = divisor.count_of_coefficients(main);
        assert!(divisor_length > 0);
        let leading = divisor.leading_coefficient(main);
        let mut rest = self.clone();
        let mut steps = 0;
        while rest.count_of_coefficients(main) >= divisor_length {
            let shift = rest.count_of_coefficients(main) - divisor_length;
            let taken_off = rest
                .leading_coefficient(main)
                .times(divisor)
                .times_power(main, shift);
            rest = leading.times(&rest).plus(&taken_off.negated());
            steps += 1;
            if !rest.is_modest() {
                return None;
            }
        }
        let changes_sign = steps % 2 == 1 && leading_sign == Sign::Negative;
        Some(if changes_sign { rest.negated() } else { rest })
    }
}

fn largest_exponent(exponents: u32) -> u32 {
    exponents
        .to_le_bytes()
        .into_iter()
        .map(u32::from)
        .max()
        .unwrap_or(0)
}

#[cfg(test)]
mod tests {
    use super::*;

    fn x() -> Polynomial {
        Polynomial::variable(Variable::main_of(2))
    }

    fn y() -> Polynomial {
        Polynomial::variable(Variable::main_of(1))
    }

    fn power(base: &Polynomial, exponent: usize) -> Polynomial {
        (1..exponent).fold(base.clone(), |product, _| product.times(base))
    }

    #[test]
    fn numbers_are_counted_with_zeros_of_innermost_lists_only() {
        assert_eq!(Polynomial::number(0).count_of_numbers(), 0);
        assert_eq!(power(&x(), 8).count_of_numbers(), 1);
        assert_eq!(power(&y(), 8).count_of_numbers(), 9);
        assert_eq!(
            power(&x(), 3)
                .times(&y())
                .plus(&Polynomial::number(1))
                .count_of_numbers(),
            3
        );
    }

    #[test]
    fn modesty_ends_where_it_should() {
        assert!(Polynomial::number((1 << 27) - 1).is_modest());
        assert!(!Polynomial::number(1 << 27).is_modest());
        assert!(!Polynomial::number(-(1 << 27)).is_modest());
        assert!(power(&x(), 8).is_modest());
        assert!(!power(&x(), 9).is_modest());
        assert!(!power(&y(), 9).is_modest());
        // Eight lists of eight numbers are 64; one number more is too much.
        let row = (0..7).fold(Polynomial::number(1), |sum, _| {
            sum.times(&y()).plus(&Polynomial::number(1))
        });
        let square = (0..7).fold(row.clone(), |sum, _| sum.times(&x()).plus(&row));
        assert_eq!(square.count_of_numbers(), 64);
        assert!(square.is_modest());
        assert!(!square.plus(&power(&x(), 8)).is_modest());
    }

    #[test]
    fn remainder_keeps_the_sign_where_the_divisor_is_zero() {
        let main = Variable::main_of(1);
        let dividend = power(&y(), 2).plus(&Polynomial::number(-5));
        // -2y + 6 is zero at 3, where the dividend is 4: two steps, no change of sign.
        let divisor = Polynomial::number(-2)
            .times(&y())
            .plus(&Polynomial::number(6));
        let remainder = dividend
            .pseudo_remainder(&divisor, Sign::Negative, main)
            .unwrap();
        assert_eq!(remainder, Polynomial::number(16));
        // -y^2 + 1 is zero at 1, where the dividend is -4: one step, so the sign changes.
        let divisor = power(&y(), 2).negated().plus(&Polynomial::number(1));
        let remainder = dividend
            .pseudo_remainder(&divisor, Sign::Negative, main)
            .unwrap();
        assert_eq!(remainder, Polynomial::number(-4));
    }
}
