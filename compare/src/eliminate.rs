//! Elimination of the innermost quantifier: the questions that the table of signs needs.
//!
//! Which questions are asked doesn't depend on the rows, so only the questions are made here; each end keeps how its rows
//! come about.

use crate::polynomial::{Polynomial, Variable};
use crate::sign::{Answer, Sign, ALL_SIGNS};
use crate::table::{Frame, Row, TableRecipe};
use crate::tree::{intern, Eliminated, Node, TableEnd, Tree, TOO_MANY_QUESTIONS};
use crate::words::Quantifier;
use std::collections::VecDeque;
use std::rc::Rc;

/// A tree that asks more polynomials than this has no table.
pub const MOST_POLYNOMIALS: usize = 12;
const MOST_TABLES_DEEP: usize = 40;
const MOST_LOOKS: usize = 63;

/// The whole tree is given up.
pub struct TooLarge;

/// The tree after eliminating the innermost quantifier of a tree in `variables` variables.
///
/// `most_asked` bounds the distinct polynomials of the new tree: a tree beyond `MOST_POLYNOMIALS` is given up by the next
/// elimination anyway, and the making can stop early.
pub fn eliminate(
    inner: Tree,
    quantifier: Quantifier,
    variables: usize,
    most_asked: usize,
) -> Result<Tree, TooLarge> {
    let order = inner.asked_in_order();
    if order.len() > MOST_POLYNOMIALS {
        return Err(TooLarge);
    }
    let polynomials = order
        .iter()
        .map(|id| inner.polynomials[*id].clone())
        .collect();
    let mut maker = TableTrees {
        main: Variable::main_of(variables),
        coefficients_are_numbers: variables == 1,
        polynomials: Vec::new(),
        questions: 0,
        most_asked,
    };
    let root = maker.table(
        polynomials,
        &Facts::none(),
        Calls {
            frame: None,
            left: MOST_TABLES_DEEP,
        },
    )?;
    let columns = (0..inner.polynomials.len())
        .map(|id| order.iter().position(|asked| *asked == id))
        .collect();
    let eliminated = Some(Eliminated {
        quantifier,
        inner: Box::new(inner),
        columns,
    });
    Ok(Tree {
        polynomials: maker.polynomials,
        root,
        eliminated,
    })
}

/// Signs that were asked for on the way, the newest first; shared between branches.
#[derive(Clone)]
struct Facts(Option<Rc<Fact>>);

struct Fact {
    polynomial: Polynomial,
    sign: Sign,
    older: Facts,
}

impl Facts {
    fn none() -> Facts {
        Facts(None)
    }

    fn with(&self, polynomial: Polynomial, sign: Sign) -> Facts {
        Facts(Some(Rc::new(Fact {
            polynomial,
            sign,
            older: self.clone(),
        })))
    }

    /// The sign that the newest fact about the polynomial or its negative gives it.
    fn sign_of(&self, polynomial: &Polynomial) -> Option<Sign> {
        let negative = polynomial.negated();
        let mut facts = self;
        while let Some(fact) = &facts.0 {
            if fact.polynomial == *polynomial {
                return Some(fact.sign);
            }
            if fact.polynomial == negative {
                return Some(fact.sign.opposite());
            }
            facts = &fact.older;
        }
        None
    }
}

/// A polynomial of a table after its looks.
#[derive(Clone)]
enum Column {
    /// It has one sign in all rows.
    Constant(Sign),
    /// It isn't constant, and its leading coefficient has this sign, not zero.
    Moving(Polynomial, Sign),
}

/// A table at work on its leading coefficients.
#[derive(Clone)]
struct Looking {
    pending: VecDeque<Polynomial>,
    columns: Vec<Column>,
    looks_left: usize,
}

impl Looking {
    fn settle(&mut self, column: Column) {
        self.pending.pop_front();
        self.columns.push(column);
    }

    /// What follows for the polynomial in front from its leading coefficient's sign.
    fn settle_by_leading_sign(&mut self, sign: Sign, main: Variable) {
        let polynomial = &mut self.pending[0];
        if sign == Sign::Zero {
            *polynomial = polynomial.without_leading_coefficient(main);
        } else if polynomial.count_of_coefficients(main) == 1 {
            self.settle(Column::Constant(sign));
        } else {
            let column = Column::Moving(polynomial.clone(), sign);
            self.settle(column);
        }
    }
}

/// The tables that wait for the one at work, and how many deep tables may still be called.
#[derive(Clone)]
struct Calls {
    frame: Option<Rc<Frame>>,
    left: usize,
}

struct TableTrees {
    main: Variable,
    coefficients_are_numbers: bool,
    polynomials: Vec<Polynomial>,
    questions: u64,
    most_asked: usize,
}

type Made = Result<Rc<Node>, TooLarge>;

fn given_up() -> Made {
    Ok(Rc::new(Node::Answer(Answer::GivenUp)))
}

impl TableTrees {
    fn table(&mut self, polynomials: Vec<Polynomial>, facts: &Facts, calls: Calls) -> Made {
        if calls.left == 0 {
            return given_up();
        }
        let looking = Looking {
            pending: polynomials.into(),
            columns: Vec::new(),
            looks_left: MOST_LOOKS,
        };
        self.look(looking, facts, calls)
    }

    /// Finds the signs of leading coefficients, asking where they aren't known.
    fn look(&mut self, mut looking: Looking, facts: &Facts, calls: Calls) -> Made {
        while let Some(polynomial) = looking.pending.front() {
            if looking.looks_left == 0 {
                return given_up();
            }
            looking.looks_left -= 1;
            if polynomial.is_zero() {
                looking.settle(Column::Constant(Sign::Zero));
                continue;
            }
            let leading = polynomial.leading_coefficient(self.main);
            match self.known_sign(&leading, facts) {
                Some(sign) => looking.settle_by_leading_sign(sign, self.main),
                None => return self.ask(leading, looking, facts, calls),
            }
        }
        self.reduce(looking.columns, facts, calls)
    }

    fn known_sign(&self, coefficient: &Polynomial, facts: &Facts) -> Option<Sign> {
        if self.coefficients_are_numbers {
            Some(coefficient.sign_of_number())
        } else {
            facts.sign_of(coefficient)
        }
    }

    fn ask(&mut self, leading: Polynomial, looking: Looking, facts: &Facts, calls: Calls) -> Made {
        self.questions += 1;
        let asked = intern(&mut self.polynomials, leading.clone());
        if self.questions >= TOO_MANY_QUESTIONS || self.polynomials.len() > self.most_asked {
            return Err(TooLarge);
        }
        let mut branch = |sign: Sign| {
            let mut looking = looking.clone();
            looking.settle_by_leading_sign(sign, self.main);
            self.look(looking, &facts.with(leading.clone(), sign), calls.clone())
        };
        let branches = [
            branch(ALL_SIGNS[0])?,
            branch(ALL_SIGNS[1])?,
            branch(ALL_SIGNS[2])?,
        ];
        Ok(Rc::new(Node::Question { asked, branches }))
    }

    /// Goes on to the table without the pivot, or to the end if all polynomials are constant.
    fn reduce(&mut self, columns: Vec<Column>, facts: &Facts, calls: Calls) -> Made {
        let constants: Vec<Option<Sign>> = columns.iter().map(constant_sign).collect();
        let mut moving: Vec<(Polynomial, Sign)> =
            columns.into_iter().filter_map(moving_polynomial).collect();
        let Some(pivot) = self.first_of_highest_degree(&moving) else {
            let innermost: Row = constants.into_iter().flatten().collect();
            let recipe = TableRecipe {
                innermost,
                caller: calls.frame,
            };
            return Ok(Rc::new(Node::TableEnd(TableEnd::new(recipe))));
        };
        let (polynomial, leading_sign) = moving.remove(pivot);
        let derivative = polynomial.derivative(self.main);
        if !derivative.is_modest() {
            return given_up();
        }
        let facts = facts.with(derivative.leading_coefficient(self.main), leading_sign);
        let mut divisors = vec![(derivative, leading_sign)];
        divisors.append(&mut moving);
        let Some(remainders) = self.remainders(&polynomial, &divisors) else {
            return given_up();
        };
        let called = divisors
            .into_iter()
            .map(|(divisor, _)| divisor)
            .chain(remainders)
            .collect();
        let frame = Some(Rc::new(Frame {
            constants,
            pivot,
            caller: calls.frame,
        }));
        self.table(
            called,
            &facts,
            Calls {
                frame,
                left: calls.left - 1,
            },
        )
    }

    fn first_of_highest_degree(&self, moving: &[(Polynomial, Sign)]) -> Option<usize> {
        let length = |i: usize| moving[i].0.count_of_coefficients(self.main);
        let highest = (0..moving.len()).map(length).max()?;
        (0..moving.len()).find(|i| length(*i) == highest)
    }

    fn remainders(
        &self,
        dividend: &Polynomial,
        divisors: &[(Polynomial, Sign)],
    ) -> Option<Vec<Polynomial>> {
        divisors
            .iter()
            .map(|(divisor, sign)| dividend.pseudo_remainder(divisor, *sign, self.main))
            .collect()
    }
}

fn constant_sign(column: &Column) -> Option<Sign> {
    match column {
        Column::Constant(sign) => Some(*sign),
        Column::Moving(..) => None,
    }
}

fn moving_polynomial(column: Column) -> Option<(Polynomial, Sign)> {
    match column {
        Column::Constant(_) => None,
        Column::Moving(polynomial, sign) => Some((polynomial, sign)),
    }
}
