//! Random sentences as words, the same for the same seed.

pub struct Generator {
    state: u64,
}

/// What terms may have: variables, and the highest degree.
#[derive(Clone, Copy)]
struct Shape {
    variables: usize,
    degree: usize,
}

impl Generator {
    pub fn new(seed: u64) -> Generator {
        let mut generator = Generator {
            state: seed.wrapping_mul(0x9E37_79B9_7F4A_7C15) | 1,
        };
        (0..8).for_each(|_| {
            generator.next();
        });
        generator
    }

    /// xorshift64*.
    fn next(&mut self) -> u64 {
        self.state ^= self.state >> 12;
        self.state ^= self.state << 25;
        self.state ^= self.state >> 27;
        self.state.wrapping_mul(0x2545_F491_4F6C_DD1D) >> 16
    }

    fn below(&mut self, bound: usize) -> usize {
        (self.next() % bound as u64) as usize
    }

    fn between(&mut self, least: i64, most: i64) -> i64 {
        least + self.below((most - least + 1) as usize) as i64
    }

    fn percent(&mut self, percentage: usize) -> bool {
        self.below(100) < percentage
    }

    /// One of the values, each as often as it stands there.
    fn one_of(&mut self, values: &[usize]) -> usize {
        values[self.below(values.len())]
    }

    pub fn sentence(&mut self) -> Vec<i64> {
        let mut words = self.valid_sentence();
        if self.percent(15) {
            self.damage(&mut words);
        }
        words
    }

    fn valid_sentence(&mut self) -> Vec<i64> {
        let quantifiers =
            self.one_of(&[0, 0, 1, 1, 1, 1, 1, 1, 2, 2, 2, 2, 2, 2, 2, 3, 3, 3, 4, 4]);
        let mut words = vec![quantifiers as i64];
        words.extend(
            (0..quantifiers)
                .map(|_| self.between(0, 1))
                .collect::<Vec<i64>>(),
        );
        // Now and then there are many comparisons, for the limits on questions, polynomials and looks.
        let crowded = quantifiers < 2 && self.percent(10);
        let comparisons = match quantifiers {
            _ if crowded => self.below(8) + 6,
            0 | 1 => self.one_of(&[1, 1, 2, 2, 3, 4, 5]),
            2 => self.one_of(&[1, 1, 1, 2, 2, 2, 3, 3, 4, 5]),
            _ => self.one_of(&[1, 1, 1, 1, 2, 2, 3]),
        };
        let degree = match quantifiers {
            _ if crowded => 2,
            0 | 1 => 4,
            2 => 3,
            _ => 2,
        };
        self.formula(
            comparisons,
            Shape {
                variables: quantifiers,
                degree,
            },
            &mut words,
        );
        words
    }

    fn formula(&mut self, comparisons: usize, shape: Shape, words: &mut Vec<i64>) {
        if self.percent(15) {
            words.push(3);
        }
        if comparisons == 1 {
            return self.comparison(shape, words);
        }
        words.push(self.between(4, 5));
        let first = 1 + self.below(comparisons - 1);
        self.formula(first, shape, words);
        self.formula(comparisons - first, shape, words);
    }

    fn comparison(&mut self, shape: Shape, words: &mut Vec<i64>) {
        if self.percent(35) {
            words.push(3);
        }
        words.push(self.between(1, 2));
        self.term(shape, words);
    }

    /// A sum of monomials, or now and then a product of two sums.
    fn term(&mut self, shape: Shape, words: &mut Vec<i64>) {
        if self.percent(12) {
            let half = Shape {
                degree: shape.degree / 2,
                ..shape
            };
            words.push(9);
            self.sum(half, words);
            self.sum(half, words);
        } else {
            self.sum(shape, words);
        }
    }

    fn sum(&mut self, shape: Shape, words: &mut Vec<i64>) {
        let monomials = 1 + self.below(if shape.variables == 0 { 2 } else { 3 });
        for i in 0..monomials {
            if i + 1 < monomials {
                words.push(8);
            }
            self.monomial(shape, words);
        }
    }

    /// A product of a coefficient and variables, the coefficient left out now and then.
    fn monomial(&mut self, shape: Shape, words: &mut Vec<i64>) {
        let Shape { variables, degree } = shape;
        let factors = if variables == 0 {
            self.below(2)
        } else {
            self.below(degree + 1)
        };
        let has_coefficient = factors == 0 || variables == 0 || self.percent(60);
        if !has_coefficient {
            return self.power(variables, factors, words);
        }
        if factors > 0 {
            words.push(9);
        }
        words.extend([7, self.coefficient()]);
        if factors > 0 {
            self.power(variables, factors, words);
        }
    }

    fn power(&mut self, variables: usize, factors: usize, words: &mut Vec<i64>) {
        words.extend(std::iter::repeat_n(9, factors - 1));
        let favourite = self.below(variables.max(1));
        for _ in 0..factors {
            let variable = if self.percent(30) {
                self.below(variables.max(1))
            } else {
                favourite
            };
            self.factor(variables, variable, words);
        }
    }

    fn factor(&mut self, variables: usize, variable: usize, words: &mut Vec<i64>) {
        if variables == 0 {
            words.extend([7, self.coefficient()]);
        } else {
            words.extend([6, variable as i64]);
        }
    }

    fn coefficient(&mut self) -> i64 {
        match self.below(100) {
            0 => self.between(-65_535, 65_535),
            1..=5 => self.between(-100, 100),
            6..=40 => self.between(-1, 1),
            _ => self.between(-6, 6),
        }
    }

    /// A word changed, dropped or added.
    fn damage(&mut self, words: &mut Vec<i64>) {
        let place = self.below(words.len());
        match self.below(3) {
            0 => words[place] = self.any_word(),
            1 => {
                words.remove(place);
            }
            _ => {
                let place = self.below(words.len() + 1);
                words.insert(place, self.any_word());
            }
        }
    }

    fn any_word(&mut self) -> i64 {
        match self.below(20) {
            0 => self.between(-65_536, 65_536),
            1 => 65_536,
            2 => -999_999_999,
            _ => self.between(-1, 10),
        }
    }
}
