//! Sentences and how they are read from words.

pub const MOST_WORDS: usize = 1024;
const MOST_QUANTIFIERS: i64 = 4;
const MOST_DIGITS: usize = 9;
const LARGEST_NUMBER: i64 = 65_535;

#[derive(Clone, Copy, PartialEq, Eq, Debug)]
pub enum Quantifier {
    Some,
    Every,
}

#[derive(Debug)]
pub enum Expression {
    Variable(usize),
    Number(i64),
    Sum(Box<Expression>, Box<Expression>),
    Product(Box<Expression>, Box<Expression>),
}

#[derive(Debug)]
pub enum Formula {
    Below(Expression),
    Zero(Expression),
    Not(Box<Formula>),
    And(Box<Formula>, Box<Formula>),
    Or(Box<Formula>, Box<Formula>),
}

#[derive(Debug)]
pub struct Sentence {
    /// The innermost first.
    pub quantifiers: Vec<Quantifier>,
    pub formula: Formula,
}

/// The words of a line, parted by spaces; nothing if something on it is no number of at most nine digits.
pub fn words_of_line(line: &[u8]) -> Option<Vec<i64>> {
    line.split(|&byte| byte == b' ')
        .filter(|word| !word.is_empty())
        .map(number)
        .collect()
}

fn number(word: &[u8]) -> Option<i64> {
    let digits = word.strip_prefix(b"-").unwrap_or(word);
    if digits.is_empty() || digits.len() > MOST_DIGITS || !digits.iter().all(u8::is_ascii_digit) {
        return None;
    }
    std::str::from_utf8(word).ok()?.parse().ok()
}

/// The sentence that the words are, if they are one.
pub fn sentence(words: &[i64]) -> Option<Sentence> {
    if words.len() > MOST_WORDS {
        return None;
    }
    let mut reader = Reader {
        words: words.iter().copied(),
        variables: 0,
    };
    let quantifiers = reader.quantifiers()?;
    reader.variables = quantifiers.len();
    let formula = reader.formula()?;
    reader.words.next().is_none().then_some(Sentence {
        quantifiers,
        formula,
    })
}

struct Reader<Words> {
    words: Words,
    variables: usize,
}

impl<Words: Iterator<Item = i64>> Reader<Words> {
    fn quantifiers(&mut self) -> Option<Vec<Quantifier>> {
        let count = self
            .words
            .next()
            .filter(|count| (0..=MOST_QUANTIFIERS).contains(count))?;
        (0..count).map(|_| self.quantifier()).collect()
    }

    fn quantifier(&mut self) -> Option<Quantifier> {
        match self.words.next()? {
            0 => Some(Quantifier::Some),
            1 => Some(Quantifier::Every),
            _ => None,
        }
    }

    fn formula(&mut self) -> Option<Formula> {
        Some(match self.words.next()? {
            1 => Formula::Below(self.expression()?),
            2 => Formula::Zero(self.expression()?),
            3 => Formula::Not(Box::new(self.formula()?)),
            4 => Formula::And(Box::new(self.formula()?), Box::new(self.formula()?)),
            5 => Formula::Or(Box::new(self.formula()?), Box::new(self.formula()?)),
            _ => return None,
        })
    }

    fn expression(&mut self) -> Option<Expression> {
        Some(match self.words.next()? {
            6 => Expression::Variable(self.variable()?),
            7 => Expression::Number(
                self.words
                    .next()
                    .filter(|value| value.abs() <= LARGEST_NUMBER)?,
            ),
            8 => Expression::Sum(Box::new(self.expression()?), Box::new(self.expression()?)),
            9 => Expression::Product(Box::new(self.expression()?), Box::new(self.expression()?)),
            _ => return None,
        })
    }

    fn variable(&mut self) -> Option<usize> {
        let index = usize::try_from(self.words.next()?).ok()?;
        (index < self.variables).then_some(index)
    }
}
