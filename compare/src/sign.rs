//! Signs of numbers and answers of sentences.

#[derive(Clone, Copy, PartialEq, Eq, Debug)]
pub enum Sign {
    Negative,
    Zero,
    Positive,
}

pub const ALL_SIGNS: [Sign; 3] = [Sign::Negative, Sign::Zero, Sign::Positive];

impl Sign {
    pub fn of(number: i128) -> Sign {
        match number.signum() {
            -1 => Sign::Negative,
            0 => Sign::Zero,
            _ => Sign::Positive,
        }
    }

    pub fn opposite(self) -> Sign {
        match self {
            Sign::Negative => Sign::Positive,
            Sign::Zero => Sign::Zero,
            Sign::Positive => Sign::Negative,
        }
    }

    /// Which of the three branches of a question this sign takes.
    pub fn branch(self) -> usize {
        match self {
            Sign::Negative => 0,
            Sign::Zero => 1,
            Sign::Positive => 2,
        }
    }
}

#[derive(Clone, Copy, PartialEq, Eq, Debug)]
pub enum Answer {
    Yes,
    No,
    GivenUp,
}

impl Answer {
    pub fn text(self) -> &'static str {
        match self {
            Answer::Yes => "holds",
            Answer::No => "fails",
            Answer::GivenUp => "given up",
        }
    }
}
