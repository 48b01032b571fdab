//! The decision: a sentence's tree, its quantifiers eliminated from the innermost on, and the answer of what remains.

use crate::eliminate::{eliminate, MOST_POLYNOMIALS};
use crate::sign::Answer;
use crate::tree::{tree_of_sentence, Tree};
use crate::words::{self, Sentence};

pub fn decide(sentence: &Sentence) -> Answer {
    match without_quantifiers(sentence) {
        Some(tree) => tree.answer(&|id| tree.polynomials[id].sign_of_number()),
        None => Answer::GivenUp,
    }
}

fn without_quantifiers(sentence: &Sentence) -> Option<Tree> {
    let mut tree = tree_of_sentence(sentence)?;
    let count = sentence.quantifiers.len();
    for (eliminated, quantifier) in sentence.quantifiers.iter().enumerate() {
        tree = eliminate(tree, *quantifier, count - eliminated, MOST_POLYNOMIALS).ok()?;
    }
    Some(tree)
}

/// What is printed for a line of words.
pub fn answer_line(line: &[u8]) -> &'static str {
    let sentence = words::words_of_line(line).and_then(|words| words::sentence(&words));
    sentence.map_or("no 3", |sentence| decide(&sentence).text())
}
