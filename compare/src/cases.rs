//! The cases whose answers are known, and cases at the limits.

use crate::decide::{answer_line, decide};
use crate::eliminate::{eliminate, MOST_POLYNOMIALS};
use crate::text::words_of_text;
use crate::tree::{tree_of_sentence, Tree};
use crate::words::{sentence, words_of_line, MOST_WORDS};

fn answer_of_text(text: &str) -> &'static str {
    decide(&sentence(&words_of_text(text)).unwrap()).text()
}

fn check(cases: &[(&str, &str)]) {
    for (text, expected) in cases {
        assert_eq!(answer_of_text(text), *expected, "{text}");
    }
}

#[test]
fn a_to_m() {
    check(&[
        ("every x: x^2 + 1 > 0", "holds"),
        ("some x: x^2 = 2", "holds"),
        ("some x: x^2 = -2", "fails"),
        ("every y some x: x^2 = y", "fails"),
        ("every y some x: x^3 = y", "holds"),
        ("every y some x: x <= y^2", "holds"),
        ("some x every y: x <= y^2", "holds"),
        ("every b every a some x: x^2 + a*x + b = 0", "fails"),
        (
            "every b every a some x: 4*b <= a^2 -> x^2 + a*x + b = 0",
            "holds",
        ),
        (
            "every b every a every x: x^2 + a*x + b = 0 -> 4*b <= a^2",
            "holds",
        ),
        ("every y every x: 4*x*y <= (x + y)^2", "holds"),
        ("some y some x: x^2 + y^2 = 1 and x + y = 1", "holds"),
        ("some y some x: x^2 + y^2 = 1 and x + y = 2", "fails"),
        ("some x: x^3 - 6*x^2 + 11*x - 6 = 0 and 2 < x", "holds"),
        ("some x: x^8 = 3", "holds"),
        ("some x: x^8*x = 3", "given up"),
        ("some x: x^2 = 65535*65535", "given up"),
        ("every x: x^4 - 4*x^3 + 6*x^2 - 4*x + 1 >= 0", "holds"),
        (
            "every z every y every x: x*y + y*z + z*x <= x^2 + y^2 + z^2",
            "given up",
        ),
    ]);
}

#[test]
fn words() {
    for (line, expected) in [
        ("1 0 2 8 9 6 0 6 0 7 -2", "holds"),
        ("0 1 7 -1", "holds"),
        ("0 2 8 9 7 3 7 3 7 -9", "holds"),
        ("0 1 7 1", "fails"),
        ("1 0 2 6 1", "no 3"),
        ("1 0 2 6 0 5", "no 3"),
        ("1 2 2 6 0", "no 3"),
        ("", "no 3"),
        ("5 0 0 0 0 0 2 6 0", "no 3"),
        ("-1 2 7 0", "no 3"),
        ("0 2 7 65535", "fails"),
        ("0 2 7 65536", "no 3"),
        ("0 2 7 x", "no 3"),
        ("0 2 7 +1", "no 3"),
        ("0 2 7 -", "no 3"),
        ("0 2 7 -0", "holds"),
        ("0 2 7 000000000", "holds"),
        ("0 2 7 0000000000", "no 3"),
        ("  0  2 7 0 ", "holds"),
        ("0\t2 7 0", "no 3"),
    ] {
        assert_eq!(answer_line(line.as_bytes()), expected, "{line}");
    }
}

#[test]
fn texts_become_the_words_one_would_write() {
    let expected =
        words_of_line(b"2 0 1 4 1 8 8 9 6 1 6 1 7 1 9 7 -1 6 0 3 2 8 6 0 9 7 -1 7 0").unwrap();
    assert_eq!(
        words_of_text("every x some y: x*x + 1 < y and not (y = 0)"),
        expected
    );
}

/// At the last step of the last of the cases A to M 19 polynomials are asked.
#[test]
fn polynomials_asked_are_as_many_as_stated() {
    let text = "every z every y every x: x*y + y*z + z*x <= x^2 + y^2 + z^2";
    let tree = tree_in_one_variable(text);
    assert_eq!(tree.asked_in_order().len(), 19);
}

fn tree_in_one_variable(text: &str) -> Tree {
    let sentence = sentence(&words_of_text(text)).unwrap();
    let mut tree = tree_of_sentence(&sentence).unwrap();
    for variables in (2..=sentence.quantifiers.len()).rev() {
        let quantifier = sentence.quantifiers[sentence.quantifiers.len() - variables];
        tree = eliminate(tree, quantifier, variables, usize::MAX)
            .ok()
            .unwrap();
    }
    tree
}

/// Twelve parts of an `or`, each of which doubles what follows, have 4,095 questions; eleven have 2,047.
#[test]
fn questions_are_counted_as_if_nothing_were_shared() {
    let alternatives = |count: usize| format!("0 {} 2 7 0", "5 2 7 0 ".repeat(count - 1));
    assert_eq!(answer_line(alternatives(11).as_bytes()), "holds");
    assert_eq!(answer_line(alternatives(12).as_bytes()), "given up");
    // What would stand behind a term that isn't modest doesn't count.
    let behind = |first: &str| format!("0 4 {first} {} 2 7 0", "5 2 7 0 ".repeat(11));
    assert_eq!(
        answer_line(behind("2 9 7 65535 7 65535").as_bytes()),
        "given up"
    );
    let first_true = "0 5 2 7 0 2 9 7 65535 7 65535";
    assert_eq!(answer_line(first_true.as_bytes()), "holds");
}

#[test]
fn twelve_polynomials_are_the_most() {
    let roots = |count: usize| {
        let parts: Vec<String> = (1..=count).map(|root| format!("x = {root}")).collect();
        format!("some x: {}", parts.join(" or "))
    };
    assert_eq!(MOST_POLYNOMIALS, 12);
    assert_eq!(answer_of_text(&roots(11)), "holds");
    let differences = |count: usize| {
        let parts: Vec<String> = (1..=count).map(|root| format!("x < {root}")).collect();
        format!("some x: {}", parts.join(" and "))
    };
    assert_eq!(answer_of_text(&differences(12)), "holds");
    assert_eq!(answer_of_text(&differences(13)), "given up");
}

#[test]
fn words_are_at_most_1024() {
    let negations = |count: usize| format!("0 {}2 7 0", "3 ".repeat(count));
    assert_eq!(answer_line(negations(MOST_WORDS - 4).as_bytes()), "holds");
    assert_eq!(answer_line(negations(MOST_WORDS - 3).as_bytes()), "no 3");
}

/// Sentences of school mathematics whose answers are known otherwise.
#[test]
fn school_sentences() {
    check(&[
        ("every x some y: x*x + 1 < y and not (y = 0)", "holds"),
        ("some x: x^3 - 3*x + 1 = 0 and 0 < x and x < 1", "holds"),
        ("some x: x^3 - 3*x + 1 = 0 and 1 < x and 3*x < 4", "fails"),
        ("every x every y: x < y -> x^3 < y^3", "holds"),
        ("every x every y: x < y -> x^2 < y^2", "fails"),
        ("every x every z some y: x < z -> x < y and y < z", "holds"),
        ("some x every y: x <= y", "fails"),
        ("every a some x: a*x = 1", "fails"),
        ("every a some x: a != 0 -> a*x = 1", "holds"),
        ("every x some y: y^2 = x or y^2 = -x", "holds"),
        ("some y every x: x*y = x", "holds"),
        ("every x: x^2 >= 0 and (x^2 = 0 <-> x = 0)", "holds"),
        ("every x: x^4 + 4 > 0", "holds"),
        ("every x: x^4 - 5*x^2 + 4 >= 0", "fails"),
        (": 1 < 2", "holds"),
    ]);
}
