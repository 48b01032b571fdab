//! Trees of questions: the tree of a sentence's formula, and the trees that elimination of quantifiers makes of it.
//!
//! A tree made by elimination doesn't hold the answers at its ends, but how the table of signs at each end comes about. The
//! answer is found when somebody gets to that end, and kept. So rows are made only for ends that are reached.

use crate::polynomial::{Polynomial, Variable};
use crate::sign::{Answer, Sign};
use crate::table::{Row, TableRecipe};
use crate::words::{Expression, Formula, Quantifier, Sentence};
use std::cell::Cell;
use std::rc::Rc;

/// A tree with this many questions or more is given up.
pub const TOO_MANY_QUESTIONS: u64 = 3_500;

/// A polynomial that a tree asks, by its place in the tree's list.
pub type PolynomialId = usize;

pub enum Node {
    Answer(Answer),
    Question {
        asked: PolynomialId,
        branches: [Rc<Node>; 3],
    },
    TableEnd(TableEnd),
}

/// Where the questions of a table end.
pub struct TableEnd {
    recipe: TableRecipe,
    answer: Cell<Option<Answer>>,
}

impl TableEnd {
    pub fn new(recipe: TableRecipe) -> TableEnd {
        TableEnd {
            recipe,
            answer: Cell::new(None),
        }
    }
}

/// The tree from which a tree was made by eliminating a quantifier.
pub struct Eliminated {
    pub quantifier: Quantifier,
    pub inner: Box<Tree>,
    /// For each polynomial that the inner tree asks, its column in the tables.
    pub columns: Vec<Option<usize>>,
}

pub struct Tree {
    /// Polynomials of the questions, without repetitions, in the order of their making.
    pub polynomials: Vec<Polynomial>,
    pub root: Rc<Node>,
    pub eliminated: Option<Eliminated>,
}

impl Tree {
    /// The tree's answer, given the sign of each polynomial.
    pub fn answer(&self, sign_of: &dyn Fn(PolynomialId) -> Sign) -> Answer {
        let mut node = &self.root;
        loop {
            match &**node {
                Node::Answer(answer) => return *answer,
                Node::Question { asked, branches } => node = &branches[sign_of(*asked).branch()],
                Node::TableEnd(end) => return self.answer_at_table_end(end),
            }
        }
    }

    fn answer_at_table_end(&self, end: &TableEnd) -> Answer {
        let answer = end.answer.get().unwrap_or_else(|| match end.recipe.rows() {
            Some(rows) => self.answer_of_rows(&rows),
            None => Answer::GivenUp,
        });
        end.answer.set(Some(answer));
        answer
    }

    fn answer_of_rows(&self, rows: &[Row]) -> Answer {
        let eliminated = self
            .eliminated
            .as_ref()
            .expect("only elimination makes tables");
        let (decisive, otherwise) = match eliminated.quantifier {
            Quantifier::Some => (Answer::Yes, Answer::No),
            Quantifier::Every => (Answer::No, Answer::Yes),
        };
        let mut put_together = otherwise;
        for row in rows {
            let sign_of =
                |id: PolynomialId| row[eliminated.columns[id].expect("what is asked has a column")];
            let answer = eliminated.inner.answer(&sign_of);
            if answer == decisive {
                return decisive;
            }
            if answer == Answer::GivenUp {
                put_together = Answer::GivenUp;
            }
        }
        put_together
    }

    /// The polynomials that the tree asks, without repetitions: those of the branch above, then at, then below, then the
    /// question's own, each one put in front of the list unless it is there.
    pub fn asked_in_order(&self) -> Vec<PolynomialId> {
        let mut last_first = Vec::new();
        collect_asked(&self.root, &mut last_first);
        last_first.reverse();
        last_first
    }
}

fn collect_asked(node: &Node, last_first: &mut Vec<PolynomialId>) {
    if let Node::Question { asked, branches } = node {
        for branch in branches.iter().rev() {
            collect_asked(branch, last_first);
        }
        if !last_first.contains(asked) {
            last_first.push(*asked);
        }
    }
}

/// Looks a polynomial up in a tree's list; new ones go to its end.
pub fn intern(polynomials: &mut Vec<Polynomial>, polynomial: Polynomial) -> PolynomialId {
    match polynomials.iter().position(|known| *known == polynomial) {
        Some(id) => id,
        None => {
            polynomials.push(polynomial);
            polynomials.len() - 1
        }
    }
}

/// The tree of a sentence's formula; nothing if it has too many questions.
pub fn tree_of_sentence(sentence: &Sentence) -> Option<Tree> {
    let mut maker = FormulaTrees {
        variables: sentence.quantifiers.len(),
        polynomials: Vec::new(),
    };
    let tree = maker.of_formula(
        &sentence.formula,
        &Subtree::of(Answer::Yes),
        &Subtree::of(Answer::No),
    );
    let FormulaTrees { polynomials, .. } = maker;
    (tree.questions < TOO_MANY_QUESTIONS).then_some(Tree {
        polynomials,
        root: tree.node,
        eliminated: None,
    })
}

/// A part of a tree, perhaps shared, with the count of its questions as if nothing were shared.
#[derive(Clone)]
struct Subtree {
    node: Rc<Node>,
    questions: u64,
}

impl Subtree {
    fn of(answer: Answer) -> Subtree {
        Subtree {
            node: Rc::new(Node::Answer(answer)),
            questions: 0,
        }
    }
}

struct FormulaTrees {
    variables: usize,
    polynomials: Vec<Polynomial>,
}

impl FormulaTrees {
    fn of_formula(&mut self, formula: &Formula, yes: &Subtree, no: &Subtree) -> Subtree {
        match formula {
            Formula::Below(term) => self.question(term, [yes, no, no]),
            Formula::Zero(term) => self.question(term, [no, yes, no]),
            Formula::Not(inner) => self.of_formula(inner, no, yes),
            Formula::And(first, second) => {
                let behind = self.of_formula(second, yes, no);
                self.of_formula(first, &behind, no)
            }
            Formula::Or(first, second) => {
                let behind = self.of_formula(second, yes, no);
                self.of_formula(first, yes, &behind)
            }
        }
    }

    fn question(&mut self, term: &Expression, branches: [&Subtree; 3]) -> Subtree {
        let Some(polynomial) = polynomial_of(term, self.variables) else {
            return Subtree::of(Answer::GivenUp);
        };
        let asked = intern(&mut self.polynomials, polynomial);
        let questions = branches
            .iter()
            .fold(1u64, |sum, branch| sum.saturating_add(branch.questions));
        let branches = branches.map(|branch| branch.node.clone());
        Subtree {
            node: Rc::new(Node::Question { asked, branches }),
            questions,
        }
    }
}

/// The polynomial that a term is, unless it or something in it isn't modest.
fn polynomial_of(term: &Expression, variables: usize) -> Option<Polynomial> {
    let polynomial = match term {
        Expression::Variable(index) => {
            Polynomial::variable(Variable::from_inside(*index, variables))
        }
        Expression::Number(value) => Polynomial::number(i128::from(*value)),
        Expression::Sum(a, b) => polynomial_of(a, variables)?.plus(&polynomial_of(b, variables)?),
        Expression::Product(a, b) => {
            polynomial_of(a, variables)?.times(&polynomial_of(b, variables)?)
        }
    };
    polynomial.is_modest().then_some(polynomial)
}
