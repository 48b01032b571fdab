//! Sentences as texts, translated to words: for the cases of the tests.

struct Translator<'a> {
    tokens: Vec<&'a str>,
    next: usize,
    /// The outermost first.
    names: Vec<&'a str>,
}

/// The words of a text that fits; panics at one that doesn't.
pub fn words_of_text(text: &str) -> Vec<i64> {
    let mut translator = Translator {
        tokens: tokens(text),
        next: 0,
        names: Vec::new(),
    };
    let mut quantifiers = Vec::new();
    while !translator.accept(":") {
        quantifiers.insert(0, i64::from(translator.take() == "every"));
        let name = translator.take();
        translator.names.push(name);
    }
    let formula = translator.equivalence();
    assert_eq!(translator.next, translator.tokens.len(), "{text}");
    [vec![quantifiers.len() as i64], quantifiers, formula].concat()
}

fn tokens(text: &str) -> Vec<&str> {
    let mut tokens = Vec::new();
    let mut rest = text.trim_start();
    while !rest.is_empty() {
        let sign = ["<->", "->", "<=", ">=", "!="]
            .iter()
            .find(|sign| rest.starts_with(**sign));
        let word_length = rest
            .find(|c: char| !c.is_ascii_alphanumeric())
            .unwrap_or(rest.len());
        let length = sign.map_or(word_length.max(1), |sign| sign.len());
        tokens.push(&rest[..length]);
        rest = rest[length..].trim_start();
    }
    tokens
}

fn node(word: i64, parts: &[Vec<i64>]) -> Vec<i64> {
    [vec![word], parts.concat()].concat()
}

fn minus(s: Vec<i64>, t: Vec<i64>) -> Vec<i64> {
    node(8, &[s, negative(t)])
}

fn negative(t: Vec<i64>) -> Vec<i64> {
    node(9, &[vec![7, -1], t])
}

fn below(s: Vec<i64>, t: Vec<i64>) -> Vec<i64> {
    node(1, &[minus(s, t)])
}

fn not(p: Vec<i64>) -> Vec<i64> {
    node(3, &[p])
}

fn implies(p: Vec<i64>, q: Vec<i64>) -> Vec<i64> {
    node(5, &[not(p), q])
}

impl<'a> Translator<'a> {
    fn peek(&self) -> &'a str {
        self.tokens.get(self.next).copied().unwrap_or("")
    }

    fn take(&mut self) -> &'a str {
        self.next += 1;
        self.tokens[self.next - 1]
    }

    fn accept(&mut self, token: &str) -> bool {
        let found = self.peek() == token;
        self.next += usize::from(found);
        found
    }

    fn equivalence(&mut self) -> Vec<i64> {
        let mut left = self.implication();
        while self.accept("<->") {
            let right = self.implication();
            left = node(
                4,
                &[implies(left.clone(), right.clone()), implies(right, left)],
            );
        }
        left
    }

    fn implication(&mut self) -> Vec<i64> {
        let left = self.disjunction();
        if self.accept("->") {
            implies(left, self.implication())
        } else {
            left
        }
    }

    fn disjunction(&mut self) -> Vec<i64> {
        let mut left = self.conjunction();
        while self.accept("or") {
            left = node(5, &[left, self.conjunction()]);
        }
        left
    }

    fn conjunction(&mut self) -> Vec<i64> {
        let mut left = self.negation();
        while self.accept("and") {
            left = node(4, &[left, self.negation()]);
        }
        left
    }

    fn negation(&mut self) -> Vec<i64> {
        if self.accept("not") {
            return not(self.negation());
        }
        if self.peek() == "(" && self.parentheses_hold_a_formula() {
            self.take();
            let formula = self.equivalence();
            assert!(self.accept(")"));
            return formula;
        }
        self.comparison()
    }

    fn parentheses_hold_a_formula(&self) -> bool {
        let mut depth = 0;
        for token in &self.tokens[self.next..] {
            match *token {
                "(" => depth += 1,
                ")" => depth -= 1,
                "<" | "<=" | "=" | "!=" | ">" | ">=" => return true,
                _ => {}
            }
            if depth == 0 {
                return false;
            }
        }
        false
    }

    fn comparison(&mut self) -> Vec<i64> {
        let s = self.sum();
        let sign = self.take();
        let t = self.sum();
        match sign {
            "<" => below(s, t),
            ">" => below(t, s),
            "<=" => not(below(t, s)),
            ">=" => not(below(s, t)),
            "=" => node(2, &[minus(s, t)]),
            "!=" => not(node(2, &[minus(s, t)])),
            _ => panic!("{sign} is no comparison"),
        }
    }

    fn sum(&mut self) -> Vec<i64> {
        let mut left = if self.accept("-") {
            negative(self.product())
        } else {
            self.product()
        };
        loop {
            if self.accept("+") {
                left = node(8, &[left, self.product()]);
            } else if self.accept("-") {
                left = minus(left, self.product());
            } else {
                return left;
            }
        }
    }

    fn product(&mut self) -> Vec<i64> {
        let mut left = self.power();
        while self.accept("*") {
            left = node(9, &[left, self.power()]);
        }
        left
    }

    fn power(&mut self) -> Vec<i64> {
        let base = self.atom();
        if !self.accept("^") {
            return base;
        }
        let exponent: usize = self.take().parse().expect("an exponent is a digit");
        (1..exponent).fold(base.clone(), |product, _| node(9, &[product, base.clone()]))
    }

    fn atom(&mut self) -> Vec<i64> {
        if self.accept("(") {
            let sum = self.sum();
            assert!(self.accept(")"));
            return sum;
        }
        let token = self.take();
        match token.parse::<i64>() {
            Ok(number) => vec![7, number],
            Err(_) => {
                let from_inside = self.names.iter().rev().position(|name| *name == token);
                vec![6, from_inside.expect("a name is quantified") as i64]
            }
        }
    }
}
