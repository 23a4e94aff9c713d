//! Reads conditions.

use super::lexer::Token;
use super::parser::{Named, Parsed, Parser};
use super::plain::PlainNode;
use super::{behind_dot, quoted, ARITHMETIC, COMPARISONS, KEYWORDS, UNITS};
use crate::records::Within;

/// How the members of an object are reached along a path.
#[derive(Clone, Copy)]
pub enum Reached {
    /// Logged fields: a name of the path for each name of a member.
    NameByName,
    /// Context and attributes: the path's names joined by dots are the key of a member.
    Joined,
}

impl Reached {
    /// What is wrong with a path's name that holds a dot, and what to write instead.
    fn told_of(self, name: &str) -> String {
        let parts: Vec<&str> = name.split('.').collect();
        match self {
            Reached::NameByName => {
                "a name in a path holds no dot, and a logged field whose name holds one is reached by no path"
                    .to_string()
            }
            Reached::Joined => {
                format!("a name in a path holds no dot: write {}, which finds {}", behind_dot(&parts), quoted(name))
            }
        }
    }
}

impl Parser {
    pub fn condition(&mut self) -> Parsed<u32> {
        let place = self.place();
        let mut left = self.conjunction()?;
        while self.word("or") {
            let right = self.conjunction()?;
            left = self.add(PlainNode::Or(left, right), place)?;
        }
        Ok(left)
    }

    fn conjunction(&mut self) -> Parsed<u32> {
        let place = self.place();
        let mut left = self.since()?;
        while self.word("and") {
            let right = self.since()?;
            left = self.add(PlainNode::And(left, right), place)?;
        }
        Ok(left)
    }

    fn since(&mut self) -> Parsed<u32> {
        let place = self.place();
        let left = self.prefixed()?;
        if !self.word("since") {
            return Ok(left);
        }
        let within = self.within()?;
        let right = self.prefixed()?;
        self.add(PlainNode::Since(left, right, within), place)
    }

    fn within(&mut self) -> Parsed<Within> {
        self.expect_word("within")?;
        let amount = self.integer("an amount of time, as 10s")?;
        let unit = match self.token() {
            Token::Word(word) => UNITS.iter().position(|unit| unit == word),
            _ => None,
        };
        match unit {
            Some(unit) => {
                self.at += 1;
                Ok(Within { amount, unit: unit as u32 })
            }
            None => self.expected("a unit right after the amount: s, m, h or d"),
        }
    }

    /// A condition that binds more tightly than `since`, `and` and `or`.
    pub fn prefixed(&mut self) -> Parsed<u32> {
        self.deeper(Parser::one_prefixed)
    }

    fn one_prefixed(&mut self) -> Parsed<u32> {
        let place = self.place();
        if self.word("not") {
            let inner = self.prefixed()?;
            return self.add(PlainNode::Not(inner), place);
        }
        if self.word("formerly") {
            let within = self.within()?;
            let body = self.prefixed()?;
            return self.add(PlainNode::Formerly(within, body), place);
        }
        if self.word("previous") {
            let within = self.within()?;
            let body = self.prefixed()?;
            return self.add(PlainNode::Previous(within, body), place);
        }
        if self.word("exists") {
            let variable = self.variable()?;
            let body = self.prefixed()?;
            return self.add(PlainNode::Exists(variable, body), place);
        }
        if self.word("tp") {
            let variable = self.variable()?;
            return self.add(PlainNode::Tp(variable), place);
        }
        self.primary()
    }

    fn primary(&mut self) -> Parsed<u32> {
        if self.is_sign("(") && !self.group_is_term() {
            self.expect_sign("(")?;
            let inner = self.condition()?;
            self.expect_sign(")")?;
            return Ok(inner);
        }
        if let (Token::Sign("@"), Token::Word(name)) = (self.token(), self.ahead(1)) {
            if let Some(Named::Condition(node)) = self.named.get(name).copied() {
                self.reference()?;
                return Ok(node);
            }
        }
        if self.at_predicate() {
            return self.predicate();
        }
        self.comparison()
    }

    /// Whether a bracketed group is part of a comparison: an operator follows its end.
    fn group_is_term(&self) -> bool {
        let mut open = 0;
        for (k, (token, _)) in self.tokens.iter().enumerate().skip(self.at) {
            match token {
                Token::Sign("(") => open += 1,
                Token::Sign(")") if open == 1 => {
                    let next = &self.tokens[k + 1].0;
                    return matches!(next, Token::Sign(s) if COMPARISONS.contains(s) || ARITHMETIC.contains(s));
                }
                Token::Sign(")") => open -= 1,
                _ => {}
            }
        }
        false
    }

    /// Whether names, `::` and `/` lead to an opening bracket.
    fn at_predicate(&self) -> bool {
        let is_name = |token: &Token| matches!(token, Token::Word(_) | Token::Quoted(_));
        let starts = match self.token() {
            Token::Word(word) => !KEYWORDS.contains(&word.as_str()),
            token => is_name(token),
        };
        let mut k = 1;
        while starts && matches!(self.ahead(k), Token::Sign("::" | "/")) && is_name(self.ahead(k + 1)) {
            k += 2;
        }
        starts && self.ahead(k) == &Token::Sign("(")
    }

    fn predicate(&mut self) -> Parsed<u32> {
        let place = self.place();
        let action = self.action("an action")?;
        self.expect_sign("(")?;
        let mut arguments = Vec::new();
        let mut places = Vec::new();
        while !self.is_sign(")") {
            places.push(self.place());
            let path = self.path(Reached::NameByName)?;
            self.expect_sign(":")?;
            arguments.push((path, self.simple_term()?));
            if !self.sign(",") {
                break;
            }
        }
        self.expect_sign(")")?;
        let node = self.add(PlainNode::Predicate(action, arguments), place)?;
        self.places.arguments.extend(places.into_iter().enumerate().map(|(k, place)| ((node, k), place)));
        Ok(node)
    }

    fn comparison(&mut self) -> Parsed<u32> {
        let place = self.place();
        let left = self.operand()?;
        let op = COMPARISONS.iter().position(|sign| self.is_sign(sign));
        let Some(op) = op else {
            return self.expected("a comparison: == != < <= > >=");
        };
        self.at += 1;
        let right = self.operand()?;
        self.add(PlainNode::Comparison(op as u32, left, right), place)
    }

    /// `name.name`, with no dot inside a name.
    pub fn path(&mut self, reached: Reached) -> Parsed<Vec<String>> {
        let mut path = Vec::new();
        loop {
            let place = self.place();
            let name = self.name("a name")?;
            if name.contains('.') {
                return place.fault(reached.told_of(&name));
            }
            path.push(name);
            if !self.sign(".") {
                return Ok(path);
            }
        }
    }
}
