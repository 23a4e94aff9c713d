//! Reads terms and aggregates.

use super::conditions::Reached;
use super::lexer::{Place, Token};
use super::parser::{Named, Parsed, Parser};
use super::plain::PlainNode;
use super::{ARITHMETIC, ROOTS};

impl Parser {
    /// A side of a comparison: sums of products of factors.
    pub fn operand(&mut self) -> Parsed<u32> {
        let place = self.place();
        let mut left = self.product()?;
        while let Some(op) = ARITHMETIC[..2].iter().position(|sign| self.is_sign(sign)) {
            self.next();
            let right = self.product()?;
            left = self.add(PlainNode::Arithmetic(op as u32, left, right), place)?;
        }
        Ok(left)
    }

    fn product(&mut self) -> Parsed<u32> {
        let place = self.place();
        let mut left = self.factor()?;
        while self.sign("*") {
            let right = self.factor()?;
            left = self.add(PlainNode::Arithmetic(2, left, right), place)?;
        }
        Ok(left)
    }

    fn factor(&mut self) -> Parsed<u32> {
        self.deeper(Parser::one_factor)
    }

    fn one_factor(&mut self) -> Parsed<u32> {
        let place = self.place();
        if self.sign("(") {
            let inner = self.operand()?;
            self.expect_sign(")")?;
            return Ok(inner);
        }
        if self.is_word("count") || self.is_word("sum") {
            let aggregate = self.aggregate()?;
            return self.add(PlainNode::Aggregate(aggregate), place);
        }
        if self.is_sign("@") {
            return match self.reference()? {
                Named::Value(value) => self.literal(value, place),
                Named::Term(node) => Ok(node),
                Named::Aggregate(aggregate) => self.add(PlainNode::Aggregate(aggregate), place),
                Named::Condition(_) | Named::Faulty => place.fault("a rule is no term"),
            };
        }
        self.simple_term()
    }

    /// A term that may stand in a predicate, too: no aggregate and no arithmetic.
    pub fn simple_term(&mut self) -> Parsed<u32> {
        let place = self.place();
        if self.sign("*") {
            return self.add(PlainNode::Wildcard, place);
        }
        if self.is_word("count") || self.is_word("sum") {
            return place.fault("an aggregate stands only in a comparison");
        }
        if self.is_sign("@") {
            return self.simple_reference();
        }
        if self.word("context") {
            self.expect_sign(".")?;
            let path = self.path(Reached::Joined)?;
            return self.add(PlainNode::Context(path), place);
        }
        for (root, word) in ROOTS.iter().enumerate() {
            if self.word(word) {
                let path = if self.sign(".") { self.path(Reached::Joined)? } else { Vec::new() };
                return self.add(PlainNode::Scope(root as u32, path), place);
            }
        }
        if self.at_variable() {
            let variable = self.variable()?;
            return self.add(PlainNode::Variable(variable), place);
        }
        let value = self.value()?;
        self.literal(value, place)
    }

    fn simple_reference(&mut self) -> Parsed<u32> {
        let place = self.place();
        match self.reference()? {
            Named::Value(value) => self.literal(value, place),
            Named::Term(node) if !self.is_operand_only(node) => Ok(node),
            _ => place.fault("only a plain term or a value may stand here"),
        }
    }

    /// A word that is no value and begins no entity is a variable.
    fn at_variable(&self) -> bool {
        match self.token() {
            Token::Word(word) => {
                !["null", "true", "false", "decimal"].contains(&word.as_str()) && self.ahead(1) != &Token::Sign("::")
            }
            _ => false,
        }
    }

    fn literal(&mut self, value: u32, place: Place) -> Parsed<u32> {
        if !self.values.literal[value as usize] {
            return place.fault("a literal in a rule holds no null and no object");
        }
        self.add(PlainNode::Literal(value), place)
    }

    /// `count for x, y where condition`, `sum x for x, y where condition`.
    pub fn aggregate(&mut self) -> Parsed<u32> {
        let place = self.place();
        if self.is_sign("@") {
            return match self.reference()? {
                Named::Aggregate(node) => Ok(node),
                _ => place.fault("this name is no number's"),
            };
        }
        let summed = if self.word("sum") {
            Some(self.variable()?)
        } else {
            self.expect_word("count")?;
            None
        };
        let mut binders = Vec::new();
        if self.word("for") {
            binders.push(self.variable()?);
            while self.sign(",") {
                binders.push(self.variable()?);
            }
        }
        self.expect_word("where")?;
        let body = self.prefixed()?;
        match summed {
            Some(variable) => self.add(PlainNode::Sum(variable, binders, body), place),
            None => self.add(PlainNode::Count(binders, body), place),
        }
    }
}
