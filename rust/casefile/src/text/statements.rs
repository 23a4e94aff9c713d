//! Reads statements: variables, and whatever has a name.

use super::lexer::{Place, Token};
use super::parser::{Named, Parsed, Parser};
use super::{Keyword, Rule, Statement, KEYWORDS, STATEMENTS};
use crate::near::did_you_mean;

const MOST_VARIABLES: usize = 16;

impl Parser {
    pub fn statement(&mut self) -> Parsed<()> {
        let place = self.place();
        let keyword = match self.token() {
            Token::Word(word) if STATEMENTS.contains(&word.as_str()) => word.clone(),
            Token::Word(word) => {
                let near = did_you_mean(word, STATEMENTS);
                let expected = "expected a statement: variables, value, point, rule, number, term or loose";
                return place.fault(format!("{expected}, found `{word}`{near}"));
            }
            _ => return self.expected("a statement: variables, value, point, rule, number, term or loose"),
        };
        self.at += 1;
        match keyword.as_str() {
            "variables" => self.variables_statement(place)?,
            "point" if self.rules_only => {
                return place.fault("the points come from the log: take this one out, or leave the log out");
            }
            "point" => self.point(place)?,
            "value" => self.value_statement()?,
            "rule" => self.rule_statement(Keyword::Rule, false)?,
            "number" => self.rule_statement(Keyword::Number, false)?,
            "term" => self.rule_statement(Keyword::Term, false)?,
            _ if self.word("rule") => self.rule_statement(Keyword::Rule, true)?,
            _ if self.word("number") => self.rule_statement(Keyword::Number, true)?,
            _ => return self.expected("`rule` or `number` after `loose`"),
        }
        self.within_mosts(place)
    }

    fn variables_statement(&mut self, place: Place) -> Parsed<()> {
        if !self.variables.is_empty() || !self.nodes.is_empty() {
            return place.fault("`variables` stands once, before the rules");
        }
        while let Token::Word(name) = self.token().clone() {
            if STATEMENTS.contains(&name.as_str()) {
                break;
            }
            let place = self.place();
            if KEYWORDS.contains(&name.as_str()) {
                return place.fault(format!("`{name}` is a keyword and names no variable"));
            }
            if self.variables.contains(&name) {
                return place.fault(format!("the variable `{name}` is here twice"));
            }
            if self.variables.len() == MOST_VARIABLES {
                return place.fault(format!("a case has at most {MOST_VARIABLES} variables"));
            }
            self.variables.push(name);
            self.at += 1;
        }
        Ok(())
    }

    /// The name that a statement gives, and where it stands.
    fn given_name(&mut self, keyword: &str) -> Parsed<(String, Place)> {
        let place = self.place();
        let Token::Word(name) = self.token().clone() else {
            return place.fault(format!("after `{keyword}` comes its name, a plain word"));
        };
        self.at += 1;
        if self.named.insert(name.clone(), Named::Faulty).is_some() {
            return place.fault(format!("the name `{name}` is given twice: give this one another"));
        }
        Ok((name, place))
    }

    fn value_statement(&mut self) -> Parsed<()> {
        let (name, _) = self.given_name("value")?;
        self.expect_sign("=")?;
        let value = Named::Value(self.value()?);
        self.named.insert(name, value);
        Ok(())
    }

    /// `rule NAME(parameters) = ..`, and so for number and term.
    fn rule_statement(&mut self, keyword: Keyword, loose: bool) -> Parsed<()> {
        let (name, place) = self.given_name(keyword.word())?;
        let parameters = if keyword == Keyword::Term { Vec::new() } else { self.parameters()? };
        self.expect_sign("=")?;
        self.references.clear();
        let first = self.nodes.len() as u32;
        let (node, named) = match keyword {
            Keyword::Rule => self.condition().map(|node| (node, Named::Condition(node)))?,
            Keyword::Number => self.aggregate().map(|node| (node, Named::Aggregate(node)))?,
            Keyword::Term => self.operand().map(|node| (node, Named::Term(node)))?,
        };
        self.ended(keyword)?;
        self.named.insert(name.clone(), named);
        self.names.push((name, node));
        self.rules.push(Rule { keyword, parameters, loose });
        self.places.statements.push(Statement { name: place, first, references: self.references.clone() });
        Ok(())
    }

    fn parameters(&mut self) -> Parsed<Vec<u32>> {
        let mut parameters = Vec::new();
        if !self.sign("(") {
            return Ok(parameters);
        }
        loop {
            let place = self.place();
            let variable = self.variable()?;
            if parameters.contains(&variable) {
                return place.fault("this parameter is here twice");
            }
            parameters.push(variable);
            if !self.sign(",") {
                break;
            }
        }
        self.expect_sign(")")?;
        Ok(parameters)
    }

    /// After a rule comes the next statement: what else stands there was meant to belong to it.
    fn ended(&mut self, keyword: Keyword) -> Parsed<()> {
        match self.token() {
            Token::End => Ok(()),
            Token::Word(word) if STATEMENTS.contains(&word.as_str()) => Ok(()),
            _ => self.expected(&format!("the end of this {}, or `and`, `or`, `since`", keyword.word())),
        }
    }

    /// What `@name` refers to.
    pub fn reference(&mut self) -> Parsed<Named> {
        let at = self.place();
        self.expect_sign("@")?;
        let place = self.place();
        let name = self.name("a name")?;
        match self.named.get(&name).copied() {
            Some(Named::Faulty) => place.silent(),
            Some(named) => {
                if let Named::Condition(node) | Named::Aggregate(node) | Named::Term(node) = named {
                    self.references.push((node, at));
                }
                Ok(named)
            }
            None => {
                let near = did_you_mean(&name, self.named.keys().map(String::as_str));
                place.fault(format!("nothing named `{name}` stands above{near}"))
            }
        }
    }
}
