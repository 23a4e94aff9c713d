//! The text form of a case: `pack` reads it, `unpack` writes it. docs/CASE-TEXT.md describes it.

mod closed;
mod conditions;
mod cursor;
mod lexer;
mod parser;
mod plain;
mod plan;
mod points;
mod printed;
mod printer;
mod statements;
mod terms;
mod values;

use std::collections::HashMap;
use std::fmt;

use crate::tables::Tables;

pub use closed::told;
pub use lexer::Place;
pub(crate) use lexer::Token;
pub use parser::{pack, pack_or_faults, pack_rules_with, pack_with};
pub(crate) use parser::{Parsed, Parser};
pub(crate) use printed::quoted;
pub use printed::{behind_dot, word};
pub use printer::{unpack, unpack_named, Given, NodeTexts};

/// What is wrong with a text, and where: line and column count from 1.
#[derive(Clone, Debug, PartialEq, Eq)]
pub struct Fault {
    pub line: usize,
    pub column: usize,
    pub message: String,
}

impl fmt::Display for Fault {
    fn fmt(&self, f: &mut fmt::Formatter) -> fmt::Result {
        write!(f, "{}:{}: {}", self.line, self.column, self.message)
    }
}

impl std::error::Error for Fault {}

/// A packed text: the tables, and the node that each rule, number and term became.
#[derive(Clone, Debug)]
pub struct Packed {
    pub tables: Tables,
    pub variables: Vec<String>,
    pub names: Vec<(String, u32)>,
    /// What each of the names is, in the same order.
    pub rules: Vec<Rule>,
    pub places: Places,
}

/// How a name is to be asked.
#[derive(Clone, Debug, PartialEq, Eq)]
pub struct Rule {
    pub keyword: Keyword,
    /// The variables that must be bound when it is asked.
    pub parameters: Vec<u32>,
    /// Whether its variables may be unbound, whatever that gives.
    pub loose: bool,
}

/// What a statement names.
#[derive(Clone, Copy, Debug, PartialEq, Eq)]
pub enum Keyword {
    Rule,
    Number,
    Term,
}

impl Keyword {
    pub fn word(self) -> &'static str {
        match self {
            Keyword::Rule => "rule",
            Keyword::Number => "number",
            Keyword::Term => "term",
        }
    }

    pub fn of_word(word: &str) -> Option<Keyword> {
        [Keyword::Rule, Keyword::Number, Keyword::Term].into_iter().find(|keyword| keyword.word() == word)
    }
}

/// Where things stand in a text.
#[derive(Clone, Debug, Default)]
pub struct Places {
    pub nodes: Vec<Place>,
    /// Of a predicate's arguments, by node and number of the argument.
    pub arguments: HashMap<(u32, usize), Place>,
    pub points: Vec<Place>,
    statements: Vec<Statement>,
}

#[derive(Clone, Debug)]
struct Statement {
    name: Place,
    /// The first node that is its own.
    first: u32,
    /// What it refers to by name, and where.
    references: Vec<(u32, Place)>,
}

impl Packed {
    /// The node of a rule, number or term.
    pub fn node(&self, name: &str) -> Option<u32> {
        self.names.iter().find(|(known, _)| known == name).map(|(_, node)| *node)
    }

    /// The number of a variable.
    pub fn variable(&self, name: &str) -> Option<u32> {
        self.variables.iter().position(|known| known == name).map(|k| k as u32)
    }
}

/// Words that cannot name an action, a type or a variable unless quoted.
const KEYWORDS: [&str; 29] = [
    "loose",
    "variables",
    "value",
    "point",
    "rule",
    "number",
    "term",
    "logged",
    "context",
    "principal",
    "resource",
    "entity",
    "and",
    "or",
    "not",
    "since",
    "within",
    "formerly",
    "previous",
    "exists",
    "tp",
    "sum",
    "count",
    "for",
    "where",
    "true",
    "false",
    "null",
    "decimal",
];

/// Words that begin a statement.
const STATEMENTS: [&str; 7] = ["variables", "value", "point", "rule", "number", "term", "loose"];

/// Comparison operators in the order of document 01's numbers.
const COMPARISONS: [&str; 6] = ["<=", "<", ">=", ">", "==", "!="];
const ARITHMETIC: [&str; 3] = ["+", "-", "*"];
const ROOTS: [&str; 2] = ["principal", "resource"];
const UNITS: [&str; 4] = ["s", "m", "h", "d"];
const USUAL_KIND: &str = "request";

fn is_identifier(text: &str) -> bool {
    let mut characters = text.chars();
    characters.next().is_some_and(|c| c.is_ascii_alphabetic() || c == '_') && characters.all(is_of_word)
}

fn is_of_word(c: char) -> bool {
    c.is_ascii_alphanumeric() || c == '_'
}
