//! What has been read of a text, and the whole of it.

use std::collections::HashMap;

use super::closed::binding_faults;
use super::lexer::{tokens, Place, Token};
use super::plain::{build, PlainNode, PlainPoint, PlainValues};
use super::{Fault, Packed, Places, Rule, STATEMENTS};
use crate::near::{did_you_mean, nearest};
use crate::{Tables, Unsorted};

const MOST_RECORDS: usize = 16_384;
const MOST_NODES: usize = 1_024;
const MOST_HEIGHT: u32 = 64;
const MOST_FILE_BYTES: usize = 4_194_304;

/// Turns a text into a case that passes the check, or says what is wrong first and where.
pub fn pack(text: &str) -> Result<Packed, Fault> {
    pack_or_faults(text).map_err(|mut faults| faults.swap_remove(0))
}

/// The same with everything that is wrong, in the order of the text: one fault for each statement at most, and then
/// what is wrong with the binding of variables.
pub fn pack_or_faults(text: &str) -> Result<Packed, Vec<Fault>> {
    pack_with(text, |unsorted| Ok(unsorted.sorted().encode()))
}

/// The same, the case made of its unsorted form by another writer; what that says against it is a fault.
pub fn pack_with(text: &str, write: impl FnOnce(Unsorted) -> Result<Vec<u8>, String>) -> Result<Packed, Vec<Fault>> {
    packed(Parser::of(text), write)
}

/// The same of a text without points, whose points come from elsewhere: `write` brings them. A point is a fault.
pub fn pack_rules_with(
    text: &str,
    write: impl FnOnce(Unsorted) -> Result<Vec<u8>, String>,
) -> Result<Packed, Vec<Fault>> {
    let (parser, faults) = Parser::of(text);
    packed((Parser { rules_only: true, ..parser }, faults), write)
}

fn packed(
    (mut parser, faults): (Parser, Vec<Fault>),
    write: impl FnOnce(Unsorted) -> Result<Vec<u8>, String>,
) -> Result<Packed, Vec<Fault>> {
    parser.faults = faults;
    while parser.token() != &Token::End {
        if let Err(fault) = parser.statement() {
            parser.told(fault);
            parser.skip_statement();
        }
    }
    parser.finish(write)
}

/// What a name stands for.
#[derive(Clone, Copy, PartialEq, Eq)]
pub enum Named {
    Value(u32),
    Condition(u32),
    Aggregate(u32),
    Term(u32),
    /// Its own statement has a fault, which is told there.
    Faulty,
}

#[derive(Default)]
pub struct Parser {
    pub tokens: Vec<(Token, Place)>,
    pub at: usize,
    pub nesting: usize,
    /// Whether points are a fault.
    pub rules_only: bool,
    faults: Vec<Fault>,
    pub variables: Vec<String>,
    pub values: PlainValues,
    pub points: Vec<PlainPoint>,
    pub nodes: Vec<PlainNode>,
    heights: Vec<u32>,
    pub named: HashMap<String, Named>,
    pub names: Vec<(String, u32)>,
    pub rules: Vec<Rule>,
    pub places: Places,
    /// What the statement that is read has referred to by name.
    pub references: Vec<(u32, Place)>,
}

pub type Parsed<T> = Result<T, Fault>;

impl Parser {
    /// At the beginning of a text, with what is wrong with its tokens.
    pub fn of(text: &str) -> (Parser, Vec<Fault>) {
        let (tokens, faults) = tokens(text);
        (Parser { tokens, ..Parser::default() }, faults)
    }

    /// Keeps a fault; one without words was told before.
    fn told(&mut self, fault: Fault) {
        if !fault.message.is_empty() {
            self.faults.push(fault);
        }
    }

    /// Goes on to the next line that begins with a statement's keyword, or with one misspelt.
    fn skip_statement(&mut self) {
        self.nesting = 0;
        let from = self.at;
        loop {
            let line = self.tokens[self.at.saturating_sub(1)].1.line;
            let keyword = matches!(self.token(), Token::Word(word) if STATEMENTS.contains(&word.as_str()));
            // the one that was just told is passed over, so that each turn goes on
            let begins = keyword || self.at > from && self.misspells_keyword();
            if self.token() == &Token::End || begins && self.place().line > line {
                return;
            }
            self.at += 1;
        }
    }

    /// A word near to a keyword, and after it what follows a keyword: no field and no action is written so.
    fn misspells_keyword(&self) -> bool {
        let follows =
            matches!(self.tokens.get(self.at + 1), Some((Token::Word(_) | Token::Digits(_) | Token::Time(_), _)));
        follows && matches!(self.token(), Token::Word(word) if nearest(word, STATEMENTS).is_some())
    }

    pub fn within_mosts(&self, place: Place) -> Parsed<()> {
        let counts = [
            (self.values.values.len(), MOST_RECORDS, "values"),
            (self.points.len(), MOST_RECORDS, "points"),
            (self.nodes.len(), MOST_NODES, "nodes"),
        ];
        match counts.iter().find(|(count, most, _)| count > most) {
            Some((_, most, what)) => place.fault(format!("from here on the case has more than {most} {what}")),
            None => Ok(()),
        }
    }

    /// Adds a node; its children are there already.
    pub fn add(&mut self, node: PlainNode, place: Place) -> Parsed<u32> {
        let height = 1 + node.children().iter().map(|&child| self.heights[child as usize]).max().unwrap_or(0);
        if height > MOST_HEIGHT {
            return place.fault(format!("nodes nest to at most {MOST_HEIGHT}"));
        }
        self.nodes.push(node);
        self.heights.push(height);
        self.places.nodes.push(place);
        Ok(self.nodes.len() as u32 - 1)
    }

    /// Whether a term may stand in comparisons and arithmetic only.
    pub fn is_operand_only(&self, node: u32) -> bool {
        matches!(self.nodes[node as usize], PlainNode::Aggregate(_) | PlainNode::Arithmetic(..))
    }

    pub fn variable(&mut self) -> Parsed<u32> {
        let place = self.place();
        let Token::Word(name) = self.token().clone() else {
            return self.expected("a variable");
        };
        self.at += 1;
        match self.variables.iter().position(|known| *known == name) {
            Some(number) => Ok(number as u32),
            None => {
                let near = did_you_mean(&name, self.variables.iter().map(String::as_str));
                let how = if near.is_empty() { "; `variables` at the top declares them" } else { &near };
                place.fault(format!("`{name}` is no variable{how}"))
            }
        }
    }

    fn finish(mut self, write: impl FnOnce(Unsorted) -> Result<Vec<u8>, String>) -> Result<Packed, Vec<Fault>> {
        let unsorted = build(self.variables.len() as u32, &self.values, &self.points, &self.nodes);
        // The strings are different and lie end to end: the case will be as long.
        if unsorted.tables.strings.len() > MOST_RECORDS {
            self.faults.push(self.place().told(format!("the case has more than {MOST_RECORDS} strings")));
        }
        if unsorted.tables.encode().len() > MOST_FILE_BYTES {
            self.faults.push(self.place().told(format!("the case takes more than {MOST_FILE_BYTES} bytes")));
        }
        let end = self.place();
        let (variables, names, rules, places) = (self.variables, self.names, self.rules, self.places);
        let mut packed = Packed { tables: unsorted.tables.clone(), variables, names, rules, places };
        self.faults.extend(binding_faults(&packed));
        self.faults.sort_by_key(|fault| (fault.line, fault.column));
        if !self.faults.is_empty() {
            return Err(self.faults);
        }
        let written = write(unsorted).and_then(|bytes| Tables::decode(&bytes));
        packed.tables = written.map_err(|said| vec![end.told(said)])?;
        Ok(packed)
    }
}
