use std::fmt;

use casefile::text::{self, Packed};

use crate::numbers::{RuleNo, VariableNo};
use crate::refusal::Refusal;

/// What is wrong with the text of a case, and where: line and column count from 1.
#[derive(Clone, Debug, PartialEq, Eq)]
#[non_exhaustive]
pub struct Fault {
    /// The line.
    pub line: usize,
    /// The column, in characters.
    pub column: usize,
    /// What is wrong there.
    pub message: String,
}

impl Fault {
    /// The packer is tested, not proved: should it ever make what the writer refuses, it is said.
    pub(crate) fn refused(refusal: Refusal) -> String {
        format!("what was packed from this text is refused: {refusal}")
    }
}

impl From<text::Fault> for Fault {
    fn from(fault: text::Fault) -> Fault {
        Fault { line: fault.line, column: fault.column, message: fault.message }
    }
}

impl fmt::Display for Fault {
    fn fmt(&self, f: &mut fmt::Formatter) -> fmt::Result {
        write!(f, "{}:{}: {}", self.line, self.column, self.message)
    }
}

impl std::error::Error for Fault {}

/// The names that a text gave. A case file has none.
#[derive(Clone, Debug, Default)]
pub(crate) struct Names {
    rules: Vec<Named>,
    variables: Vec<String>,
}

#[derive(Clone, Debug)]
pub(crate) struct Named {
    pub name: String,
    pub rule: RuleNo,
    /// The variables that must be bound when it is asked.
    pub parameters: Vec<VariableNo>,
}

impl Names {
    pub fn new(rules: Vec<Named>, variables: Vec<String>) -> Names {
        Names { rules, variables }
    }

    pub fn of(packed: &Packed) -> Names {
        let named = |((name, node), rule): (&(String, u32), &text::Rule)| Named {
            name: name.clone(),
            rule: RuleNo(*node),
            // A case has at most 16 variables.
            parameters: rule.parameters.iter().map(|&parameter| VariableNo(parameter as u16)).collect(),
        };
        let rules = packed.names.iter().zip(&packed.rules).map(named).collect();
        Names { rules, variables: packed.variables.clone() }
    }

    pub fn rules(&self) -> impl ExactSizeIterator<Item = (&str, RuleNo)> {
        self.rules.iter().map(|named| (named.name.as_str(), named.rule))
    }

    pub fn parameters(&self, rule: RuleNo) -> &[VariableNo] {
        self.rules.iter().find(|named| named.rule == rule).map_or(&[], |named| &named.parameters)
    }

    pub fn variable(&self, name: &str) -> Option<VariableNo> {
        let place = self.variables.iter().position(|known| known == name)?;
        Some(VariableNo(place as u16))
    }
}
