//! The names of a case: those of its text, or of the file beside a packed case, bound to it by a hash.
//!
//! The file CASE.names has a line for each thing: `galivodern names 1`, `case SHA-256`, `variable b`,
//! `rule 6 reviewed b n` with its parameters, `number 10 boards`, `loose rule 14 first`.

use std::ffi::{OsStr, OsString};

use casefile::near::did_you_mean;
use casefile::text::{Given, Keyword, Packed};

use crate::failure::Failure;
use crate::input::read;
use crate::sha256::sha256;

const FIRST_LINE: &str = "galivodern names 1";

#[derive(Clone, Debug, Default, PartialEq, Eq)]
pub struct Names {
    pub variables: Vec<String>,
    pub rules: Vec<Name>,
}

/// A rule, number or term.
#[derive(Clone, Debug, PartialEq, Eq)]
pub struct Name {
    pub name: String,
    pub node: u32,
    pub keyword: Keyword,
    pub parameters: Vec<u32>,
    pub loose: bool,
}

impl Names {
    pub fn of_text(packed: &Packed) -> Names {
        let name = |((name, node), rule): (&(String, u32), &casefile::text::Rule)| Name {
            name: name.clone(),
            node: *node,
            keyword: rule.keyword,
            parameters: rule.parameters.clone(),
            loose: rule.loose,
        };
        let rules = packed.names.iter().zip(&packed.rules).map(name).collect();
        Names { variables: packed.variables.clone(), rules }
    }

    /// The names beside a case file; none where there is no such file.
    pub fn beside(case: &OsStr, bytes: &[u8]) -> Result<Names, Failure> {
        let file = beside(case);
        if case == "-" || !std::path::Path::new(&file).exists() {
            return Ok(Names::default());
        }
        let shown = file.to_string_lossy();
        let text = String::from_utf8(read(&file)?).unwrap_or_default();
        let mut lines = text.lines();
        let how = "pack the text again, or take this file away";
        if lines.next() != Some(FIRST_LINE) {
            return Err(Failure::of_file(&shown, format!("these are no names of a case: {how}")));
        }
        if lines.next() != Some(&format!("case {}", sha256(bytes))) {
            return Err(Failure::of_file(&shown, format!("these names belong to another case: {how}")));
        }
        let mut names = Names::default();
        for (k, line) in lines.enumerate() {
            let wrong = || Failure::of_file(&shown, format!("line {} cannot be read: {how}", k + 3));
            names.add(line).ok_or_else(wrong)?;
        }
        Ok(names)
    }

    fn add(&mut self, line: &str) -> Option<()> {
        let words: Vec<&str> = line.split(' ').collect();
        let (loose, words) = if words[0] == "loose" { (true, &words[1..]) } else { (false, &words[..]) };
        match words {
            ["variable", name] => self.variables.push(name.to_string()),
            [keyword, node, name, parameters @ ..] => {
                let parameters: Option<Vec<u32>> = parameters.iter().map(|name| self.variable(name)).collect();
                let (name, keyword) = (name.to_string(), Keyword::of_word(keyword)?);
                self.rules.push(Name { name, node: node.parse().ok()?, keyword, parameters: parameters?, loose });
            }
            _ => return None,
        }
        Some(())
    }

    /// The file of names of a packed case.
    pub fn written(&self, case: &[u8]) -> String {
        let mut text = format!("{FIRST_LINE}\ncase {}\n", sha256(case));
        self.variables.iter().for_each(|name| text.push_str(&format!("variable {name}\n")));
        for rule in &self.rules {
            let loose = if rule.loose { "loose " } else { "" };
            let parameters = rule.parameters.iter().map(|&v| format!(" {}", self.variables[v as usize]));
            let parameters: String = parameters.collect();
            text.push_str(&format!("{loose}{} {} {}{parameters}\n", rule.keyword.word(), rule.node, rule.name));
        }
        text
    }

    /// The names to print a case with.
    pub fn given(&self) -> Given {
        let rules = self.rules.iter().map(|rule| (rule.name.clone(), rule.node, rule.loose)).collect();
        Given { variables: self.variables.clone(), rules }
    }

    pub fn variable(&self, name: &str) -> Option<u32> {
        self.variables.iter().position(|known| known == name).map(|k| k as u32)
    }

    /// A rule or number by its name; an error lists those that exist.
    pub fn rule(&self, file: &str, name: &str) -> Result<&Name, Failure> {
        let asked = || self.rules.iter().filter(|rule| rule.keyword != Keyword::Term);
        let known: Vec<&str> = asked().map(|rule| rule.name.as_str()).collect();
        asked().find(|rule| rule.name == name).ok_or_else(|| {
            let near = did_you_mean(name, known.iter().copied());
            let which = match known.len() {
                0 => "; the case has no names: ask a node by its number with --node".to_string(),
                _ if near.is_empty() => format!("; the case has: {}", known.join(", ")),
                _ => format!("{near} The case has: {}", known.join(", ")),
            };
            Failure::of_file(file, format!("there is no rule `{name}`{which}"))
        })
    }

    /// The last rule or number.
    pub fn last(&self) -> Option<&Name> {
        self.rules.iter().rev().find(|rule| rule.keyword != Keyword::Term)
    }

    /// Whether a node has names, and is loose by all of them.
    pub fn all_loose(&self, node: u32) -> bool {
        self.of_node(node).is_some() && self.rules.iter().filter(|rule| rule.node == node).all(|rule| rule.loose)
    }

    /// The name of a node, the last one that was given to it.
    pub fn of_node(&self, node: u32) -> Option<&Name> {
        self.rules.iter().rev().find(|rule| rule.node == node && rule.keyword != Keyword::Term)
    }
}

pub fn beside(case: &OsStr) -> OsString {
    let mut file = case.to_os_string();
    file.push(".names");
    file
}
