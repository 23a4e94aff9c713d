//! Writes a case as text. Node numbers come back exactly when the text is packed again.

use std::fmt::Write;

use super::{pack, Keyword};
use crate::binding::Binding;
use crate::records::{Node, Point, Run, Value};
use crate::tables::Tables;

const MOST_DEPTH: usize = 32;
const MOST_HEIGHT: usize = 64;

pub type Printed<T> = Result<T, String>;

/// Names that a case had when it was packed.
#[derive(Clone, Debug, Default)]
pub struct Given {
    pub variables: Vec<String>,
    /// Name, node, and whether it is loose; a node may have several.
    pub rules: Vec<(String, u32, bool)>,
}

impl Given {
    /// Whether a node has a name.
    pub fn has(&self, node: u32) -> bool {
        self.rules.iter().any(|(_, named, _)| *named == node)
    }
}

/// The text of a case that passes the check; an error says why it cannot be written.
pub fn unpack(tables: &Tables) -> Printed<String> {
    let text = printed(tables, Given::default())?;
    match pack(&text) {
        Ok(_) => Ok(text),
        Err(fault) => Err(format!("the case breaks a rule of the check: {}", fault.message)),
    }
}

/// The same with the names that it had; with made-up ones where those cannot be written.
pub fn unpack_named(tables: &Tables, given: Given) -> Printed<String> {
    match printed(tables, given) {
        Ok(text) if pack(&text).is_ok_and(|packed| packed.tables == *tables) => Ok(text),
        _ => unpack(tables),
    }
}

fn printed(tables: &Tables, given: Given) -> Printed<String> {
    planned(tables, given)?.text()
}

fn planned(tables: &Tables, given: Given) -> Printed<Printer<'_>> {
    let mut printer = Printer::new(tables, given)?;
    printer.plan_values()?;
    printer.plan_nodes();
    Ok(printer)
}

/// Single nodes of a case, each as its text has it.
pub struct NodeTexts<'a>(Printer<'a>);

impl<'a> NodeTexts<'a> {
    /// Of a case that passes the check, with the names that it had.
    pub fn of(tables: &'a Tables, given: Given) -> Printed<NodeTexts<'a>> {
        planned(tables, given).map(NodeTexts)
    }

    /// What stands behind the `=` of a node's statement; parts that have a name stand as `@name`.
    pub fn node(&self, node: u32) -> Printed<String> {
        self.0.node_inside(node)
    }
}

pub struct Printer<'a> {
    tables: &'a Tables,
    pub given: Given,
    strings: Vec<&'a str>,
    pub values: Vec<Value>,
    pub points: Vec<Point>,
    pub nodes: Vec<Node>,
    pub value_named: Vec<bool>,
    pub node_named: Vec<bool>,
}

impl<'a> Printer<'a> {
    /// Reads all records; numbers that lead nowhere, or to a later record, are faults.
    fn new(tables: &'a Tables, given: Given) -> Printed<Printer<'a>> {
        let mut strings = Vec::new();
        for [start, length] in &tables.strings {
            let bytes = tables.text.get(*start as usize..*start as usize + *length as usize);
            let text = bytes.and_then(|bytes| std::str::from_utf8(bytes).ok());
            strings.push(text.ok_or("a string is no UTF-8 or leaves the text")?);
        }
        let values: Option<Vec<Value>> = tables.values.iter().map(|words| Value::read(*words)).collect();
        let nodes: Option<Vec<Node>> = tables.nodes.iter().map(|words| Node::read(*words)).collect();
        let printer = Printer {
            tables,
            given,
            strings,
            values: values.ok_or("a value has an unknown kind")?,
            points: tables.points.iter().map(|words| Point::read(*words)).collect(),
            nodes: nodes.ok_or("a node has an unknown kind")?,
            value_named: vec![false; tables.values.len()],
            node_named: vec![false; tables.nodes.len()],
        };
        printer.levels(printer.values.len(), MOST_DEPTH, "value", |value| {
            Ok(printer.members(value)?.iter().map(|[_, below]| *below).collect())
        })?;
        printer.levels(printer.nodes.len(), MOST_HEIGHT, "node", |node| printer.operands(node))?;
        Ok(printer)
    }

    /// Children must have lower numbers, and records must not nest deeper than allowed:
    /// what follows descends them.
    fn levels(
        &self,
        count: usize,
        most: usize,
        what: &str,
        children: impl Fn(u32) -> Printed<Vec<u32>>,
    ) -> Printed<()> {
        let mut levels: Vec<usize> = Vec::new();
        for number in 0..count {
            let mut level = 1;
            for child in children(number as u32)? {
                let below = levels.get(child as usize).ok_or(format!("{what} {number} refers to no lower {what}"))?;
                level = level.max(below + 1);
            }
            if level > most {
                return Err(format!("{what} {number} nests deeper than {most}"));
            }
            levels.push(level);
        }
        Ok(())
    }

    pub fn string(&self, number: u32) -> Printed<&'a str> {
        self.strings.get(number as usize).copied().ok_or(format!("there is no string {number}"))
    }

    pub fn list(&self, first: u32, words: usize) -> Printed<&'a [u32]> {
        let end = first as usize + words;
        self.tables.lists.get(first as usize..end).ok_or(format!("a run at {first} leaves the lists"))
    }

    pub fn names(&self, run: Run) -> Printed<Vec<&'a str>> {
        self.list(run.first, run.count as usize)?.iter().map(|&name| self.string(name)).collect()
    }

    pub fn members(&self, value: u32) -> Printed<&'a [[u32; 2]]> {
        match self.values.get(value as usize) {
            Some(Value::Array(run) | Value::Object(run)) => {
                self.tables.members.get(run.places()).ok_or(format!("value {value} leaves the members"))
            }
            Some(_) => Ok(&[]),
            None => Err(format!("there is no value {value}")),
        }
    }

    /// Path and term of each argument.
    pub fn arguments(&self, run: Run) -> Printed<Vec<(Run, u32)>> {
        let words = self.list(run.first, 3 * run.count as usize)?;
        Ok(words.chunks(3).map(|a| (Run { first: a[0], count: a[1] }, a[2])).collect())
    }

    /// The nodes that a node refers to, in the order in which its text has them.
    pub fn operands(&self, node: u32) -> Printed<Vec<u32>> {
        let node = self.nodes[node as usize];
        if let Node::Predicate { arguments, .. } = node {
            return Ok(self.arguments(arguments)?.iter().map(|(_, term)| *term).collect());
        }
        Ok(node.children(|_| Vec::new()))
    }

    fn text(&self) -> Printed<String> {
        let mut text = String::new();
        if self.tables.variables > 0 {
            let names: Vec<String> = (0..self.tables.variables.min(17)).map(|number| self.variable(number)).collect();
            writeln!(text, "variables {}", names.join(" ")).expect("writing to a String");
        }
        for number in (0..self.values.len()).filter(|&k| self.value_named[k]) {
            let value = self.value_inside(number as u32)?;
            writeln!(text, "value v{number} = {value}").expect("writing to a String");
        }
        for point in &self.points {
            text.push_str(&self.point(point)?);
        }
        let binding = Binding::of(self.tables);
        for number in (0..self.nodes.len() as u32).filter(|&k| self.node_named[k as usize]) {
            text.push_str(&self.statement(number, &binding)?);
        }
        Ok(text)
    }

    /// A node's own statement, and one more for each other name that it has.
    fn statement(&self, number: u32, binding: &Binding) -> Printed<String> {
        let (keyword, name) = self.named(number);
        let (before, after) = if keyword == Keyword::Term { ("", String::new()) } else { self.asked(binding, number) };
        let (word, node) = (keyword.word(), self.node_inside(number)?);
        let mut text = format!("{before}{word} {name}{after} = {node}\n");
        for (other, _, _) in self.given.rules.iter().filter(|(other, node, _)| *node == number && *other != name) {
            text.push_str(&format!("{before}{word} {other}{after} = @{name}\n"));
        }
        Ok(text)
    }

    /// What a node is in the text, and the name that it gets: the first that was given, or a made-up one.
    pub fn named(&self, number: u32) -> (Keyword, String) {
        let (keyword, letter) = match self.nodes[number as usize] {
            node if node.is_condition() => (Keyword::Rule, 'r'),
            node if node.is_aggregate() => (Keyword::Number, 'n'),
            _ => (Keyword::Term, 't'),
        };
        let given = self.given.rules.iter().find(|(_, node, _)| *node == number);
        (keyword, given.map_or_else(|| format!("{letter}{number}"), |(name, _, _)| name.clone()))
    }

    pub fn variable(&self, number: u32) -> String {
        self.given.variables.get(number as usize).cloned().unwrap_or_else(|| format!("x{number}"))
    }

    /// What stands before and after the name of a rule: its parameters, or that it is loose where they do not suffice.
    fn asked(&self, binding: &Binding, number: u32) -> (&'static str, String) {
        let free = binding.free(number);
        let loose = self.given.rules.iter().any(|(_, node, loose)| *node == number && *loose);
        if loose || !binding.asked(number, free).is_empty() {
            return ("loose ", String::new());
        }
        let names: Vec<String> = free.iter().map(|variable| self.variable(variable)).collect();
        ("", if names.is_empty() { String::new() } else { format!("({})", names.join(", ")) })
    }
}
