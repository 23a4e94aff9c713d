//! A case from a file, from its text or from standard input, with its names.

use std::ffi::OsStr;

use casefile::binding::Binding;
use casefile::near::did_you_mean;
use casefile::text::{pack_with, told, Packed};
use casefile::time;
use casefile::{Point, Tables, Unsorted, Variables};
use galivodern::{Case, Refusal, Refused, RuleNo};

use crate::arguments::Options;
use crate::failure::Failure;
use crate::input::{as_text, read, shown};
use crate::json::Object;
use crate::logs;
use crate::names::{Name, Names};
use crate::progress::Progress;

pub struct Opened {
    pub file: String,
    pub case: Case,
    pub tables: Tables,
    pub names: Names,
    /// The text that the case came from, if it came as text.
    pub source: Option<(String, Packed)>,
    /// The log that its points came from, if they came from one.
    pub log: Option<LogText>,
}

/// A JSON log as it was read.
pub struct LogText {
    pub file: String,
    pub text: Vec<u8>,
}

/// The node that is asked, and what is known of it.
pub struct Asked {
    pub node: u32,
    pub rule: Option<String>,
    /// Whether its variables may be unbound.
    pub loose: bool,
}

impl Asked {
    fn of(rule: &Name) -> Asked {
        Asked { node: rule.node, rule: Some(rule.name.clone()), loose: rule.loose }
    }

    /// What a message calls it.
    pub fn shown(&self) -> String {
        self.rule.clone().unwrap_or_else(|| format!("node {}", self.node))
    }
}

/// The packed text of a file, its case by the proved writer.
pub fn packed(file: &OsStr, text: &str) -> Result<Packed, Failure> {
    let written = |unsorted: Unsorted| match Case::from_unsorted(&unsorted.tables.encode(), &unsorted.marks) {
        Ok(case) => Ok(case.into_bytes()),
        Err(refusal) => Err(format!("what was packed from this text is refused: {refusal}")),
    };
    pack_with(text, written).map_err(|faults| Failure::Faults { file: shown(file), text: text.to_string(), faults })
}

impl Opened {
    /// The case that a call is about: its file, with the points of a log where one is given.
    pub fn of_call(options: &Options) -> Result<Opened, Failure> {
        let file = options.file()?;
        match options.named_file("--log") {
            Some(log) => logs::opened(file, log),
            None => Opened::open(file),
        }
    }

    pub fn open(file: &OsStr) -> Result<Opened, Failure> {
        let bytes = read(file)?;
        match as_text(file, &bytes)? {
            Some(text) => {
                let packed = packed(file, text)?;
                let names = Names::of_text(&packed);
                Opened::of(file, packed.tables.encode(), names, Some((text.to_string(), packed)))
            }
            None => {
                let names = Names::beside(file, &bytes)?;
                Opened::of(file, bytes, names, None)
            }
        }
    }

    pub fn of(file: &OsStr, bytes: Vec<u8>, names: Names, source: Option<(String, Packed)>) -> Result<Opened, Failure> {
        let file = shown(file);
        let progress = Progress::start(format!("checking {file}"), None);
        let case = Case::new(bytes).map_err(|refusal| Failure::refused_case(&file, refusal))?;
        drop(progress);
        let tables = Tables::decode(case.bytes()).map_err(|message| Failure::of_file(&file, message))?;
        Ok(Opened { file, case, tables, names, source, log: None })
    }

    /// The number of a variable by its name, `x0` where the case has no names, or by its number.
    pub fn variable(&self, name: &str) -> Result<u16, Failure> {
        let number = || name.strip_prefix('x').filter(|_| self.names.variables.is_empty()).unwrap_or(name).parse().ok();
        let count = self.case.contents().variables;
        let known = self.names.variable(name).or_else(number).filter(|&v| (v as usize) < count);
        known.map(|variable| variable as u16).ok_or_else(|| {
            let names: Vec<String> = (0..count as u32).map(|v| self.variable_name(v)).collect();
            let near = did_you_mean(name, names.iter().map(String::as_str));
            let has = if names.is_empty() {
                "the case has none".to_string()
            } else {
                format!("the case has {}", names.join(", "))
            };
            Failure::of_file(&self.file, format!("there is no variable `{name}`; {has}{near}"))
        })
    }

    pub fn variable_name(&self, variable: u32) -> String {
        self.names.variables.get(variable as usize).cloned().unwrap_or_else(|| format!("x{variable}"))
    }

    /// What is asked: a rule by its name, a node by its number, or else the last rule, the last node where none is named.
    pub fn asked(&self, rule: Option<&str>, node: Option<u32>) -> Result<Asked, Failure> {
        let nodes = self.case.contents().nodes;
        let none = |hint: String| Failure::refused(&self.file, Refused::from(Refusal::NoSuchNode), &hint);
        let node = match (rule, node) {
            (Some(_), Some(_)) => {
                return Err(Failure::usage("`--rule` and `--node` are two ways to say what is asked"))
            }
            (Some(name), None) => return Ok(Asked::of(self.names.rule(&self.file, name)?)),
            (None, _) if nodes == 0 => return Err(none(": it has no rules at all".to_string())),
            (None, Some(node)) if node as usize >= nodes => {
                return Err(none(format!(": nodes 0 to {} exist", nodes - 1)));
            }
            (None, Some(node)) => node,
            // The last statement may be another name of an earlier node.
            (None, None) => match self.names.last() {
                Some(rule) => return Ok(Asked::of(rule)),
                None => nodes as u32 - 1,
            },
        };
        let loose = self.names.all_loose(node);
        Ok(Asked { node, rule: self.names.of_node(node).map(|rule| rule.name.clone()), loose })
    }

    /// The point asked about: the last one if none is given.
    pub fn point(&self, point: Option<usize>) -> Result<usize, Failure> {
        let points = self.case.contents().points;
        let hint = match points {
            0 if self.log.is_some() => ": the log is empty, so there is no point to ask at".to_string(),
            0 => ": its log is empty, write points into it".to_string(),
            1 => ": only point 0 exists".to_string(),
            _ => format!(": points 0 to {} exist", points - 1),
        };
        let point = point.or(points.checked_sub(1)).filter(|&point| point < points);
        point.ok_or_else(|| Failure::refused(&self.file, Refused::from(Refusal::NoSuchPoint), &hint))
    }

    /// What a message calls the case: its file, and its log.
    pub fn shown(&self) -> String {
        match &self.log {
            Some(log) => format!("{} with {}", self.file, log.file),
            None => self.file.clone(),
        }
    }

    /// The beginning of an outcome in JSON.
    pub fn json(&self) -> Object {
        Object::new().text("file", &self.file).some("log", self.log.as_ref().map(|log| log.file.as_str()))
    }

    /// The time of a point: in seconds, and as a date where it has one.
    pub fn time(&self, point: usize) -> (i64, Option<String>) {
        let time = Point::read(self.tables.points[point]).time;
        (time, time::written(time))
    }

    /// Refuses a rule that is asked with a variable unbound: its yes could be about another board.
    pub fn all_bound(&self, asked: &Asked, bound: Variables) -> Result<(), Failure> {
        let missing = Binding::of(&self.tables).free(asked.node).but(bound);
        if asked.loose || missing.is_empty() {
            return Ok(());
        }
        let names: Vec<String> = missing.iter().map(|variable| self.variable_name(variable)).collect();
        let binds: Vec<String> = names.iter().map(|name| format!("--bind {name}=..")).collect();
        let (names, binds, shown) = (names.join(", "), binds.join(" "), asked.shown());
        let message = format!(
            "{shown} is asked with {names} unbound: bind what it is about, {binds}, or list what it finds with `rows`"
        );
        Err(Failure::of_file(&self.file, message))
    }

    /// Refuses rows of a rule that does not bind what it leaves free, or not in order.
    pub fn all_found(&self, asked: &Asked, bound: Variables) -> Result<(), Failure> {
        if asked.loose || self.case.sort(RuleNo(asked.node)) != Some(galivodern::Sort::Condition) {
            return Ok(());
        }
        let variables: Vec<String> =
            (0..self.case.contents().variables as u32).map(|v| self.variable_name(v)).collect();
        match Binding::of(&self.tables).listed(asked.node, bound).first() {
            None => Ok(()),
            Some(misuse) => {
                let why = told(*misuse, &asked.shown(), &variables);
                let name = &variables[misuse.variable as usize];
                let message = format!("{} cannot list `{name}`: {why}; or bind it, --bind {name}=..", asked.shown());
                Err(Failure::of_file(&self.file, message))
            }
        }
    }
}
