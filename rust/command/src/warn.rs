//! Warnings of a case, told with their places; errors where a schema or `--strict` makes them so.

use std::ffi::OsStr;

use casefile::binding::Binding;
use casefile::lint::{self, About, Known, Warning};
use casefile::text::{Fault, Place};

use crate::arguments::Options;
use crate::failure::{line_told, placed, Failure};
use crate::input::{as_text, read, shown};
use crate::json::Object;
use crate::opened::{Asked, LogText, Opened};

/// A warning in words, with its place where it has one.
pub struct Warned {
    words: String,
    json: String,
}

impl Warned {
    pub fn words(&self) -> &str {
        &self.words
    }

    pub fn json(&self) -> &str {
        &self.json
    }

    /// A warning that has no place.
    fn plain(opened: &Opened, message: &str) -> Warned {
        let words = format!("{}: warning: {message}", opened.file);
        Warned { words, json: Object::new().text("message", message).done() }
    }

    fn of(opened: &Opened, warning: &Warning) -> Warned {
        let message = &warning.message;
        if let (About::Point(point), Some(log)) = (warning.about, &opened.log) {
            let line = point as usize + 1;
            let json = Object::new().text("file", &log.file).plain("line", line).plain("column", 1);
            let words = line_told(log, line, &format!("warning: {message}"));
            return Warned { words, json: json.text("message", message).done() };
        }
        match (place(opened, warning.about), &opened.source) {
            (Some(at), Some((text, _))) => {
                let words = placed(&opened.file, text, &at.told(format!("warning: {message}")));
                let json = Object::new().plain("line", at.line).plain("column", at.column).text("message", message);
                Warned { words, json: json.done() }
            }
            _ => Warned::plain(opened, &format!("{}: {message}", about(warning.about))),
        }
    }
}

/// Looks at a whole case, or at what one rule and one point of it have to do with, and tells what is suspicious.
pub fn warnings(
    options: &Options,
    opened: &Opened,
    asked: Option<(&Asked, usize)>,
    more: Vec<String>,
) -> Result<Vec<Warned>, Failure> {
    if let Some(schema) = options.named_file("--schema") {
        against_schema(opened, &schema_of(schema)?)?;
    }
    let mut found = Vec::new();
    if opened.tables.points.is_empty() {
        found.push(Warned::plain(opened, "the log is empty, so the names in rules were not looked up"));
    } else if !options.flag("--schema") {
        found.extend(of_rules(opened, asked.map(|(asked, _)| asked.node)));
    }
    let times = match asked {
        Some((_, point)) => lint::ahead(&opened.tables, point),
        None => lint::falling(&opened.tables),
    };
    found.extend(times.iter().map(|warning| Warned::of(opened, warning)));
    found.extend(more.iter().map(|message| Warned::plain(opened, message)));
    if options.flag("--strict") && !found.is_empty() {
        return Err(Failure::Strict { file: opened.file.clone(), warnings: found });
    }
    if !options.flag("--quiet") && !options.flag("--json") {
        found.iter().for_each(|warning| eprintln!("galivodern: {}", warning.words));
    }
    Ok(found)
}

/// Warnings of all rules, or of one and what stands in it.
fn of_rules(opened: &Opened, node: Option<u32>) -> Vec<Warned> {
    let below = node.map(|node| Binding::of(&opened.tables).below(node));
    let wanted = |warning: &&Warning| match (warning.about, &below) {
        (About::Node(node) | About::Argument(node, _), Some(below)) => below.get(node as usize) == Some(&true),
        _ => true,
    };
    let warnings = lint::rules(&opened.tables, &Known::of_log(&opened.tables));
    warnings.iter().filter(wanted).map(|warning| Warned::of(opened, warning)).collect()
}

fn schema_of(file: &OsStr) -> Result<Known, Failure> {
    let bytes = read(file)?;
    let text = as_text(file, &bytes)?.ok_or_else(|| Failure::of_file(&shown(file), "a schema is a text"))?;
    lint::schema(text).map_err(|faults| Failure::Faults { file: shown(file), text: text.to_string(), faults })
}

fn against_schema(opened: &Opened, known: &Known) -> Result<(), Failure> {
    let mut errors = lint::rules(&opened.tables, known);
    errors.extend(lint::points(&opened.tables, known));
    if errors.is_empty() {
        return Ok(());
    }
    let Some((text, _)) = &opened.source else {
        let told = |error: &Warning| format!("{}: {}", about(error.about), error.message);
        let messages: Vec<String> = errors.iter().map(told).collect();
        return Err(Failure::of_file(&opened.file, messages.join(&format!("\ngalivodern: {}: ", opened.file))));
    };
    if let Some(log) = opened.log.as_ref().filter(|_| errors.iter().all(|error| matches!(error.about, About::Point(_))))
    {
        let line = |error: &Warning| match error.about {
            About::Point(point) => (point as usize + 1, error.message.clone()),
            _ => unreachable!("all are about points"),
        };
        let log = Box::new(LogText { file: log.file.clone(), text: log.text.clone() });
        return Err(Failure::Lines { log, faults: errors.iter().map(line).collect() });
    }
    let fault = |error: &Warning| place(opened, error.about).map(|place| place.told(error.message.clone()));
    let mut faults: Vec<Fault> = errors.iter().filter_map(fault).collect();
    faults.sort_by_key(|fault| (fault.line, fault.column));
    Err(Failure::Faults { file: opened.file.clone(), text: text.clone(), faults })
}

/// Where something stands in the text that a case came from.
fn place(opened: &Opened, about: About) -> Option<Place> {
    let places = &opened.source.as_ref()?.1.places;
    match about {
        About::Node(node) => places.nodes.get(node as usize).copied(),
        About::Argument(node, k) => places.arguments.get(&(node, k)).copied(),
        About::Point(point) => places.points.get(point as usize).copied(),
    }
}

fn about(about: About) -> String {
    match about {
        About::Node(node) => format!("node {node}"),
        About::Argument(node, k) => format!("node {node}, argument {k}"),
        About::Point(point) => format!("point {point}"),
    }
}
