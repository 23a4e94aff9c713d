//! What ends a command with status 2, and how it is told: in words on standard error, or as one line of JSON.

use casefile::log::Place;
use casefile::text::Fault;
use galivodern::{LogFault, LogPlace, Refusal, Refused};

use crate::excerpt::excerpt;
use crate::json::Object;
use crate::opened::LogText;
use crate::warn::Warned;

/// No more faults of one text are told than this.
const MOST_TOLD: usize = 20;

pub enum Failure {
    /// A wrong call.
    Usage(String),
    /// Something about a file.
    File { file: String, message: String },
    /// What is wrong with a text.
    Faults { file: String, text: String, faults: Vec<Fault> },
    /// The first fault of a log.
    Log { log: Box<LogText>, fault: Box<LogFault> },
    /// A log that no case holds; the line, where one is at fault.
    NoCase { log: Box<LogText>, refusal: Refusal, line: Option<usize>, why: Option<String> },
    /// What a schema has against lines of a log.
    Lines { log: Box<LogText>, faults: Vec<(usize, String)> },
    /// A refused case or question, and what to do about it.
    Refused { file: String, refused: Refused, hint: String, question: Object },
    /// Warnings that were asked to be errors.
    Strict { file: String, warnings: Vec<Warned> },
}

impl Failure {
    pub fn usage(message: impl Into<String>) -> Failure {
        Failure::Usage(message.into())
    }

    pub fn of_file(file: &str, message: impl std::fmt::Display) -> Failure {
        Failure::File { file: file.to_string(), message: message.to_string() }
    }

    pub fn refused_case(file: &str, refusal: Refusal) -> Failure {
        Failure::refused(file, Refused::from(refusal), "; pack its text again, or get the file anew")
    }

    pub fn refused(file: &str, refused: Refused, hint: &str) -> Failure {
        let question = Object::new().text("file", file);
        Failure::Refused { file: file.to_string(), refused, hint: hint.to_string(), question }
    }

    fn words(&self) -> String {
        match self {
            Failure::Usage(message) => format!("{message}\nTry `galivodern help`."),
            Failure::File { file, message } => format!("{file}: {message}"),
            Failure::Faults { file, text, faults } => faults_told(file, text, faults),
            Failure::Log { log, fault } => fault_told(log, fault),
            Failure::NoCase { log, refusal, line, why } => {
                let why = why.clone().unwrap_or_else(|| refusal.to_string());
                let message = format!("refused {}: {why}", refusal.number());
                match line {
                    Some(line) => line_told(log, *line, &message),
                    None => format!("{}: {message}", log.file),
                }
            }
            Failure::Lines { log, faults } => lines_told(log, faults),
            Failure::Refused { file, refused, hint, .. } => {
                format!("{file}: refused {}: {refused}{hint}", refused.refusal.number())
            }
            Failure::Strict { file, warnings } => {
                let count = warnings.len();
                let what = if count == 1 { "warning is an error" } else { "warnings are errors" };
                let told: Vec<&str> = warnings.iter().map(Warned::words).collect();
                format!("{}\ngalivodern: {file}: {count} {what} here (--strict)", told.join("\ngalivodern: "))
            }
        }
    }

    pub fn json(&self) -> String {
        let object = Object::new().text("error", self.kind());
        match self {
            Failure::Usage(message) => object.text("message", message),
            Failure::File { file, message } => object.text("file", file).text("message", message),
            Failure::Faults { file, faults, .. } => {
                let fault = |fault: &Fault| {
                    let place = Object::new().plain("line", fault.line).plain("column", fault.column);
                    place.text("message", &fault.message).done()
                };
                object.text("file", file).list("faults", faults.iter().map(fault))
            }
            Failure::Log { log, fault } => {
                let object = object.text("file", &log.file).plain("refused", fault.refusal.number());
                let object = place(object, fault.place);
                let first = fault.first.map(|first| place(Object::new(), first).done());
                let object = first.into_iter().fold(object, |object, first| object.plain("first", first));
                object.text("why", &fault.why)
            }
            Failure::NoCase { log, refusal, line, why } => {
                let object = object.text("file", &log.file).plain("refused", refusal.number());
                let object = line.iter().fold(object, |object, line| object.plain("line", line));
                object.text("why", &why.clone().unwrap_or_else(|| refusal.to_string()))
            }
            Failure::Lines { log, faults } => {
                let fault = |(line, message): &(usize, String)| {
                    Object::new().plain("line", line).plain("column", 1).text("message", message).done()
                };
                object.text("file", &log.file).list("faults", faults.iter().map(fault))
            }
            Failure::Refused { refused: Refused { refusal, steps, held, .. }, hint, question, .. } => {
                let object = object.with(question).plain("refused", refusal.number());
                object.text("why", &format!("{refusal}{hint}")).plain("steps", steps).plain("held", held)
            }
            Failure::Strict { file, warnings } => object.text("file", file).warnings(warnings),
        }
        .done()
    }

    fn kind(&self) -> &'static str {
        match self {
            Failure::Usage(_) => "usage",
            Failure::File { .. } => "file",
            Failure::Faults { .. } => "text",
            Failure::Log { .. } | Failure::NoCase { .. } | Failure::Lines { .. } => "log",
            Failure::Refused { .. } => "refused",
            Failure::Strict { .. } => "strict",
        }
    }

    pub fn report(&self, json: bool) {
        if json {
            // Where standard output is gone, standard error is told in the JSON's place.
            if crate::output::print(&format!("{}\n", self.json())).is_ok() {
                return;
            }
        }
        eprintln!("galivodern: {}", self.words());
    }
}

fn place(object: Object, place: LogPlace) -> Object {
    object.plain("line", place.line).plain("column", place.column).plain("byte", place.byte)
}

/// The fault of a log with its line, and a caret under its place; under both of a repeated name.
fn fault_told(log: &LogText, fault: &LogFault) -> String {
    let LogFault { place, first, why, refusal, .. } = fault;
    let also = first.map_or(String::new(), |first| format!(" (the first is at column {})", first.column));
    let places: Vec<Place> =
        first.iter().chain([place]).map(|place: &LogPlace| Place::of(&log.text, place.byte)).collect();
    let shown = excerpt(&log.text, &places);
    format!("{}:{}:{}: refused {}: {why}{also}\n{shown}", log.file, place.line, place.column, refusal.number())
}

/// A message about a line of a log, with the line.
pub fn line_told(log: &LogText, line: usize, message: &str) -> String {
    let shown = excerpt(&log.text, &[Place::of_line(&log.text, line)]);
    format!("{}:{line}: {message}\n{shown}", log.file)
}

fn lines_told(log: &LogText, faults: &[(usize, String)]) -> String {
    let told = faults.iter().take(MOST_TOLD).map(|(line, message)| line_told(log, *line, message));
    let mut told: Vec<String> = told.collect();
    if faults.len() > MOST_TOLD {
        told.push(format!("{}: {} more are not shown", log.file, faults.len() - MOST_TOLD));
    }
    told.join("\ngalivodern: ")
}

fn faults_told(file: &str, text: &str, faults: &[Fault]) -> String {
    let mut told: Vec<String> = faults.iter().take(MOST_TOLD).map(|fault| placed(file, text, fault)).collect();
    if faults.len() > MOST_TOLD {
        told.push(format!("{file}: {} more are not shown", faults.len() - MOST_TOLD));
    }
    told.join("\ngalivodern: ")
}

/// A message with its place, the line that it is about, and a caret under the fault.
pub fn placed(file: &str, text: &str, fault: &Fault) -> String {
    let head = format!("{file}:{fault}");
    let Some(line) = text.lines().nth(fault.line - 1) else { return head };
    let shown: String = line.chars().map(|c| if c == '\t' { ' ' } else { c }).filter(|c| !c.is_control()).collect();
    let margin = fault.line.to_string();
    let (blank, before) = (" ".repeat(margin.len()), " ".repeat(fault.column - 1));
    format!("{head}\n  {margin} | {shown}\n  {blank} | {before}^")
}
