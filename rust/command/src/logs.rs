//! JSON logs: `import`, `export`, and the points of a log with the rules of a text.

use std::ffi::OsStr;

use casefile::log::{ambiguous, Log};
use casefile::text::pack_rules_with;
use casefile::Unsorted;
use galivodern::{Case, Contents, JsonLog, LogError, Refusal, Refused};

use crate::arguments::Options;
use crate::failure::Failure;
use crate::input::{as_text, read, shown};
use crate::json::Object;
use crate::names::Names;
use crate::opened::{LogText, Opened};
use crate::output::{print, print_bytes, print_or_write, write_file};
use crate::progress::Progress;
use crate::Said;

/// A log that was read and is sound, with its text.
fn sound(file: &OsStr) -> Result<(JsonLog, LogText), Failure> {
    let log = LogText { file: shown(file), text: read(file)? };
    let progress = Progress::start(format!("reading {}", log.file), None);
    let read = JsonLog::new(&log.text);
    drop(progress);
    match read {
        Ok(read) => Ok((read, log)),
        Err(fault) => Err(Failure::Log { log: Box::new(log), fault: Box::new(fault) }),
    }
}

/// The rules of a text over the points of a log.
pub fn opened(rules: &OsStr, log: &OsStr) -> Result<Opened, Failure> {
    if rules == "-" && log == "-" {
        return Err(Failure::usage("the rules and the log cannot both come from standard input: name a file for one"));
    }
    let bytes = read(rules)?;
    let text = as_text(rules, &bytes)?.ok_or_else(|| {
        let message = "this is a case file, and with --log the rules are a text: print it with `text`, and take its \
                       points out";
        Failure::of_file(&shown(rules), message)
    })?;
    let (read, log) = sound(log)?;
    let points = Log::of(read.unsorted(), read.marks()).map_err(|message| Failure::of_file(&log.file, message))?;
    let mut refused = None;
    let packed = pack_rules_with(text, |unsorted| {
        joined(&points, &unsorted).map_err(|refusal| {
            refused = Some((refusal, points.refused(refusal.number(), &unsorted.tables)));
            refusal.to_string()
        })
    });
    if let Some((refusal, (line, why))) = refused {
        return Err(Failure::NoCase { log: Box::new(log), refusal, line, why });
    }
    let packed = packed.map_err(|faults| Failure::Faults { file: shown(rules), text: text.to_string(), faults })?;
    let (case, names) = (packed.tables.encode(), Names::of_text(&packed));
    let opened = Opened::of(rules, case, names, Some((text.to_string(), packed)))?;
    Ok(Opened { log: Some(log), ..opened })
}

/// The case of both, by the proved writer.
fn joined(points: &Log, rules: &Unsorted) -> Result<Vec<u8>, Refusal> {
    let joined = points.joined(rules.clone()).ok_or(Refusal::TooLarge)?;
    Case::from_unsorted(&joined.tables.encode(), &joined.marks).map(Case::into_bytes)
}

pub fn import(options: &Options) -> Result<Said, Failure> {
    let file = options.file()?;
    let Some(output) = options.named_file("-o") else {
        return Err(Failure::usage("`import` writes a case file: name it with -o, or - for standard output"));
    };
    let (read, log) = sound(file)?;
    let case = match read.case() {
        Ok(case) => case,
        Err(LogError::Refused { refusal, line, why }) => {
            return Err(Failure::NoCase { log: Box::new(log), refusal, line, why });
        }
        Err(other) => return Err(Failure::of_file(&log.file, other)),
    };
    if output == "-" {
        return print_bytes(case.bytes()).map(|()| Said::Yes);
    }
    write_file(output, case.bytes(), &[file])?;
    let Contents { points, values, strings, .. } = case.contents();
    let bytes = case.bytes().len();
    if options.flag("--json") {
        let object = Object::new().text("file", &shown(output)).text("log", &log.file).plain("bytes", bytes);
        let object = object.plain("points", points).plain("values", values).plain("strings", strings);
        print(&format!("{}\n", object.done()))?;
    } else if !options.flag("--quiet") {
        let of = &log.file;
        print(&format!(
            "{}: a case of {bytes} bytes with the {points} points of {of}: {values} values, {strings} strings\n",
            shown(output)
        ))?;
    }
    Ok(Said::Yes)
}

pub fn export(options: &Options) -> Result<Said, Failure> {
    let file = options.file()?;
    let opened = Opened::open(file)?;
    let text = opened.case.json_lines().map_err(|refusal| unexported(&opened, refusal))?;
    if options.flag("--json") && options.named_file("-o").is_none() {
        let points = opened.case.contents().points;
        print(&format!("{}\n", opened.json().plain("points", points).text("text", &text).done()))?;
    } else {
        print_or_write(&text, options.named_file("-o"), &[file])?;
    }
    Ok(Said::Yes)
}

/// A refused export, with the point that it is about.
fn unexported(opened: &Opened, refusal: Refusal) -> Failure {
    let hint = match ambiguous(&opened.tables).filter(|_| refusal == Refusal::AmbiguousObject) {
        Some((point, name)) => format!(": point {point} has one with {name} alone; give it a second member"),
        None => String::new(),
    };
    Failure::refused(&opened.file, Refused::from(refusal), &hint)
}
