//! `bench`: the last node at every point, as document 01's program writes it.

use std::ffi::OsStr;

use casefile::Variables;
use galivodern::{Answer, Bindings, Limits, PointNo, Refusal, Refused, RuleNo, Sort};

use crate::arguments::Options;
use crate::ask::in_json;
use crate::failure::Failure;
use crate::input::{as_text, read, shown};
use crate::json::Object;
use crate::names::Names;
use crate::opened::{packed, Opened};
use crate::output::print;
use crate::progress::Progress;
use crate::Said;

const MOST_BYTES: usize = 65_536;

pub fn bench(options: &Options) -> Result<Said, Failure> {
    let opened = case(options).inspect_err(|failure| {
        // Document 01's program says so; what else is to be said goes to standard error.
        if let (Failure::Refused { refused, .. }, false) = (failure, options.flag("--json")) {
            let _ = print(&format!("refused {}\n", refused.refusal.number()));
        }
    })?;
    let mut asked = opened.asked(None, opened.case.last_rule().map(|rule| rule.0))?;
    if let Some(last) = opened.names.last().filter(|last| last.node != asked.node) {
        let message = format!(
            "the last rule, {}, is another name of node {}, and `bench` asks the last node, {}: use `ask`, or write the \
             rule out",
            last.name,
            last.node,
            asked.shown()
        );
        return Err(Failure::of_file(&opened.file, message));
    }
    asked.loose |= options.flag("--loose");
    opened.all_bound(&asked, Variables::default())?;
    every_point(&opened, asked.node, options)
}

/// The case with a condition or an aggregate for its last node.
fn case(options: &Options) -> Result<Opened, Failure> {
    let opened = if options.flag("--log") { Opened::of_call(options)? } else { small_case(options.file()?)? };
    match opened.case.last_rule().and_then(|node| opened.case.sort(node)) {
        Some(Sort::Condition | Sort::Aggregate) => Ok(opened),
        _ => Err(Failure::refused(
            &opened.file,
            Refused::from(Refusal::NoSuchNode),
            "; `bench` asks the last node, which must be a condition, a count or a sum",
        )),
    }
}

/// A case file that document 01's program takes, too.
fn small_case(file: &OsStr) -> Result<Opened, Failure> {
    let bytes = read(file)?;
    // An empty file is refused as document 01's program does it.
    let text = if bytes.is_empty() { None } else { as_text(file, &bytes)? };
    let (names, source, bytes) = match text {
        Some(text) => {
            let packed = packed(file, text)?;
            (Names::of_text(&packed), Some((text.to_string(), packed.clone())), packed.tables.encode())
        }
        None => (Names::beside(file, &bytes)?, None, bytes),
    };
    if bytes.len() > MOST_BYTES {
        let hint = format!(": {} bytes, and `bench` takes 65536; `ask` takes cases up to 4194304", bytes.len());
        return Err(Failure::refused(&shown(file), Refused::from(Refusal::TooLarge), &hint));
    }
    Opened::of(file, bytes, names, source)
}

fn every_point(opened: &Opened, node: u32, options: &Options) -> Result<Said, Failure> {
    let points = opened.case.contents().points;
    let progress = Progress::start(format!("asking {}", opened.file), Some(points));
    let mut lines = Vec::new();
    for point in 0..points {
        let said = opened.case.ask(PointNo(point), RuleNo(node), &Bindings::new(), Limits::default());
        let (told, steps, held) = match said {
            Ok(answer) => (Ok(answer.value), answer.steps, answer.held),
            Err(Refused { refusal, steps, held, .. }) => (Err(refusal.number()), steps, held),
        };
        lines.push(if options.flag("--json") {
            json_line(opened, point, told, steps, held)
        } else {
            let words = told.map_or_else(|number| format!("refused {number}"), |answer| answer.to_string());
            format!("{point} {words} {steps} {held}\n")
        });
        progress.advance();
    }
    drop(progress);
    if options.flag("--json") {
        let rule = opened.names.of_node(node).map(|rule| rule.name.as_str());
        let object = opened.json().plain("node", node).some("rule", rule);
        print(&format!("{}\n", object.list("points", lines.into_iter()).done()))?;
    } else if !options.flag("--quiet") {
        print(&format!("point verdict steps held\n{}", lines.concat()))?;
    }
    Ok(Said::Yes)
}

fn json_line(opened: &Opened, point: usize, told: Result<Answer, u8>, steps: u64, held: usize) -> String {
    let (time, date) = opened.time(point);
    let object = Object::new().plain("point", point).plain("time", time).some("date", date.as_deref());
    let object = match told {
        Ok(answer) => object.plain("answer", in_json(answer)),
        Err(number) => object.plain("refused", number),
    };
    object.plain("steps", steps).plain("held", held).done()
}
