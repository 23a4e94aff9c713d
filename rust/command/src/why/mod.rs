//! `why`: which past event carried the yes, or why there is none.

mod every;
mod json;
mod picture;
mod timeline;
mod told;
mod walk;
mod words;

use galivodern::{Refusal, Refused, RuleNo, Sort};

use crate::arguments::Options;
use crate::ask::Question;
use crate::failure::Failure;
use crate::names::beside;
use crate::output::{print, write_file};
use crate::progress::Progress;
use crate::Said;
use told::Told;
use walk::Walk;

pub fn why(options: &Options) -> Result<Said, Failure> {
    let picture = options.named_file("--svg");
    if picture.is_some_and(|file| file == "-") && (options.flag("--json") || options.flag("--quiet")) {
        let message =
            "`--svg -` writes the picture to standard output, in place of the words: leave --json and --quiet \
                       out, or name a file for the picture";
        return Err(Failure::usage(message));
    }
    let question = Question::of(options)?;
    let opened = &question.opened;
    if opened.case.sort(RuleNo(question.asked.node)) != Some(Sort::Condition) {
        let hint = "; `why` shows what decided a yes or no: a count or sum is asked with `ask`";
        return Err(Failure::refused(&opened.file, Refused::from(Refusal::NoSuchNode), hint));
    }
    opened.all_bound(&question.asked, question.bound)?;
    let warned = question.warnings(options)?;
    let progress = Progress::start(format!("asking {}", opened.file), None);
    let part = Walk::of(&question).rule();
    drop(progress);
    let told = Told::of(&question, &part.map_err(|refused| question.refused(refused))?)?;
    if let Some(file) = picture {
        let drawn = picture::drawn(&question, &told);
        if file == "-" {
            print(&drawn)?;
            return Ok(said(told.verdict));
        }
        let (case, schema, log) = (options.file()?, options.named_file("--schema"), options.named_file("--log"));
        let names = beside(case);
        let inputs: Vec<_> = [Some(case), schema, log, Some(&names)].into_iter().flatten().collect();
        write_file(file, drawn.as_bytes(), &inputs)?;
    }
    if options.flag("--json") {
        let object = question.json().plain("answer", told.verdict).plain("why", json::part(opened, &told));
        print(&format!("{}\n", object.warnings(&warned).done()))?;
    } else if !options.flag("--quiet") {
        print(&words::words(&question, &told))?;
    }
    Ok(said(told.verdict))
}

fn said(verdict: bool) -> Said {
    if verdict {
        Said::Yes
    } else {
        Said::No
    }
}
