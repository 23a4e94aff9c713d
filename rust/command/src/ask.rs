//! `ask`: one question of one case.

use casefile::Variables;
use galivodern::{Answer, Answered, Bindings, Limits, PointNo, Refused, RuleNo};

use crate::arguments::Options;
use crate::bind::{bindings, bound_names};
use crate::failure::Failure;
use crate::json::Object;
use crate::opened::{Asked, Opened};
use crate::output::print;
use crate::progress::Progress;
use crate::warn::{warnings, Warned};
use crate::Said;

/// What is asked of which case: what `ask` and `rows` have in common.
pub struct Question {
    pub opened: Opened,
    pub asked: Asked,
    pub point: usize,
    pub start: Bindings,
    /// The variables that are bound at the start.
    pub bound: Variables,
    pub limits: Limits,
}

impl Question {
    pub fn of(options: &Options) -> Result<Question, Failure> {
        let limits = options.limits()?;
        let (rule, node, point) = (options.text("--rule")?, options.number("--node")?, options.number("--point")?);
        let opened = Opened::of_call(options)?;
        let mut asked = opened.asked(rule, node)?;
        asked.loose |= options.flag("--loose");
        let point = opened.point(point)?;
        let (start, bound) = bindings(&opened, &options.texts("--bind")?)?;
        Ok(Question { opened, asked, point, start, bound, limits })
    }

    pub fn warnings(&self, options: &Options) -> Result<Vec<Warned>, Failure> {
        let idle = bound_names(&self.opened, &self.asked, self.bound);
        warnings(options, &self.opened, Some((&self.asked, self.point)), idle)
    }

    /// The beginning of an answer in JSON.
    pub fn json(&self) -> Object {
        let (time, date) = self.opened.time(self.point);
        let object = self.opened.json().plain("point", self.point).plain("time", time);
        let object = object.some("date", date.as_deref()).plain("node", self.asked.node);
        object.some("rule", self.asked.rule.as_deref())
    }

    pub fn refused(&self, refused: Refused) -> Failure {
        let (file, hint) = (self.opened.file.clone(), hint(refused).to_string());
        Failure::Refused { file, refused, hint, question: self.json() }
    }
}

/// What to do about a refusal.
fn hint(refused: Refused) -> &'static str {
    match refused.refusal.number() {
        11 => "; allow more with --steps, up to 1000000000",
        12 => "; allow more with --room, up to 16384",
        _ => "",
    }
}

/// An answer in JSON.
pub fn in_json(answer: Answer) -> String {
    match answer {
        Answer::Verdict(yes) => yes.to_string(),
        Answer::Number(number) => number.to_string(),
    }
}

pub fn ask(options: &Options) -> Result<Said, Failure> {
    let question = Question::of(options)?;
    let Question { opened, asked, point, start, limits, .. } = &question;
    opened.all_bound(asked, question.bound)?;
    let warned = question.warnings(options)?;
    let progress = Progress::start(format!("asking {}", opened.file), None);
    let said = opened.case.ask(PointNo(*point), RuleNo(asked.node), start, *limits);
    drop(progress);
    let Answered { value, steps, held, .. } = said.map_err(|refused| question.refused(refused))?;
    if options.flag("--json") {
        let object = question.json().plain("answer", in_json(value)).plain("steps", steps).plain("held", held);
        print(&format!("{}\n", object.warnings(&warned).done()))?;
    } else if !options.flag("--quiet") {
        print(&format!("{value} ({})\n", spent(steps, held)))?;
    }
    Ok(if value == Answer::Verdict(false) { Said::No } else { Said::Yes })
}

/// What an answer took, in words.
pub fn spent(steps: u64, held: usize) -> String {
    let plural = |number: u64| if number == 1 { "" } else { "s" };
    format!("{steps} step{}, {held} row{} held", plural(steps), plural(held as u64))
}
