//! Request #106 put to a model and to the Rust: the model's list beside what single verdicts say.

pub mod examples;
mod single;

use std::collections::BTreeMap;

use casefile::{Node, Point, Tables};
use generate::calls::spoiled;
use generate::carried::{ask_carried, least, near, random_carried, scans, with_scans, Shown};
use generate::cases::random_case;
use generate::damage::damaged;
use generate::{Call, Random, RandomCase};
use model::{Model, Outcome, Variant};

use crate::compare::Found;
use crate::mix::{Mix, Part};
use crate::run::{hex, lent_kept};
use crate::rust::RustCase;
use single::{Single, TooLong};

/// Puts a call to another implementation, which must do what the model did; else says what differs.
pub type Beside = fn(&Call, &[u8], &Shown) -> Result<(), String>;

/// What was put to whom, and what differed.
pub struct Report {
    pub model: Model,
    pub beside: Vec<Beside>,
    /// Questions answered by the model and by single verdicts of the Rust.
    pub to_both: u64,
    /// Damaged copies made.
    pub damaged: u64,
    pub counts: BTreeMap<String, u64>,
    pub differences: Vec<String>,
}

impl Report {
    pub fn new(model: Model) -> Report {
        let (counts, differences) = (BTreeMap::new(), Vec::new());
        Report { model, beside: Vec::new(), to_both: 0, damaged: 0, counts, differences }
    }

    /// Random cases and questions until so many were put to both and so many copies were damaged.
    pub fn run(&mut self, random: &mut Random, questions: u64, copies: u64, most_differences: usize) {
        while (self.to_both < questions || self.damaged < copies) && self.differences.len() < most_differences {
            let part = Mix::ALL.part(random);
            let made = random_case(random, part.profile);
            let case = with_scans(random, made);
            if self.to_both < questions {
                self.questions(random, &case, part);
            }
            for _ in 0..if self.to_both < questions { 1 } else { 10 } {
                self.damaged_copy(random, &case, part);
            }
        }
    }

    fn count(&mut self, what: &str) {
        *self.counts.entry(what.to_string()).or_insert(0) += 1;
    }

    fn expect(&mut self, case: &[u8], kept: bool, what: impl FnOnce() -> String) {
        if !kept {
            self.differences.push(format!("{}\ncase {}", what(), hex(case)));
        }
    }

    /// What the model does, and all others beside it.
    fn shown(&mut self, call: &Call, case: &[u8]) -> Shown {
        let shown = ask_carried(call, self.model, case);
        for k in 0..self.beside.len() {
            let differs = self.beside[k](call, case, &shown).err();
            self.expect(case, differs.is_none(), || format!("{differs:?}\n{call:?}\n{shown:?}"));
        }
        shown
    }

    fn damaged_copy(&mut self, random: &mut Random, case: &RandomCase, part: Part) {
        if scans(case).is_empty() {
            return;
        }
        let bytes = damaged(random, &case.bytes);
        let refusal = self.model.check(&bytes);
        self.damaged += 1;
        self.count(&format!("damaged copies, check {refusal}"));
        if refusal != 0 {
            let call = random_carried(random, case, part.limit, part.room);
            let shown = self.shown(&call, &bytes);
            let same = shown.done.outcome == Outcome { refusal, ..Outcome::default() } && shown.filled == 0;
            self.expect(&bytes, same && lent_kept(&call, &shown.done, None, 0), || {
                "a refused case gets another refusal".to_string()
            });
            return;
        }
        let tables = Tables::decode(&bytes).expect("a checked case can be read");
        let conditions = (0..tables.nodes.len() as u32).filter(|&k| tables.nodes[k as usize][0] <= 10).collect();
        let aggregates: Vec<u32> =
            (0..tables.nodes.len() as u32).filter(|&k| tables.nodes[k as usize][0] >= 30).collect();
        let copy = RandomCase { tables, bytes, conditions, aggregates };
        if !copy.tables.points.is_empty() && !copy.aggregates.is_empty() {
            self.questions(random, &copy, Part { questions: 2, ..part });
        }
    }

    fn questions(&mut self, random: &mut Random, case: &RandomCase, part: Part) {
        if scans(case).is_empty() || self.model.check(&case.bytes) != 0 {
            self.count("cases without a scan");
            return;
        }
        let mut rust = RustCase::new(&case.tables);
        for _ in 0..part.questions {
            let mut call = random_carried(random, case, part.limit, part.room);
            if random.percent(part.unbound) {
                call.start.fill(0);
            }
            let shown = self.question(&call, case, &mut rust);
            if shown.done.outcome.refusal == 0 {
                let least = least(&call, case);
                for _ in 0..4 {
                    let call = near(random, &call, case, least, shown.filled as usize);
                    self.question(&call, case, &mut rust);
                }
            }
            if random.percent(10) {
                self.spoiled(random, &call, case);
            }
        }
    }

    /// Refusals 7 to 10, and 8 for a condition that is no scan.
    fn spoiled(&mut self, random: &mut Random, call: &Call, case: &RandomCase) {
        let kind = |k: u32| case.tables.nodes[k as usize][0];
        let others: Vec<u32> =
            (0..case.tables.nodes.len() as u32).filter(|&k| kind(k) < 4 || (7..=10).contains(&kind(k))).collect();
        let (call, refusal) = if random.percent(30) && !others.is_empty() {
            (Call { node: random.pick(&others), ..call.clone() }, 8)
        } else {
            let spoiled = spoiled(random, call, case);
            (spoiled.call, spoiled.refusal)
        };
        let shown = self.shown(&call, &case.bytes);
        self.count(&format!("model only: refused {refusal}"));
        let same = shown.done.outcome == Outcome { refusal, ..Outcome::default() } && shown.filled == 0;
        self.expect(&case.bytes, same && lent_kept(&call, &shown.done, None, 0), || {
            format!("a spoiled call is not refused {refusal}\n{call:?}\n{shown:?}")
        });
    }

    /// Puts one question to the model and to the Rust.
    fn question(&mut self, call: &Call, case: &RandomCase, rust: &mut RustCase) -> Shown {
        let shown = self.shown(call, &case.bytes);
        let outcome = shown.done.outcome;
        let lent = lent_kept(call, &shown.done, Some(case.tables.variables), shown.filled as usize);
        self.expect(&case.bytes, lent, || format!("a buffer is not as it must be\n{call:?}\n{shown:?}"));
        let agrees = agrees_with_verdict(self.model, call, case, &outcome);
        self.expect(&case.bytes, agrees, || format!("the verdict call says another thing\n{call:?}\n{shown:?}"));
        match compare(call, &shown, rust) {
            Ok(Found::Same) => {
                self.to_both += 1;
                for what in kinds(call, &shown, case) {
                    self.count(&what);
                }
            }
            Ok(Found::NotForTheRust) => self.count(&format!("model only: refused {}", outcome.refusal)),
            Ok(Found::AnswersDiffer(how) | Found::StepsDiffer(how)) => self.differs(how, call, case, rust),
            Err(TooLong) => self.count("left out: the Rust makes more than 100,000 visits in one question"),
        }
        shown
    }

    /// A difference, unless it is the listed one: rows equal as in the Rust explain it.
    fn differs(&mut self, how: String, call: &Call, case: &RandomCase, rust: &mut RustCase) {
        let mut found = |variant| compare(call, &ask_carried(call, Model { variant }, &case.bytes), rust);
        let explained = matches!(found(Variant::RowsInPairOrder), Ok(Found::Same));
        if explained && matches!(found(Variant::Document), Ok(Found::StepsDiffer(_))) {
            self.to_both += 1;
            self.count("listed difference in steps: rows equal by variable");
        } else {
            self.differences.push(format!("{how}\n{call:?}\ncase {}", hex(&case.bytes)));
        }
    }
}

/// The model's answer or refusal beside the Rust's single verdicts.
fn compare(call: &Call, shown: &Shown, rust: &mut RustCase) -> Result<Found, TooLong> {
    let outcome = shown.done.outcome;
    let mut single = Single::new(rust, call);
    let refused = |visits: Vec<u64>, most: u64, how: String| {
        Ok(if visits.iter().any(|&count| count > most) { Found::Same } else { Found::StepsDiffer(how) })
    };
    match outcome.refusal {
        0 | 15 => compare_list(call, shown, &mut single),
        11 if (outcome.steps, outcome.rows <= call.room) != (call.limit, true) || shown.filled != 0 => {
            Ok(Found::AnswersDiffer(format!("refused 11 with {outcome:?}")))
        }
        11 => {
            let visits = single.visits()?;
            let how = format!("refused 11 at {}, the Rust's questions take {visits:?}", call.limit);
            refused(visits, call.limit, how)
        }
        12 if outcome.rows != call.room || outcome.steps == 0 || outcome.steps > call.limit || shown.filled != 0 => {
            Ok(Found::AnswersDiffer(format!("refused 12 with {outcome:?}")))
        }
        // The row that found no room was tried after this many visits, so the Rust makes as many.
        12 => {
            let visits = single.visits()?;
            let how = format!("refused 12 after {} steps, the Rust's questions take {visits:?}", outcome.steps);
            refused(visits, outcome.steps - 1, how)
        }
        _ => Ok(Found::NotForTheRust),
    }
}

/// An answer, or 15 in an answer's place: its list, and that every question fits the limit.
fn compare_list(call: &Call, shown: &Shown, single: &mut Single) -> Result<Found, TooLong> {
    let Shown { done, filled } = shown;
    let (yes, points) = single.listed()?;
    let said = match done.outcome {
        Outcome { refusal: 0, answer, steps: 0, rows: 0, number: false } => {
            (answer == 1) == yes && done.output[..*filled as usize] == points[..]
        }
        Outcome { refusal: 15, answer: 0, steps: 0, rows: 0, number: false } => {
            points.len() > call.output && *filled == 0
        }
        _ => false,
    };
    if !said {
        let filled = &done.output[..*filled as usize];
        let how = format!("{:?} {filled:?}, the Rust's single verdicts say {yes} {points:?}", done.outcome);
        return Ok(Found::AnswersDiffer(how));
    }
    let visits = single.visits()?;
    if visits.iter().any(|&count| count > call.limit) {
        return Ok(Found::StepsDiffer(format!("answered, the Rust's questions take {visits:?}")));
    }
    Ok(Found::Same)
}

/// Wherever the verdict call answers, this one answers the same or is 15 (106.9).
fn agrees_with_verdict(model: Model, call: &Call, case: &RandomCase, said: &Outcome) -> bool {
    let verdict = call.ask(model, &case.bytes).outcome;
    verdict.refusal != 0 || said.refusal == 15 || (said.refusal, said.answer) == (0, verdict.answer)
}

/// What a question came to, by the names that a run counts.
fn kinds(call: &Call, shown: &Shown, case: &RandomCase) -> Vec<String> {
    let node = Node::read(case.tables.nodes[call.node as usize]).expect("a checked case has known nodes");
    let (name, within) = match node {
        Node::Formerly { within, .. } => ("formerly", within),
        Node::Previous { within, .. } => ("previous", within),
        Node::Since { within, .. } => ("since", within),
        other => unreachable!("{other:?} is no scan"),
    };
    let Outcome { refusal, answer, .. } = shown.done.outcome;
    let cells = shown.filled as usize;
    let said = match (refusal, answer, name) {
        (0, 1, "since") => format!("yes, {} tested", few(cells - 1)),
        (0, 0, "since") => format!("no, {} failed", few(cells / 2)),
        (0, 1, _) => "yes".to_string(),
        (0, ..) => "no".to_string(),
        _ => format!("refused {refusal}"),
    };
    let times: Vec<i64> = case.tables.points.iter().map(|&words| Point::read(words).time).collect();
    let with = [
        (refusal == 0 && cells > 0 && call.output == cells, "with: a list that is exactly filled"),
        (refusal == 0 && call.output == 0, "with: an answer and no list at all"),
        (refusal == 15 && lacks_one(call, case), "with: a list that is one cell short"),
        (name == "previous" && call.point == 0, "with: previous at point 0"),
        (within.amount < 0, "with: a negative window"),
        (times.windows(2).any(|pair| pair[1] < pair[0]), "with: times that fall"),
        (call.start.iter().any(|&cell| cell != 0), "with: starting bindings"),
        (call.limit == 0, "with: limit 0"),
        (call.room == 0, "with: room 0"),
    ];
    let with = with.into_iter().filter(|(is, _)| *is).map(|(_, what)| what.to_string());
    with.chain([format!("{name}, {said}")]).collect()
}

fn few(count: usize) -> String {
    if count > 3 {
        "more".to_string()
    } else {
        count.to_string()
    }
}

/// Whether a list of one cell more would do.
fn lacks_one(call: &Call, case: &RandomCase) -> bool {
    let longer = Call { output: call.output + 1, ..call.clone() };
    ask_carried(&longer, Model::document(), &case.bytes).done.outcome.refusal == 0
}

/// All that catches a wrong variant of this call: the examples, the random run.
pub fn caught(variant: Variant, seed: u64) -> Result<Vec<String>, String> {
    let model = Model { variant };
    let differences = examples::ask(model)?.1;
    let mut by = Vec::new();
    if let Some(first) = differences.first() {
        by.push(format!("{} examples, as `{}`", differences.len(), first.lines().next().unwrap_or_default()));
    }
    let mut report = Report::new(model);
    report.run(&mut Random::new(seed), 60_000, 0, 1);
    if let Some(first) = report.differences.first() {
        by.push(format!("question {}: {}", report.to_both, first.lines().next().unwrap_or_default()));
    }
    Ok(by)
}
