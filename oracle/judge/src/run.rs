//! The comparison at scale: random cases, ample and tight calls, spoiled calls, damaged copies.

use std::collections::BTreeMap;

use casefile::{Node, Tables};
use generate::calls::{output_fill, random_call, spoiled, step_limited, tightened, workspace_fill, Done, Spoiled};
use generate::cases::random_case;
use generate::damage::damaged;
use generate::{Call, Kind, Profile, Random, RandomCase};
use model::{Model, Outcome, Variant};

use crate::compare::{compare, Found};
use crate::mix::{Mix, Part, PLAIN};
use crate::reach::Reach;
use crate::rust::RustCase;

/// Puts a call to another implementation, which must do what the model did; else says what differs.
pub type Beside = fn(&Call, &[u8], &Done) -> Result<(), String>;

/// What was put to whom, and what differed.
pub struct Report {
    pub model: Model,
    pub mix: Mix,
    /// Asked every call that the model is asked.
    pub beside: Vec<Beside>,
    /// Questions answered by the model and by the Rust.
    pub to_both: u64,
    pub counts: BTreeMap<String, u64>,
    pub differences: Vec<String>,
}

/// A case that is asked, with what is made of it once.
struct Asked<'a> {
    case: &'a RandomCase,
    rust: RustCase<'a>,
    reach: Reach<'a>,
}

impl Report {
    pub fn new(model: Model) -> Report {
        Report {
            model,
            mix: Mix::ALL,
            beside: Vec::new(),
            to_both: 0,
            counts: BTreeMap::new(),
            differences: Vec::new(),
        }
    }

    /// Random cases and questions until this many were put to both, or this many differences found.
    pub fn run(&mut self, random: &mut Random, questions: u64, most_differences: usize) {
        while self.to_both < questions && self.differences.len() < most_differences {
            let part = self.mix.part(random);
            let case = random_case(random, part.profile);
            self.count("random cases");
            let refusal = self.done(&Call::check(), &case.bytes).outcome.refusal;
            self.expect(&case.bytes, refusal == 0, || "a case made by the rules is refused".to_string());
            self.questions(random, &case, part);
            for _ in 0..2 {
                self.damaged_copy(random, &case, part);
            }
        }
    }

    /// So many damaged copies of random cases, or until this many differences are found.
    pub fn damage(&mut self, random: &mut Random, copies: u64, most_differences: usize) {
        let mut made = 0;
        while made < copies && self.differences.len() < most_differences {
            // Small ones, since a wound in a large table mostly does no harm.
            let profile = random.pick(&[Profile::SMALL, Profile::SMALL, Profile::FEW_DOTS]);
            let part = if random.percent(60) { Part { profile, ..PLAIN } } else { self.mix.part(random) };
            let case = random_case(random, part.profile);
            for _ in 0..10.min(copies - made) {
                self.damaged_copy(random, &case, part);
                made += 1;
            }
        }
    }

    /// What the model does, and all others beside it.
    fn done(&mut self, call: &Call, case: &[u8]) -> Done {
        let done = call.ask(self.model, case);
        for k in 0..self.beside.len() {
            let differs = self.beside[k](call, case, &done).err();
            self.expect(case, differs.is_none(), || format!("{differs:?}\n{call:?}\n{done:?}"));
        }
        done
    }

    fn count(&mut self, what: &str) {
        *self.counts.entry(what.to_string()).or_insert(0) += 1;
    }

    fn expect(&mut self, case: &[u8], kept: bool, what: impl FnOnce() -> String) {
        if !kept {
            self.differences.push(format!("{}\ncase {}", what(), hex(case)));
        }
    }

    fn damaged_copy(&mut self, random: &mut Random, case: &RandomCase, part: Part) {
        let bytes = damaged(random, &case.bytes);
        let refusal = self.done(&Call::check(), &bytes).outcome.refusal;
        self.count(&format!("damaged copies, check {refusal}"));
        if refusal != 0 {
            let call = random_call(random, case, part.limit, part.room);
            let done = self.done(&call, &bytes);
            let same = done.outcome == Outcome { refusal, ..Outcome::default() };
            self.expect(&bytes, same && buffers_kept(&call, &done, 0), || {
                "a refused case gets another refusal".to_string()
            });
            return;
        }
        // What passes the check must be safe to ask: the Rust, too, must find its way in it.
        let tables = Tables::decode(&bytes).expect("a checked case can be read");
        let node = |k: usize| Node::read(tables.nodes[k]).expect("a checked case has known nodes");
        let (conditions, rest): (Vec<u32>, Vec<u32>) =
            (0..tables.nodes.len() as u32).partition(|&k| node(k as usize).is_condition());
        let aggregates: Vec<u32> = rest.into_iter().filter(|&k| node(k as usize).is_aggregate()).collect();
        if !conditions.is_empty() && !aggregates.is_empty() && !tables.points.is_empty() {
            let part = Part { questions: 2, ..part };
            self.questions(random, &RandomCase { tables, bytes, conditions, aggregates }, part);
        }
    }

    fn questions(&mut self, random: &mut Random, case: &RandomCase, part: Part) {
        let mut asked = Asked { case, rust: RustCase::new(&case.tables), reach: Reach::new(&case.tables) };
        for _ in 0..part.questions {
            let mut call = random_call(random, case, part.limit, part.room);
            if random.percent(part.unbound) {
                call.start.fill(0);
            }
            let done = self.asked(&call, &mut asked);
            if done.outcome.refusal == 0 {
                let mut tight = Vec::new();
                if random.percent(60) {
                    tight.push(tightened(random, &call, &done.outcome, case.tables.variables));
                }
                for _ in 0..part.limited {
                    tight.push(step_limited(random, &call, &done.outcome));
                }
                tight.iter().for_each(|call| self.tight(call, &done, &mut asked));
            }
            if random.percent(10) {
                let Spoiled { call, refusal } = spoiled(random, &call, case);
                let said = self.asked(&call, &mut asked).outcome.refusal;
                // Refusal 13 comes after the walk, which may have ended in 11 or 12.
                let kept = said == refusal || (refusal == 13 && (said == 11 || said == 12));
                self.expect(&case.bytes, kept, || format!("a spoiled call is refused {said}, not {refusal}\n{call:?}"));
            }
        }
    }

    /// The same call with limits at or near what it needed.
    fn tight(&mut self, call: &Call, needed: &Done, asked: &mut Asked) {
        let done = self.asked(call, asked);
        let kept = limits_kept(call, &needed.outcome, &done.outcome);
        self.expect(&asked.case.bytes, kept, || format!("a limit does not decide as it must\n{call:?}\n{done:?}"));
    }

    /// Puts one question to both, and counts what it came to.
    fn asked(&mut self, call: &Call, asked: &mut Asked) -> Done {
        let done = self.question(call, asked.case, &mut asked.rust);
        let refusal = done.outcome.refusal;
        if refusal == 0 || refusal > 10 {
            asked.reach.of(call, &done).into_iter().for_each(|what| self.count(what));
        }
        done
    }

    /// Puts one question to the model and to the Rust.
    pub fn question(&mut self, call: &Call, case: &RandomCase, rust: &mut RustCase) -> Done {
        let done = self.done(call, &case.bytes);
        let buffers = buffers_kept(call, &done, case.tables.variables);
        self.expect(&case.bytes, buffers, || format!("a buffer is not as it must be\n{call:?}\n{done:?}"));
        match compare(call, &done, rust) {
            Found::Same => {
                self.to_both += 1;
                self.count(&format!("{:?}, {}", call.kind, said(call, &done.outcome)));
            }
            Found::NotForTheRust => self.count(&format!("model only: refused {}", done.outcome.refusal)),
            Found::AnswersDiffer(how) | Found::StepsDiffer(how) => self.differs(how, call, case, rust),
        }
        done
    }

    /// A difference, unless it is the listed one: rows equal as in the Rust explain it.
    fn differs(&mut self, how: String, call: &Call, case: &RandomCase, rust: &mut RustCase) {
        let mut found = |variant| compare(call, &call.ask(Model { variant }, &case.bytes), rust);
        let explained = found(Variant::RowsInPairOrder) == Found::Same;
        if explained && matches!(found(Variant::Document), Found::StepsDiffer(_)) {
            self.to_both += 1;
            self.count("listed difference in steps: rows equal by variable");
        } else {
            self.differences.push(format!("{how}\n{call:?}\ncase {}", hex(&case.bytes)));
        }
    }
}

fn said(call: &Call, outcome: &Outcome) -> String {
    match (outcome.refusal, call.kind) {
        (0, Kind::Ask) if outcome.number => "a number".to_string(),
        (0, Kind::Ask) => (if outcome.answer == 1 { "yes" } else { "no" }).to_string(),
        (0, _) => format!("{} rows", if outcome.answer > 3 { "more".to_string() } else { outcome.answer.to_string() }),
        (refusal, _) => format!("refused {refusal}"),
    }
}

/// Document 01 on buffers: untouched by refusals 1 to 10; else the workspace's first cells are 0 and
/// the later ones unchanged, and the output changes on an answer only, in the cells filled only.
pub fn buffers_kept(call: &Call, done: &Done, variables: u32) -> bool {
    let filled = match (done.outcome.refusal, call.kind) {
        (0, Kind::Rows) => 2 * call.binders.len() * done.outcome.answer as usize,
        _ => 0,
    };
    lent_kept(call, done, (call.kind != Kind::Check).then_some(variables), filled)
}

/// The same of a call that filled so many cells; without variables it is none that walks.
pub fn lent_kept(call: &Call, done: &Done, variables: Option<u32>, filled: usize) -> bool {
    let walked = done.outcome.refusal == 0 || done.outcome.refusal > 10;
    let cleared = variables.filter(|_| walked).map_or(0, |variables| 2 * variables as usize * call.room as usize);
    let workspace = done.workspace.iter().enumerate();
    let output = done.output.iter().enumerate();
    workspace.into_iter().all(|(k, &cell)| cell == if k < cleared { 0 } else { workspace_fill(k) })
        && output.skip(filled).all(|(k, &cell)| cell == output_fill(k))
}

/// A call refused nothing under ample limits; what it may say under tight ones.
fn limits_kept(tight: &Call, needed: &Outcome, said: &Outcome) -> bool {
    let enough = tight.limit >= needed.steps && tight.room >= needed.rows;
    match said.refusal {
        0 => enough && said == needed,
        13 => enough && (said.steps, said.rows) == (needed.steps, needed.rows),
        11 => tight.limit < needed.steps && said.steps == tight.limit && said.rows <= needed.rows.min(tight.room),
        12 => tight.room < needed.rows && said.rows == tight.room && said.steps <= needed.steps.min(tight.limit),
        _ => false,
    }
}

pub fn hex(bytes: &[u8]) -> String {
    bytes.iter().map(|byte| format!("{byte:02x}")).collect()
}
