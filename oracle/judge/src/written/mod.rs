//! Request #101 put to a model: what must come of an input is known from how it was made.

pub mod examples;
mod huge;

use std::collections::BTreeMap;

use casefile::Tables;
use generate::cases::random_case;
use generate::damage::damaged;
use generate::rules::rule_files;
use generate::unsorted::{
    faulty, random_tables, room_fill, scrambled, used_both_ways, written_fill, Unsorted, WriteCall, Written,
};
use generate::{Profile, Random, RandomCase};
use model::{marks_of_reading, Model, Variant};

use crate::mix::{Mix, Part};
use crate::run::hex;

pub use huge::huge;

/// Puts a call to another implementation, which must do what the model did; else says what differs.
pub type Beside = fn(&WriteCall, &Written) -> Result<(), String>;

/// What was put to whom, and what differed.
pub struct Report {
    pub model: Model,
    pub beside: Vec<Beside>,
    /// Inputs put to the model.
    pub inputs: u64,
    /// Damaged copies among them.
    pub damaged: u64,
    pub counts: BTreeMap<String, u64>,
    pub differences: Vec<String>,
}

impl Report {
    pub fn new(model: Model) -> Report {
        let (counts, differences) = (BTreeMap::new(), Vec::new());
        Report { model, beside: Vec::new(), inputs: 0, damaged: 0, counts, differences }
    }

    /// So many inputs, so many of them damaged copies, or until so many differences are found.
    pub fn run(&mut self, random: &mut Random, inputs: u64, copies: u64, most_differences: usize) {
        while (self.inputs < inputs || self.damaged < copies) && self.differences.len() < most_differences {
            let small = Part { profile: Profile::SMALL, ..Mix::ALL.part(random) };
            let part = if random.percent(50) { small } else { Mix::ALL.part(random) };
            let case = random_case(random, part.profile);
            self.read_and_written(random, &case);
            if used_both_ways(&case.bytes) {
                self.count("cases with a place used both ways");
                continue;
            }
            for _ in 0..2 {
                self.scrambled_copy(random, &case);
            }
            for _ in 0..6 {
                let unsorted = random_tables(random);
                self.any(random, "small random tables", &unsorted.call(200 + unsorted.tables.text.len() * 4 + 2_000));
            }
        }
    }

    /// Inputs at the edges: full and short buffers, the most of each table, numbers near 2^32.
    pub fn huge(&mut self) {
        for (name, call, expected) in huge() {
            let written = self.written(&call);
            let said = written.said.map_or_else(|refusal| refusal, |_| 0);
            self.expect(&call, said == expected, || format!("{name}: {said}, not {expected}"));
            self.count(&format!("at an edge, {}", words(written.said)));
        }
    }

    /// The files that break one rule of the check each, with the marks that the unbroken one has.
    pub fn rule_files(&mut self, random: &mut Random) {
        let files = rule_files();
        let right = marks_of_reading(&files.first().expect("the first is the base case").bytes);
        for file in &files {
            let words = Tables::decode(&file.bytes).map_or(0, |tables| tables.lists.len());
            let marks: Vec<u8> = (0..words).map(|k| right.get(k).copied().unwrap_or(0)).collect();
            self.any(random, "a file for one rule", &WriteCall::new(file.bytes.clone(), marks, 2 * file.bytes.len()));
        }
    }

    fn count(&mut self, what: &str) {
        *self.counts.entry(what.to_string()).or_insert(0) += 1;
    }

    fn expect(&mut self, call: &WriteCall, kept: bool, what: impl FnOnce() -> String) {
        if !kept {
            let WriteCall { unsorted, marks, room, output } = call;
            let bytes = if unsorted.len() < 20_000 { hex(unsorted) } else { format!("{} bytes", unsorted.len()) };
            let marks = hex(&marks[..marks.len().min(200)]);
            self.differences.push(format!("{}\nroom {room}, output {output}, marks {marks}\ncase {bytes}", what()));
        }
    }

    /// What the model does, and all others beside it; what holds of every call is held.
    fn written(&mut self, call: &WriteCall) -> Written {
        let written = call.ask(self.model);
        self.inputs += 1;
        for k in 0..self.beside.len() {
            let differs = self.beside[k](call, &written).err();
            self.expect(call, differs.is_none(), || format!("{differs:?}, the model {:?}", written.said));
        }
        let kept = kept(call, &written);
        self.expect(call, kept, || format!("a buffer is not as it must be after {:?}", written.said));
        if let Ok(length) = written.said {
            let passes = Model::document().check(&written.output[..length]);
            self.expect(call, passes == 0, || format!("what is written is refused {passes}"));
        }
        written
    }

    /// A checked case with the marks of reading: the same bytes, or 5 or 6 for a place used both ways (W11).
    fn read_and_written(&mut self, random: &mut Random, case: &RandomCase) {
        let lent = case.bytes.len() + random.below(9);
        let call = WriteCall::new(case.bytes.clone(), marks_of_reading(&case.bytes), lent);
        let written = self.written(&call);
        let same = match written.said {
            Ok(length) => written.output[..length] == case.bytes,
            Err(refusal) => used_both_ways(&case.bytes) && (refusal == 5 || refusal == 6),
        };
        self.expect(&call, same, || format!("a case read and written: {:?}", written.said));
        self.count(&format!("read and written, {}", words(written.said)));
    }

    fn scrambled_copy(&mut self, random: &mut Random, case: &RandomCase) {
        let right = scrambled(random, &case.tables, &case.bytes);
        let length = case.bytes.len();
        let call = WriteCall {
            room: length + random.pick(&[0, 0, 1, 100]),
            output: length + random.pick(&[0, 0, 1, 100]),
            ..right.call(length)
        };
        let written = self.written(&call);
        let same = written.said == Ok(length) && written.output[..length] == case.bytes;
        self.expect(&call, same, || format!("a scrambled case: {:?}", written.said));
        self.count("scrambled, the case itself");
        for _ in 0..3 {
            if let Some((call, expected)) = faulty(random, &right, &case.bytes) {
                let written = self.written(&call);
                let said = written.said;
                self.expect(&call, said == Err(expected), || format!("with a fault: {said:?}, not {expected}"));
                self.count(&format!("with one fault, refused {expected}"));
            }
        }
        for _ in 0..4 {
            self.damaged_copy(random, &right, length);
        }
    }

    fn damaged_copy(&mut self, random: &mut Random, right: &Unsorted, length: usize) {
        let mut call = right.call(2 * length);
        call.unsorted = damaged(random, &call.unsorted);
        if random.percent(20) && !call.marks.is_empty() {
            let place = random.below(call.marks.len());
            call.marks[place] ^= 1 << random.below(8);
        }
        self.damaged += 1;
        self.any(random, "damaged", &call);
    }

    /// An input of which nothing is foretold, with any buffers; where it passes, those near its length, too.
    fn any(&mut self, random: &mut Random, name: &str, call: &WriteCall) {
        let written = self.written(call);
        self.count(&format!("{name}, {}", words(written.said)));
        if let Ok(length) = written.said {
            for (room, output, expected) in
                [(length, length, 0), (length - 1, length, 10), (length, length - 1, 14), (length - 1, 0, 10)]
            {
                let near = WriteCall { room, output, ..call.clone() };
                let said = self.written(&near).said;
                self.expect(&near, words(said) == words(if expected == 0 { Ok(0) } else { Err(expected) }), || {
                    format!("near: {said:?}, not {expected}")
                });
            }
        } else if random.percent(30) {
            let other = WriteCall { room: random.below(call.room + 1), output: random.below(60), ..call.clone() };
            let said = self.written(&other).said;
            self.count(&format!("{name}, any buffers, {}", words(said)));
        }
    }
}

fn words(said: Result<usize, u32>) -> String {
    said.map_or_else(|refusal| format!("refused {refusal}"), |_| "written".to_string())
}

/// The output changes only on an answer, in the bytes written; the room not on 1, 2 and 10.
fn kept(call: &WriteCall, written: &Written) -> bool {
    let filled = written.said.unwrap_or(0);
    let output = written.output.iter().enumerate().skip(filled).all(|(k, &byte)| byte == written_fill(k));
    let lengths = (written.room.len(), written.output.len()) == (call.room, call.output);
    let untouched = matches!(written.said, Err(1 | 2 | 10));
    let room = !untouched || written.room.iter().enumerate().all(|(k, &byte)| byte == room_fill(k));
    output && lengths && room
}

/// All that catches a wrong variant of the writer: the examples, the edges, the random run.
pub fn caught(variant: Variant, seed: u64) -> Result<Vec<String>, String> {
    let model = Model { variant };
    let mut by = Vec::new();
    let differences = examples::ask(model).1;
    if let Some(first) = differences.first() {
        by.push(format!("{} examples, as `{first}`", differences.len()));
    }
    let mut report = Report::new(model);
    report.huge();
    if let Some(first) = report.differences.pop() {
        by.push(format!("an edge: {}", first.lines().next().unwrap_or_default()));
    }
    let mut report = Report::new(model);
    report.run(&mut Random::new(seed), 30_000, 0, 1);
    if let Some(first) = report.differences.first() {
        by.push(format!("input {}: {}", report.inputs, first.lines().next().unwrap_or_default()));
    }
    Ok(by)
}
