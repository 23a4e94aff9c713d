//! Request #112 at scale: import and export of the archive beside the model, every byte of every buffer.

use std::collections::BTreeMap;

use generate::cases::random_case;
use generate::damage::damaged;
use generate::json::{random_event, random_line, spelled_line, Manner};
use generate::Random;
use judge::json::finish::finished;
use judge::mix::Mix;
use model::json::{Event, Imported};
use model::Model;

extern "C" {
    fn galivodern_import(
        text: *const u8,
        text_len: usize,
        work: *mut u64,
        work_len: usize,
        trace: *mut u8,
        trace_len: usize,
        marks: *mut u8,
        marks_len: usize,
        imported: *mut u64,
        imported_len: usize,
    ) -> u64;

    fn galivodern_export(
        file: *const u8,
        file_len: usize,
        output: *mut u8,
        output_len: usize,
        written: *mut u64,
        written_len: usize,
    ) -> u64;
}

/// What is lent to an import, and after it what it holds.
#[derive(Clone, Debug, PartialEq, Eq)]
pub struct Buffers {
    pub work: Vec<u64>,
    pub trace: Vec<u8>,
    pub marks: Vec<u8>,
}

impl Buffers {
    /// Filled with what no import writes there.
    pub fn new(work: usize, trace: usize, marks: usize) -> Buffers {
        let bytes = |count: usize| (0..count).map(|k| (k % 251) as u8 | 2).collect();
        Buffers { work: (0..work).map(|k| k as u64 + 1).collect(), trace: bytes(trace), marks: bytes(marks) }
    }
}

/// The number returned, and the four cells.
pub fn import(text: &[u8], lent: &mut Buffers) -> (u64, [u64; 4]) {
    let Buffers { work, trace, marks } = lent;
    let mut told = [7; 5];
    // SAFETY: all slices are live and apart, and the call takes any bytes.
    let returned = unsafe {
        galivodern_import(
            text.as_ptr(),
            text.len(),
            work.as_mut_ptr(),
            work.len(),
            trace.as_mut_ptr(),
            trace.len(),
            marks.as_mut_ptr(),
            marks.len(),
            told.as_mut_ptr(),
            told.len(),
        )
    };
    let [a, b, c, d, beyond] = told;
    assert_eq!(beyond, 7, "a fifth cell is written");
    (returned, [a, b, c, d])
}

/// The number returned, and the cell.
pub fn export(case: &[u8], output: &mut [u8]) -> (u64, u64) {
    let mut written = [7, 7];
    // SAFETY: as in `import`.
    let returned = unsafe {
        galivodern_export(
            case.as_ptr(),
            case.len(),
            output.as_mut_ptr(),
            output.len(),
            written.as_mut_ptr(),
            written.len(),
        )
    };
    assert_eq!(written[1], 7, "a second cell is written");
    (returned, written[0])
}

/// What was put to both, and what differed.
pub struct Report {
    pub counts: BTreeMap<String, u64>,
    pub differences: Vec<String>,
    /// The most bytes of a text that a case is exported as.
    most_text: usize,
}

impl Report {
    pub fn new() -> Report {
        Report { counts: BTreeMap::new(), differences: Vec::new(), most_text: 1 << 20 }
    }

    /// So many logs, good, faulty, damaged and nonsense; with each tenth a case, whole and damaged.
    pub fn run(&mut self, random: &mut Random, logs: u64, most_differences: usize) {
        for round in 0..logs {
            if self.differences.len() >= most_differences {
                return;
            }
            let text = random_log(random);
            self.log(random, &text);
            if round % 10 == 0 {
                self.case(random);
            }
        }
    }

    fn expect(&mut self, same: bool, what: &str, text: &[u8]) {
        if !same {
            self.differences.push(format!("{what}\n{}", String::from_utf8_lossy(text)));
        }
    }

    /// With room that fits exactly, and with each buffer one short.
    fn log(&mut self, random: &mut Random, text: &[u8]) {
        let cells = text.len().div_ceil(4);
        let made = Model::document().events(text).map(|events| Model::document().trace(&events));
        let (trace, marks) = made.map_or((64, 3), |made| (made.bytes.len(), made.marks.len()));
        let more = random.below(3);
        let mut lent = vec![[cells, trace, marks], [cells + more, trace + more, marks + more]];
        let shorter = [
            [cells.saturating_sub(1), trace, marks],
            [cells, trace - 1, marks],
            [cells, trace, marks.saturating_sub(1)],
        ];
        lent.push(random.pick(&shorter));
        for [cells, trace, marks] in lent {
            self.imported(text, cells, trace, marks);
        }
    }

    fn imported(&mut self, text: &[u8], cells: usize, trace: usize, marks: usize) {
        let mut ours = Buffers::new(cells, trace, marks);
        let mut theirs = ours.clone();
        let (returned, told) = import(text, &mut ours);
        let Imported { refusal, place, first, bytes, marks: marked } =
            Model::document().import(text, cells, &mut theirs.trace, &mut theirs.marks);
        if refusal != 10 {
            theirs.work[..text.len().div_ceil(4)].fill(0);
        }
        // Where there are no two names both places are the fault's.
        let first = if refusal == 21 { first } else { place };
        let expected = [bytes, marked, place, first].map(|cell| cell as u64);
        *self.counts.entry(format!("imports, {refusal}")).or_insert(0) += 1;
        let same = (returned, told) == (u64::from(refusal), expected);
        self.expect(same, &format!("{returned} {told:?} is said, {refusal} {expected:?} is due"), text);
        let at = |a: &[u8], b: &[u8]| a.iter().zip(b).position(|(a, b)| a != b);
        let (differ, differ_marks) = (at(&ours.trace, &theirs.trace), at(&ours.marks, &theirs.marks));
        let work = ours.work == theirs.work;
        let what = format!(
            "import {refusal}: trace differs at {differ:?}, marks at {differ_marks:?}, workspace is the same: {work}"
        );
        self.expect(ours == theirs, &what, text);
    }

    fn case(&mut self, random: &mut Random) {
        let case = some_case(random);
        self.exported(&case);
        let damaged = damaged(random, &case);
        self.exported(&damaged);
    }

    fn exported(&mut self, case: &[u8]) {
        let most = Model::document().exported(case, self.most_text).map_or(64, |text| text.len());
        for lent in [most, most + 2, most.saturating_sub(1)] {
            let mut ours = Buffers::new(0, lent, 0).trace;
            let mut theirs = ours.clone();
            let (returned, written) = export(case, &mut ours);
            let said = Model::document().export(case, &mut theirs);
            *self.counts.entry(format!("exports, {}", said.refusal)).or_insert(0) += 1;
            let same = (returned, written) == (u64::from(said.refusal), said.length as u64) && ours == theirs;
            self.expect(
                same,
                &format!("export with {lent} bytes: {returned}, {written}, and {said:?} is due"),
                &theirs,
            );
        }
    }
}

/// Some lines, the last one with or without its end.
fn random_log(random: &mut Random) -> Vec<u8> {
    let mut lines: Vec<Vec<u8>> = Vec::new();
    let good = random.percent(40);
    for _ in 0..random.pick(&[0, 1, 1, 1, 2, 3]) {
        lines.push(if good || random.percent(50) {
            let event = random_event(random, Manner::Any);
            spelled_line(random, &event)
        } else {
            random_line(random)
        });
    }
    if random.percent(60) {
        lines.push(Vec::new());
    }
    lines.join(&b'\n')
}

fn some_case(random: &mut Random) -> Vec<u8> {
    if random.percent(30) {
        return ambiguous(random);
    }
    let part = Mix::ALL.part(random);
    random_case(random, part.profile).bytes
}

/// A case of an event that may hold what looks like one of Cedar's forms.
fn ambiguous(random: &mut Random) -> Vec<u8> {
    let event: Event = random_event(random, Manner::Ambiguous);
    let trace = Model::document().trace(std::slice::from_ref(&event));
    let unsorted = casefile::Tables::decode(&trace.bytes).expect("a trace has tables");
    finished(&unsorted, &trace.marks).encode()
}
