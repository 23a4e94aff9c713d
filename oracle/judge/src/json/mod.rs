//! Request #112 put to the model: logs whose meaning or fault is known from their making, and the laws
//! of import and export.

pub mod examples;
pub mod finish;
pub mod lines;
pub mod texts;

use std::collections::BTreeMap;

use casefile::Tables;
use generate::cases::random_case;
use generate::json::{canonical, faulty_line, is_ambiguous, random_event, sorted, spelled_line, Manner};
use generate::Random;
use model::json::{Event, Refused};
use model::{Model, Variant};

use crate::mix::Mix;
use finish::{finished, points};

/// Bytes lent for an export.
const MOST_TEXT: usize = 1 << 20;

/// What was put to the model, and what differed.
pub struct Report {
    pub model: Model,
    pub counts: BTreeMap<String, u64>,
    pub differences: Vec<String>,
}

impl Report {
    pub fn new(model: Model) -> Report {
        Report { model, counts: BTreeMap::new(), differences: Vec::new() }
    }

    /// So many rounds: a good log, a faulty one, and now and then a case and an ambiguous log.
    pub fn run(&mut self, random: &mut Random, rounds: u64, most_differences: usize) {
        for round in 0..rounds {
            if self.differences.len() >= most_differences {
                return;
            }
            self.good_log(random);
            self.faulty_log(random);
            if round % 4 == 0 {
                self.ambiguous_log(random);
            }
            if round % 16 == 0 {
                self.case(random);
            }
        }
    }

    fn count(&mut self, what: &str) {
        *self.counts.entry(what.to_string()).or_insert(0) += 1;
    }

    fn expect(&mut self, kept: bool, what: &str, text: &[u8]) {
        if !kept {
            self.differences.push(format!("{what}\n{}", String::from_utf8_lossy(text)));
        }
    }

    /// Events in random spelling come back; their trace says them; what is finished exports as J21 says.
    fn good_log(&mut self, random: &mut Random) {
        let events: Vec<Event> = (0..random.between(0, 3)).map(|_| random_event(random, Manner::Any)).collect();
        let text = log(random, &events);
        self.count("good logs");
        let wanted: Vec<Event> = events.iter().map(sorted).collect();
        let read = match self.model.events(&text) {
            Ok(read) => read,
            Err(refused) => return self.expect(false, &format!("a good log is refused: {refused:?}"), &text),
        };
        let same = read.iter().map(sorted).collect::<Vec<_>>() == wanted;
        self.expect(same, "a good log is read as other events", &text);
        if !same {
            return;
        }
        let trace = self.model.trace(&read);
        let Ok(unsorted) = Tables::decode(&trace.bytes) else {
            return self.expect(false, "the trace has no tables", &text);
        };
        let marked = trace.marks.len() == unsorted.lists.len() && points(&unsorted) == wanted;
        self.expect(marked, "the trace says other events", &text);
        let case = finished(&unsorted, &trace.marks).encode();
        let refusal = self.model.check(&case);
        self.count(&format!("good logs, finished, check {refusal}"));
        self.expect(refusal == writers_refusal(&wanted), &format!("the finished case is refused {refusal}"), &text);
        if refusal == 0 {
            self.round_trip(&case, &wanted, &trace.bytes);
        }
        self.buffers(random, &text, &trace.bytes, &trace.marks);
    }

    /// The export is the canonical text, and imports as the same trace.
    fn round_trip(&mut self, case: &[u8], wanted: &[Event], trace: &[u8]) {
        let lines: String = wanted.iter().map(canonical).collect();
        let exported = self.model.exported(case, lines.len());
        self.expect(exported.as_deref() == Ok(lines.as_bytes()), "the export is another text", lines.as_bytes());
        let short = lines.is_empty() || self.model.exported(case, lines.len() - 1) == Err(14);
        self.expect(short, "an output one byte short is not refused 14", lines.as_bytes());
        let again = self.model.events(lines.as_bytes()).map(|events| self.model.trace(&events).bytes);
        self.expect(again.as_deref() == Ok(trace), "the export imports as another trace", lines.as_bytes());
        self.count("exports that import as the same bytes");
    }

    /// 10 first of all, 14 last; a buffer that is not filled is as it was.
    fn buffers(&mut self, random: &mut Random, text: &[u8], trace: &[u8], marks: &[u8]) {
        let cells = text.len().div_ceil(4);
        let short = |random: &mut Random, full: usize| if full > 0 && random.percent(30) { full - 1 } else { full + 2 };
        let (lent, lent_marks) = (short(random, trace.len()), short(random, marks.len()));
        let few = cells > 0 && random.percent(30);
        let (mut bytes, mut mark_bytes) = (vec![7; lent], vec![7; lent_marks]);
        let done = self.model.import(text, cells - usize::from(few), &mut bytes, &mut mark_bytes);
        let expected = match (few, lent < trace.len() || lent_marks < marks.len()) {
            (true, _) => 10,
            (false, true) => 14,
            (false, false) => 0,
        };
        self.count(&format!("imports with buffers, {expected}"));
        let filled = |buffer: &[u8], with: &[u8]| match expected {
            0 => buffer.starts_with(with) && buffer[with.len()..].iter().all(|&byte| byte == 7),
            _ => buffer.iter().all(|&byte| byte == 7),
        };
        let kept = done.refusal == expected && filled(&bytes, trace) && filled(&mark_bytes, marks);
        self.expect(kept, &format!("import with buffers: {done:?}, not {expected}"), text);
    }

    /// Good lines, then one with a fault that is known, then anything.
    fn faulty_log(&mut self, random: &mut Random) {
        let before: Vec<Event> =
            (0..random.pick(&[0, 0, 0, 1, 2])).map(|_| random_event(random, Manner::Any)).collect();
        let mut text = Vec::new();
        for event in &before {
            text.extend(spelled_line(random, event));
            text.push(b'\n');
        }
        let foretold = faulty_line(random);
        let shift = text.len();
        text.extend(foretold.line);
        if random.percent(50) {
            text.push(b'\n');
            text.extend(generate::json::random_line(random));
        }
        let Refused { refusal, place, first } = foretold.refused;
        let expected = Refused { refusal, place: place + shift, first: first.map(|first| first + shift) };
        self.count(&format!("faulty logs, {refusal}"));
        let said = self.model.events(&text);
        self.expect(said.as_ref().err() == Some(&expected), &format!("{expected:?} is due, not {said:?}"), &text);
    }

    /// What the export cannot write is 25, at any depth; also where the output is too short.
    fn ambiguous_log(&mut self, random: &mut Random) {
        let event = random_event(random, Manner::Ambiguous);
        let trace = Model::document().trace(std::slice::from_ref(&event));
        let unsorted = Tables::decode(&trace.bytes).expect("a trace has tables");
        let case = finished(&unsorted, &trace.marks).encode();
        if self.model.check(&case) != 0 {
            return;
        }
        let most = random.pick(&[0, MOST_TEXT]);
        let expected = match (is_ambiguous(&event), most) {
            (true, _) => 25,
            (false, 0) => 14,
            _ => 0,
        };
        self.count(&format!("exports, {expected}"));
        let said = self.model.exported(&case, most).err().unwrap_or(0);
        let line = canonical(&event);
        self.expect(said == expected, &format!("export {said}, not {expected}"), line.as_bytes());
    }

    /// Of a random case: import of the export is its points.
    fn case(&mut self, random: &mut Random) {
        let part = Mix::ALL.part(random);
        let case = random_case(random, part.profile);
        let text = match self.model.exported(&case.bytes, MOST_TEXT) {
            Ok(text) => text,
            Err(refusal) => {
                self.count(&format!("random cases, export {refusal}"));
                return self.expect(refusal == 14, &format!("export {refusal}"), &[]);
            }
        };
        self.count("random cases, exported");
        let wanted = points(&case.tables);
        let lines: String = wanted.iter().map(canonical).collect();
        self.expect(text == lines.as_bytes(), "a case's export is another text", &text);
        let Ok(events) = self.model.events(&text) else {
            return self.expect(false, "an export is refused", &text);
        };
        let trace = self.model.trace(&events);
        let unsorted = Tables::decode(&trace.bytes).expect("a trace has tables");
        self.expect(points(&unsorted) == wanted, "import of export says other points", &text);
        let finished = finished(&unsorted, &trace.marks).encode();
        let refusal = self.model.check(&finished);
        self.count(&format!("random cases, finished again, check {refusal}"));
        if refusal == 0 {
            let again = self.model.exported(&finished, MOST_TEXT);
            self.expect(again.as_deref() == Ok(&text[..]), "export of import of export is another text", &text);
        }
    }
}

/// Lines of events, the last one with or without its end.
fn log(random: &mut Random, events: &[Event]) -> Vec<u8> {
    let mut lines: Vec<Vec<u8>> = events.iter().map(|event| spelled_line(random, event)).collect();
    if events.is_empty() || random.percent(70) {
        lines.push(Vec::new());
    }
    lines.join(&b'\n')
}

/// What the writer says of events within the mosts: 5 for a quotation mark or an entity twice.
fn writers_refusal(events: &[Event]) -> u32 {
    let bad = |event: &Event| {
        let twice = event.entities.windows(2).any(|pair| (&pair[0].0, &pair[0].1) == (&pair[1].0, &pair[1].1));
        twice || event.entities.iter().any(|(ty, _, _)| ty.contains(&b'"'))
    };
    if events.iter().any(bad) {
        5
    } else {
        0
    }
}

/// Rounds of the random run before a variant counts as not caught.
const ROUNDS: u64 = 1_000;

/// All that catches a variant: examples and the random run.
pub fn caught(variant: Variant, seed: u64) -> Result<Vec<String>, String> {
    let model = Model { variant };
    let mut by = Vec::new();
    let (_, differences) = examples::ask(model)?;
    if let Some(first) = differences.first() {
        by.push(format!("{} examples, as `{}`", differences.len(), first.lines().next().unwrap_or_default()));
    }
    let mut report = Report::new(model);
    report.run(&mut Random::new(seed), ROUNDS, 1);
    if let Some(first) = report.differences.first() {
        let logs: u64 = report.counts.iter().filter(|(what, _)| what.contains("logs")).map(|(_, count)| count).sum();
        by.push(format!("after {logs} logs: {}", first.lines().next().unwrap_or_default()));
    }
    Ok(by)
}
