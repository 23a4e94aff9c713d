//! The lists that the repository's own tests replay with no Rust at hand. docs/JUDGE-LIST.md
//! describes their bytes. The same seed gives the same bytes.

use std::path::{Path, PathBuf};

use dogwood::interpreter::value::{decimal_reading, Value};
use generate::calls::{random_call, spoiled, tightened, Done};
use generate::cases::random_case;
use generate::damage::damaged;
use generate::rules::rule_files;
use generate::{Call, Kind, Profile, Random, RandomCase};
use model::{Model, Outcome};

use crate::compare::{compare, Found};
use crate::convert::Converter;
use crate::fixed::{dots, fixed, two_rows, Fixed};
use crate::rust::RustCase;

/// A list's file name, its bytes, and what it holds.
pub struct List {
    pub name: &'static str,
    pub bytes: Vec<u8>,
    pub holds: String,
}

/// The seed of the committed list of answers.
const SEED: u64 = 2026;

/// The folder that the lists are committed in.
pub fn folder() -> PathBuf {
    Path::new(env!("CARGO_MANIFEST_DIR")).join("../../data")
}

/// All lists, made anew.
pub fn lists() -> Result<Vec<List>, String> {
    Ok(vec![answers(SEED)?, rule_file_list()?, equalities()?])
}

const CASES: usize = 300;
/// After so many cases comes a damaged copy of the last.
const DAMAGED_EVERY: usize = 6;
/// Cases whose names have dots, after the others, so that those stay as they are.
const DOTTED_CASES: usize = 60;
const LIMIT: u64 = 3_000;
const ROOM: u64 = 24;
/// Larger workspaces and outputs are left out of the list, so that a replay needs little memory.
const MOST_CELLS: usize = 1_600;

fn push(bytes: &mut Vec<u8>, word: u32) {
    bytes.extend(word.to_le_bytes());
}

fn push_cell(bytes: &mut Vec<u8>, cell: u64) {
    bytes.extend(cell.to_le_bytes());
}

/// Bytes with their length before them, filled up to a whole word.
fn push_file(bytes: &mut Vec<u8>, file: &[u8]) {
    push(bytes, file.len() as u32);
    bytes.extend(file);
    bytes.resize(bytes.len().next_multiple_of(4), 0);
}

/// `judge-answers.bin`: calls of all three kinds with the answers that the Rust agreed to; last a case
/// whose listed answers are wrong on purpose.
fn answers(seed: u64) -> Result<List, String> {
    let mut random = Random::new(seed);
    let mut list = Vec::new();
    let (mut calls, mut refused) = (0, [0; 14]);
    for k in 0..CASES {
        let profile = match k % 24 {
            0 => Profile::USUAL,
            1..=4 => Profile::SMALL,
            _ => Profile::TINY,
        };
        let case = random_case(&mut random, profile);
        let chosen = answered_calls(&mut random, &case);
        push_case(&mut list, &case.bytes, &chosen, &mut refused);
        calls += chosen.len();
        if k % DAMAGED_EVERY == DAMAGED_EVERY - 1 {
            let mut bytes = damaged(&mut random, &case.bytes);
            if k < 5 * DAMAGED_EVERY {
                // One variable too many, which random damage hardly ever hits on.
                bytes = case.bytes.clone();
                bytes[4] = 17;
            }
            let chosen = refused_calls(&mut random, &case, &bytes);
            push_case(&mut list, &bytes, &chosen, &mut refused);
            calls += chosen.len();
        }
    }
    let mut random = Random::new(seed + 103);
    for _ in 0..DOTTED_CASES {
        let case = random_case(&mut random, Profile::FEW_DOTS);
        let chosen = answered_calls(&mut random, &case);
        push_case(&mut list, &case.bytes, &chosen, &mut refused);
        calls += chosen.len();
    }
    let by_hand: Vec<Fixed> = fixed().into_iter().chain(dots()?).collect();
    for case in &by_hand {
        agreed(case)?;
        push_case(&mut list, &case.tables.encode(), &case.calls, &mut refused);
        calls += case.calls.len();
    }
    let wrong = wrong_entries();
    push_entries(&mut list, &two_rows().tables.encode(), &wrong);
    calls += wrong.len();
    let cases = CASES + CASES / DAMAGED_EVERY + DOTTED_CASES + by_hand.len() + 1;
    let mut bytes = Vec::new();
    for word in [cases as u32, calls as u32, MOST_CELLS as u32] {
        push(&mut bytes, word);
    }
    bytes.extend(list);
    let holds = format!("{cases} cases, {calls} calls, by refusal {refused:?}, {} of them wrong", wrong.len());
    Ok(List { name: "judge-answers.bin", bytes, holds })
}

/// The Rust agrees to all calls of a case made by hand.
fn agreed(case: &Fixed) -> Result<(), String> {
    let mut rust = RustCase::new(&case.tables);
    for call in &case.calls {
        match compare(call, &call.ask(Model::document(), &case.tables.encode()), &mut rust) {
            Found::Same | Found::NotForTheRust => {}
            found => return Err(format!("{call:?}: {found:?}")),
        }
    }
    Ok(())
}

/// Calls on a case that passes, each the Rust agrees with or is no question for it.
fn answered_calls(random: &mut Random, case: &RandomCase) -> Vec<Call> {
    let mut rust = RustCase::new(&case.tables);
    let mut chosen = vec![Call::check()];
    while chosen.len() < 7 {
        let call = random_call(random, case, LIMIT, ROOM);
        let needed = call.ask(Model::document(), &case.bytes).outcome;
        let call = match random.below(10) {
            0..=4 => fitted(&call, &needed, case.tables.variables),
            5..=7 if needed.refusal == 0 => tightened(random, &call, &needed, case.tables.variables),
            _ => spoiled(random, &call, case).call,
        };
        let done = call.ask(Model::document(), &case.bytes);
        let agreed = matches!(compare(&call, &done, &mut rust), Found::Same | Found::NotForTheRust);
        if agreed && call.workspace <= MOST_CELLS && call.output <= MOST_CELLS {
            chosen.push(call);
        }
    }
    chosen
}

/// The call with room and output near what it needs, so that buffers stay small.
fn fitted(call: &Call, needed: &Outcome, variables: u32) -> Call {
    let mut call = call.clone();
    if needed.refusal == 0 {
        call.room = needed.rows + 1;
        call.output = 2 * call.binders.len() * needed.answer as usize + 1;
    }
    call.fit_workspace(variables);
    call.workspace += 1;
    call
}

/// The check and one question on a damaged case: the same refusal, or a case that passes still.
fn refused_calls(random: &mut Random, case: &RandomCase, bytes: &[u8]) -> Vec<Call> {
    let mut chosen = vec![Call::check()];
    if Model::document().check(bytes) != 0 {
        let mut call = random_call(random, case, LIMIT, 2);
        call.output = 4;
        chosen.push(call);
    }
    chosen
}

fn push_case(list: &mut Vec<u8>, case: &[u8], calls: &[Call], refused: &mut [usize; 14]) {
    let entries: Vec<Entry> = calls.iter().map(|call| Entry::of(call, case)).collect();
    entries.iter().for_each(|entry| refused[entry.outcome.refusal as usize] += 1);
    push_entries(list, case, &entries);
}

fn push_entries(list: &mut Vec<u8>, case: &[u8], entries: &[Entry]) {
    push_file(list, case);
    push(list, entries.len() as u32);
    entries.iter().for_each(|entry| entry.push(list));
}

/// A call as it is listed: what it says, how many cells of the workspace it clears, and the first
/// cells of the output.
#[derive(Clone)]
struct Entry {
    call: Call,
    outcome: Outcome,
    cleared: usize,
    filled: Vec<u64>,
}

impl Entry {
    fn of(call: &Call, case: &[u8]) -> Entry {
        let Done { outcome, workspace, output } = call.ask(Model::document(), case);
        let filled = if call.kind == Kind::Rows { 2 * call.binders.len() * outcome.answer as usize } else { 0 };
        let cleared = workspace.iter().take_while(|&&cell| cell == 0).count();
        Entry { call: call.clone(), outcome, cleared, filled: output[..filled].to_vec() }
    }

    fn push(&self, list: &mut Vec<u8>) {
        let Entry { call, outcome, cleared, filled } = self;
        let kind = match call.kind {
            Kind::Check => 0,
            Kind::Ask => 1,
            Kind::Rows => 2,
        };
        let (low, high) = (call.limit as u32, (call.limit >> 32) as u32);
        let header = [
            kind,
            call.point,
            call.node,
            low,
            high,
            call.room as u32,
            call.workspace as u32,
            call.start.len() as u32,
            call.binders.len() as u32,
            call.output as u32,
            outcome.refusal,
            *cleared as u32,
            filled.len() as u32,
        ];
        header.iter().for_each(|&word| push(list, word));
        call.start.iter().for_each(|&cell| push_cell(list, cell));
        call.binders.iter().for_each(|&binder| push(list, binder));
        for cell in [outcome.answer, outcome.steps, outcome.rows, outcome.number as u64] {
            push_cell(list, cell);
        }
        filled.iter().for_each(|&cell| push_cell(list, cell));
    }
}

/// One call of two rows, listed with one thing wrong each: a replay that misses one compares too little.
fn wrong_entries() -> Vec<Entry> {
    let case = two_rows();
    let right = Entry::of(&case.calls[0], &case.tables.encode());
    let changes: [fn(&mut Entry); 11] = [
        |entry| entry.outcome.refusal = 13,
        |entry| entry.outcome.answer += 1,
        |entry| entry.outcome.steps += 1,
        |entry| entry.outcome.rows += 1,
        |entry| entry.outcome.number = true,
        |entry| entry.cleared += 1,
        |entry| entry.cleared -= 1,
        |entry| entry.cleared = entry.call.workspace + 1,
        |entry| entry.filled[3] += 1,
        |entry| entry.filled.truncate(3),
        |entry| entry.filled.resize(entry.call.output + 1, 0),
    ];
    let changed = changes.iter().map(|change| {
        let mut entry = right.clone();
        change(&mut entry);
        entry
    });
    changed.collect()
}

/// `rule-files.bin`: the files that break each rule of the check singly, and their neighbours; last a
/// case that passes, listed as refused on purpose.
fn rule_file_list() -> Result<List, String> {
    let files = rule_files();
    let mut bytes = Vec::new();
    push(&mut bytes, files.len() as u32 + 1);
    for file in &files {
        let said = Model::document().check(&file.bytes);
        if said != file.expected {
            return Err(format!("{}: the model says {said}, the rule {}", file.rule, file.expected));
        }
        push(&mut bytes, file.expected);
        push_file(&mut bytes, &file.bytes);
    }
    push(&mut bytes, 6);
    push_file(&mut bytes, &two_rows().tables.encode());
    Ok(List { name: "rule-files.bin", bytes, holds: format!("{} files, and one listed wrong", files.len()) })
}

const DECIMALS: [&str; 64] = [
    "1.0",
    "1.00",
    "1.000",
    "1.0000",
    "1.00000",
    "01.0",
    "0001.0",
    "1",
    "1.",
    ".5",
    ".",
    "",
    "-",
    "-.5",
    "-1.0",
    "--1.0",
    "+1.0",
    " 1.0",
    "1.0 ",
    "1.0a",
    "a.0",
    "1.a",
    "1,0",
    "1.0.0",
    "1..0",
    "1.-0",
    "0.0",
    "-0.0",
    "00.00",
    "0.0001",
    "-0.0001",
    "0.00001",
    "0.5",
    "-0.5",
    "0.50",
    "0.05",
    "12.3456",
    "12.34567",
    "1e5",
    "1.0e5",
    "0x1.0",
    "１.0",
    "1．0",
    "922337203685477.5807",
    "922337203685477.5808",
    "922337203685477.58070",
    "922337203685477.580",
    "-922337203685477.5808",
    "-922337203685477.5809",
    "-922337203685477.580",
    "0922337203685477.5807",
    "922337203685478.0",
    "922337203685476.9999",
    "9223372036854775807.0",
    "9223372036854775808.0",
    "-9223372036854775808.0",
    "-9223372036854775809.0",
    "18446744073709551616.0",
    "184467440737095516160.0",
    "99999999999999999999999999999999999999999999999999.0",
    "-00.0",
    "1.0001",
    "1.001",
    "10.0",
];

/// `equalities.bin`: decimals as the Rust reads them, and pairs of values as it finds them equal.
fn equalities() -> Result<List, String> {
    let tables = equality_case();
    let case = tables.encode();
    let converter = Converter { tables: &tables };
    let mut bytes = Vec::new();
    push_file(&mut bytes, &case);
    let strings = tables.strings.len() as u32;
    push(&mut bytes, strings);
    for string in 0..strings {
        let text = converter.text(string);
        let read = decimal_reading(&text);
        if read != model::decimal(text.as_bytes()) {
            return Err(format!("the model reads {text:?} unlike the Rust"));
        }
        push(&mut bytes, read.is_some() as u32);
        push_cell(&mut bytes, read.unwrap_or(0) as u64);
    }
    let values: Vec<Value> = (0..tables.values.len() as u32).map(|v| converter.value(v)).collect();
    let mut equal = 0;
    push(&mut bytes, (values.len() * values.len()) as u32);
    for (a, left) in values.iter().enumerate() {
        for (b, right) in values.iter().enumerate() {
            let same = left.dom_eq(right);
            equal += same as usize;
            if same != model::values_equal(&case, a as u32, b as u32) {
                return Err(format!("the model finds {left:?} and {right:?} equal unlike the Rust"));
            }
            bytes.push(same as u8);
        }
    }
    let pairs = values.len() * values.len();
    let holds = format!("{strings} readings, {pairs} pairs, {equal} equal");
    Ok(List { name: "equalities.bin", bytes, holds })
}

/// A case whose strings are the decimals to read, and whose values are of every kind, nested too.
fn equality_case() -> casefile::Tables {
    let mut builder = casefile::Builder::new(0);
    DECIMALS.iter().for_each(|text| {
        builder.string(text);
    });
    let mut scalars = vec![builder.value(casefile::Value::Null)];
    for b in [false, true] {
        scalars.push(builder.value(casefile::Value::Bool(b)));
    }
    for n in [0, 1, -1, i64::MAX, i64::MIN] {
        scalars.push(builder.int(n));
    }
    for text in ["1.0", "1.00", "1.00000", "0.0", "-0.0", "1", "922337203685477.5807", "922337203685477.58070"] {
        scalars.push(builder.decimal(text));
    }
    for text in ["1.0", "1.00", ""] {
        scalars.push(builder.text(text));
    }
    for (ty, id) in [("", "1"), ("1", ""), ("1.0", "1.0"), ("1.0", "1.00")] {
        scalars.push(builder.entity(ty, id));
    }
    // The same value a second time, under another number.
    scalars.push(builder.int(1));
    scalars.push(builder.text("1.0"));
    let (one, two, other) = (scalars[8], scalars[9], scalars[10]);
    for items in [&[][..], &[one], &[two], &[other], &[one, two], &[two, one], &[one, other], &[scalars[0]]] {
        let array = builder.array(items);
        builder.array(&[array]);
    }
    for members in
        [&[][..], &[("a", one)], &[("a", two)], &[("b", one)], &[("a", one), ("b", two)], &[("a", two), ("b", one)]]
    {
        let object = builder.object(members);
        builder.array(&[object]);
        builder.object(&[("c", object)]);
    }
    builder.finish()
}
