//! The examples of document 01: `examples/*.case`, asked as `examples/expected.txt` says.

use std::collections::BTreeMap;
use std::path::PathBuf;

use casefile::text::{pack, Packed};

use crate::calls::{Call, Kind};

/// One line of the expectations.
pub struct Example {
    pub line: String,
    /// The case's name, without `.case`.
    pub file: String,
    pub call: Call,
    /// Answer bits or refusal, and steps and rows where the line says them.
    pub refusal: u32,
    pub answer: u64,
    pub numbers: Option<(u64, u64)>,
}

/// The cases by their names, and what is expected of them.
pub struct Examples {
    pub cases: BTreeMap<String, Packed>,
    pub expected: Vec<Example>,
}

fn folder() -> PathBuf {
    PathBuf::from(env!("CARGO_MANIFEST_DIR")).join("../../examples")
}

fn read(name: &str) -> Result<String, String> {
    let path = folder().join(name);
    std::fs::read_to_string(&path).map_err(|error| format!("{}: {error}", path.display()))
}

/// Reads the committed examples.
pub fn examples() -> Result<Examples, String> {
    let mut examples = Examples { cases: BTreeMap::new(), expected: Vec::new() };
    for line in read("expected.txt")?.lines().filter(|line| !line.is_empty() && !line.starts_with('#')) {
        let file = line.split(' ').next().unwrap_or_default().to_string();
        if !examples.cases.contains_key(&file) {
            let text = read(&format!("{file}.case"))?;
            examples.cases.insert(file.clone(), pack(&text).map_err(|fault| format!("{file}.case:{fault}"))?);
        }
        let example = example(line, &examples.cases).ok_or(format!("expected.txt: cannot read `{line}`"))?;
        examples.expected.push(example);
    }
    Ok(examples)
}

fn example(line: &str, cases: &BTreeMap<String, Packed>) -> Option<Example> {
    let (question, expected) = line.split_once(" = ")?;
    let words: Vec<&str> = question.split(' ').collect();
    let packed = cases.get(*words.first()?)?;
    let node = packed.node(words.get(1)?)?;
    let mut call = Call { kind: Kind::Ask, node, limit: 1_000_000, room: 256, ..Call::check() };
    call.start = vec![0; 2 * packed.tables.variables as usize];
    for pair in words[2..].chunks(2) {
        match pair {
            ["at", point] => call.point = point.parse().ok()?,
            ["limit", limit] => call.limit = limit.parse().ok()?,
            ["room", room] => call.room = room.parse().ok()?,
            ["with", binding] => {
                let (variable, integer) = binding.split_once('=')?;
                let slot = 2 * packed.variable(variable)? as usize;
                call.start[slot..slot + 2].copy_from_slice(&[1, integer.parse::<i64>().ok()? as u64]);
            }
            _ => return None,
        }
    }
    call.fit_workspace(packed.tables.variables);
    let expected: Vec<&str> = expected.split(' ').collect();
    let (refusal, answer, rest) = match expected[..] {
        ["refused", refusal, ..] => (refusal.parse().ok()?, 0, &expected[2..]),
        ["yes", ..] => (0, 1, &expected[1..]),
        ["no", ..] => (0, 0, &expected[1..]),
        _ => (0, expected[0].parse::<i64>().ok()? as u64, &expected[1..]),
    };
    let numbers = match rest {
        [steps, rows] => Some((steps.parse().ok()?, rows.parse().ok()?)),
        [] => None,
        _ => return None,
    };
    Some(Example { line: line.to_string(), file: words[0].to_string(), call, refusal, answer, numbers })
}
