//! The examples of document 01, asked of a model and of the Rust.

use casefile::text::Packed;
use generate::examples::{examples, Example};
use generate::RandomCase;
use model::Model;

use crate::run::Report;
use crate::rust::RustCase;

/// Asks every example of a model and of the Rust; gives what differs and how many were asked.
pub fn ask_examples(model: Model) -> Result<(usize, Vec<String>), String> {
    let examples = examples()?;
    let ask = |example: &Example| ask_example(model, example, &examples.cases[&example.file]);
    let differences = examples.expected.iter().flat_map(ask).collect();
    Ok((examples.expected.len(), differences))
}

fn ask_example(model: Model, example: &Example, packed: &Packed) -> Vec<String> {
    let case = RandomCase {
        bytes: packed.tables.encode(),
        tables: packed.tables.clone(),
        conditions: Vec::new(),
        aggregates: Vec::new(),
    };
    let mut report = Report::new(model);
    let outcome = report.question(&example.call, &case, &mut RustCase::new(&case.tables)).outcome;
    let mut differences = report.differences;
    let numbers = example.numbers.is_none_or(|numbers| numbers == (outcome.steps, outcome.rows));
    if (outcome.refusal, outcome.answer) != (example.refusal, example.answer) || !numbers {
        differences.push(format!("{}, but it gave {outcome:?}", example.line));
    }
    differences
}
