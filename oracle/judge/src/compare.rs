//! One question put to a model and to the Rust.

use generate::calls::Done;
use generate::{Call, Kind};

use crate::rust::{Answer, RustCase, RustRow};

/// What a comparison found.
#[derive(Clone, Debug, PartialEq)]
pub enum Found {
    Same,
    /// Refusals 1 to 10 are decided before any walk: the Rust has no counterpart.
    NotForTheRust,
    AnswersDiffer(String),
    /// Steps and visits differ, so that one of the two may end for want of steps.
    StepsDiffer(String),
}

/// Compares what a model did with the Rust, for a case that passes the check.
pub fn compare(call: &Call, done: &Done, rust: &mut RustCase) -> Found {
    let outcome = done.outcome;
    match outcome.refusal {
        0 => compare_answer(call, done, rust),
        11 => match rust.ask(call, call.limit) {
            None => Found::Same,
            Some((_, visits)) => {
                Found::StepsDiffer(format!("refused 11 at {}, the Rust made {visits} visits", call.limit))
            }
        },
        // The row that found no room was tried after this many visits, so the Rust makes as many.
        12 => match outcome.steps.checked_sub(1).and_then(|fewer| rust.ask(call, fewer)) {
            None => Found::Same,
            Some((_, visits)) => {
                Found::StepsDiffer(format!("refused 12 after {} steps, the Rust made {visits} visits", outcome.steps))
            }
        },
        13 => compare_short(call, done, rust),
        _ => Found::NotForTheRust,
    }
}

fn compare_answer(call: &Call, done: &Done, rust: &mut RustCase) -> Found {
    let outcome = done.outcome;
    let Some((answer, visits)) = rust.ask(call, call.limit) else {
        return Found::StepsDiffer(format!("{} steps, the Rust made more than {} visits", outcome.steps, call.limit));
    };
    let given = match call.kind {
        Kind::Ask if outcome.number => Answer::Number(outcome.answer as i64),
        Kind::Ask => Answer::Verdict(outcome.answer == 1),
        Kind::Rows | Kind::Check => Answer::Rows(given_rows(call, done, rust)),
    };
    if given != answer {
        return Found::AnswersDiffer(format!("answer {given:?}, the Rust's {answer:?}"));
    }
    if outcome.steps != visits {
        return Found::StepsDiffer(format!("{} steps, the Rust made {visits} visits", outcome.steps));
    }
    Found::Same
}

/// The rows that the output holds, as the Rust's values.
fn given_rows(call: &Call, done: &Done, rust: &RustCase) -> Vec<RustRow> {
    let width = 2 * call.binders.len();
    (0..done.outcome.answer as usize)
        .map(|row| done.output[row * width..(row + 1) * width].chunks(2).map(|cells| rust.cell_value(cells)).collect())
        .collect()
}

/// Refusal 13: a binder not below V, or the Rust has more rows than the output takes.
fn compare_short(call: &Call, done: &Done, rust: &mut RustCase) -> Found {
    let variables = rust.converter.tables.variables;
    let Some((Answer::Rows(rows), visits)) = rust.ask(call, call.limit) else {
        return Found::StepsDiffer(format!("refused 13, the Rust made more than {} visits", call.limit));
    };
    let fits = 2 * call.binders.len() * rows.len() <= call.output;
    if fits && call.binders.iter().all(|&b| b < variables) {
        return Found::AnswersDiffer(format!("refused 13, the Rust's {} rows fit", rows.len()));
    }
    if done.outcome.steps != visits {
        return Found::StepsDiffer(format!("{} steps, the Rust made {visits} visits", done.outcome.steps));
    }
    Found::Same
}
