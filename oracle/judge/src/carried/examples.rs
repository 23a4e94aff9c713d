//! The examples of request #106's reading, on document 01's bench, and some counted by hand.

use casefile::text::{pack, Packed};
use generate::carried::{ask_carried, Shown};
use generate::Call;
use model::{Model, Outcome};

const CASE: &str = r#"
variables x
point 100 Review logged {board: "b1", n: 3}
point 110 Flash logged {board: "b1", n: 4}
point 105 Review logged {board: "b2", n: 3}
point 120 Flash logged {board: "b2", n: 7}
rule reviewed = formerly within 1h Review()
rule reviewed_b1 = formerly within 1h Review(board: "b1")
rule reviewed_long_ago = formerly within 14s Review(board: "b1")
rule since_20 = not Review(board: "b1") since within 20s Review(board: "b1")
rule since_19 = not Review(board: "b1") since within 19s Review(board: "b1")
rule failing = Review(board: "b1") since within 1h Review()
rule flashed_since = Flash() since within 1h Review()
rule now = Review() since within 1h Flash()
rule flashed = formerly within 1h (exists x Flash(n: x))
rule before = previous within 1h Review()
rule before_in_time = previous within 5s Review()
rule inside_and = Flash() and @reviewed
rule never = formerly within -1s Flash()
rule costly = Review(board: "b1") since within 1h (Review() or (Flash(n: 4) and (Flash() and (Flash() and Flash()))))
rule unlike = formerly within 1h ((exists x Flash(n: x) and 1 == 2) or (Review() and (Review() and (Review() and Review()))))
"#;

/// A rule, its point, step limit, room and cells of the list; refusal, yes, steps, rows and the list.
type Example = (&'static str, u32, u64, u64, usize, u32, u64, (u64, u64), &'static [u64]);

const AMPLE: u64 = 1_000;

const EXAMPLES: [Example; 28] = [
    ("reviewed", 3, AMPLE, 9, 8, 0, 1, (0, 0), &[2]),
    ("since_20", 3, AMPLE, 9, 8, 0, 1, (0, 0), &[0, 1, 2, 3]),
    ("since_19", 3, AMPLE, 9, 8, 0, 0, (0, 0), &[]),
    ("failing", 3, AMPLE, 9, 8, 0, 0, (0, 0), &[2, 3, 0, 1]),
    ("flashed_since", 3, AMPLE, 9, 8, 0, 1, (0, 0), &[2, 3]),
    ("now", 3, AMPLE, 9, 1, 0, 1, (0, 0), &[3]),
    // At 2, point 1 is stamped later: it is neither asked nor an anchor.
    ("flashed", 2, AMPLE, 9, 0, 0, 0, (0, 0), &[]),
    ("before", 3, AMPLE, 9, 1, 0, 1, (0, 0), &[2]),
    ("before", 0, 0, 0, 0, 0, 0, (0, 0), &[]),
    ("before_in_time", 3, 0, 0, 0, 0, 0, (0, 0), &[]),
    ("never", 3, 0, 0, 0, 0, 0, (0, 0), &[]),
    ("inside_and", 3, AMPLE, 9, 8, 8, 0, (0, 0), &[]),
    // Each question is a walk of its own, and the scan's own node costs nothing.
    ("reviewed_b1", 3, 1, 9, 8, 0, 1, (0, 0), &[0]),
    ("reviewed_b1", 3, 0, 9, 8, 11, 0, (0, 0), &[]),
    ("reviewed_long_ago", 3, 1, 9, 0, 0, 0, (0, 0), &[]),
    ("flashed", 3, AMPLE, 0, 8, 12, 0, (2, 0), &[]),
    ("unlike", 3, 7, 9, 8, 11, 0, (7, 0), &[]),
    // Left of `since_20` takes two steps, right one.
    ("since_20", 3, 2, 9, 4, 0, 1, (0, 0), &[0, 1, 2, 3]),
    ("since_20", 3, 1, 9, 4, 11, 0, (1, 0), &[]),
    // 15 comes after all questions, and carries no numbers.
    ("reviewed", 3, AMPLE, 9, 0, 15, 0, (0, 0), &[]),
    ("since_20", 3, AMPLE, 9, 3, 15, 0, (0, 0), &[]),
    ("failing", 3, AMPLE, 9, 3, 15, 0, (0, 0), &[]),
    ("failing", 3, AMPLE, 9, 4, 0, 0, (0, 0), &[2, 3, 0, 1]),
    ("failing", 3, 0, 9, 0, 11, 0, (0, 0), &[]),
    // The anchor at 2 fails and finds no cell; at 1 right takes more steps than it may.
    ("costly", 3, 4, 9, 0, 11, 0, (4, 0), &[]),
    ("costly", 3, 9, 9, 0, 15, 0, (0, 0), &[]),
    ("since_20", 3, 1, 9, 0, 11, 0, (1, 0), &[]),
    ("reviewed", 0, AMPLE, 9, 1, 0, 1, (0, 0), &[0]),
];

/// Asks every example of a model; gives how many there are and what differs.
pub fn ask(model: Model) -> Result<(usize, Vec<String>), String> {
    let packed = pack(CASE).map_err(|fault| fault.to_string())?;
    let differences = EXAMPLES.iter().filter_map(|example| differs(model, example, &packed)).collect();
    Ok((EXAMPLES.len(), differences))
}

fn differs(model: Model, example: &Example, packed: &Packed) -> Option<String> {
    let &(rule, point, limit, room, cells, refusal, answer, (steps, rows), list) = example;
    let node = packed.node(rule)?;
    let mut call = Call { point, node, limit, room, output: cells, ..Call::check() };
    call.start = vec![0; 2 * packed.tables.variables as usize];
    call.fit_workspace(packed.tables.variables);
    let Shown { done, filled } = ask_carried(&call, model, &packed.tables.encode());
    let said = (done.outcome, &done.output[..filled as usize]);
    (said != (Outcome { refusal, answer, steps, rows, number: false }, list))
        .then(|| format!("{rule} at {point}: {said:?}"))
}
