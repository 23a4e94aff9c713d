//! A name looked up in records of 4 to 16,384 members: at each point of a log, in its logged fields.

use std::hint::black_box;

use casefile::text::pack;

use crate::speed::{shown, Asked};
use crate::timing::by_turns;

/// Few, since the Rust keeps the fields of each point apart.
const POINTS: usize = 64;
/// Members of the record, and which name is asked; the empty record shows a step by itself. A name that is
/// missed is one of the 16,384 strings, too.
const LOOKUPS: [(usize, &str); 13] = [
    (0, "miss"),
    (4, "first"),
    (4, "last"),
    (4, "miss"),
    (40, "first"),
    (40, "last"),
    (40, "miss"),
    (400, "first"),
    (400, "last"),
    (400, "miss"),
    (16_384, "first"),
    (16_384, "last"),
    (16_383, "miss"),
];

/// A log whose points all have a record of so many members, and a rule that no point satisfies.
fn text(members: usize, name: &str) -> Result<String, String> {
    let asked = match name {
        "first" => 0,
        "last" => members.saturating_sub(1),
        "miss" => members,
        _ => return Err(format!("`{name}` is not first, last or miss")),
    };
    let record: Vec<String> = (0..members).map(|k| format!("m{k:05}: 1")).collect();
    let points: String = (0..POINTS).map(|k| format!("point {k} m00000/m00001 logged @wide\n")).collect();
    let rule = format!("rule asked = formerly within 9d m00000/m00001(m{asked:05}: 2)");
    Ok(format!("value wide = {{{}}}\n{points}{rule}", record.join(", ")))
}

fn asked(members: usize, name: &str, alone: bool) -> Result<Asked, String> {
    let packed = pack(&text(members, name)?).map_err(|fault| fault.to_string())?;
    Asked::new(&packed, 0, alone)
}

/// Nanoseconds for one step of the scan: the lookup, and two numbers compared where it hits.
pub fn print_table() -> Result<bool, String> {
    println!("| members | name | proved | the Rust | ratio |");
    println!("|---|---|---|---|---|");
    for (members, name) in LOOKUPS {
        let asked = asked(members, name, false)?;
        let (answer, steps) = asked.ours()?;
        let rust = asked.theirs();
        if rust != Some(answer) {
            return Err(format!("{members}, {name}: {answer}, the Rust says {rust:?}"));
        }
        let (ours, theirs) = by_turns(|| asked.ours(), || asked.theirs());
        let step = |time: f64| shown(time / steps as f64);
        println!("| {members} | {name} | {} | {} | {:.2} |", step(ours), step(theirs), theirs / ours);
    }
    Ok(true)
}

/// One lookup so many times, of one side alone: for a profiler.
pub fn once(members: usize, name: &str, times: u64, rust: bool) -> Result<bool, String> {
    let asked = asked(members, name, !rust)?;
    for _ in 0..times {
        if rust {
            black_box(asked.theirs());
        } else {
            black_box(asked.ours()?);
        }
    }
    println!("{members}, {name}: {times} times {} steps", asked.ours()?.1);
    Ok(true)
}
