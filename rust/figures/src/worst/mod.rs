//! The worst files known: each is made here, and the one call that it is made for is timed, in a process of its
//! own that is stopped where it takes too long. Small versions of all are put to the model, too.

mod files;

use std::hint::black_box;
use std::process::{Command, Stdio};
use std::thread::sleep;
use std::time::{Duration, Instant};

use galivodern::{Bindings, Case, Limits, PointNo, RuleNo};
use generate::{Call, Kind};
use model::Model;

use crate::archive::{check, checked, unchecked};
use crate::speed::shown;
use crate::timing::{by_itself, once};
use files::{File, Made, FILES};

/// The sizes that the targets speak of.
const SIZES: [usize; 2] = [65_536, 4_194_304];
/// The model takes its time, so what it is asked of is small.
const SMALL: usize = 3_000;
/// A call that takes longer is stopped.
const LONGEST: Duration = Duration::from_secs(20);
/// A call that takes longer is timed once.
const LONG: f64 = 3e8;

/// Up to so many steps, each is timed.
const FEW_STEPS: u64 = 4;

/// What a file of at most so many bytes may take, in nanoseconds: the check of it, and one step.
fn targets(bytes: usize) -> (f64, f64) {
    if bytes <= SIZES[0] {
        (5e7, 2e7)
    } else {
        (1e9, 5e9)
    }
}

/// The table: every file at both sizes, or those whose name or group is given.
pub fn print_table(wanted: Option<&str>) -> Result<bool, String> {
    println!("{} small versions as the model has them", small_versions()?);
    println!("\n| of | file | bytes | steps | time | longest step | target |");
    println!("|---|---|---|---|---|---|---|");
    for (k, file) in FILES.iter().enumerate() {
        if wanted.is_some_and(|wanted| file.of != wanted && file.name != wanted) {
            continue;
        }
        let mut before = 0;
        for bytes in SIZES {
            let made = (file.make)(bytes).tables.encode().len();
            if made > bytes {
                return Err(format!("{}: {made} bytes, more than {bytes}", file.name));
            }
            // a file that does not grow with the bytes is shown once
            if made != before {
                println!("| {} | {} | {} | {} |", file.of, file.name, told(made), row_apart(k, bytes)?);
            }
            before = made;
        }
    }
    Ok(true)
}

/// 1234567 as 1,234,567.
fn told(number: usize) -> String {
    let digits = number.to_string();
    let parts: Vec<&str> =
        digits.as_bytes().rchunks(3).rev().map(|part| std::str::from_utf8(part).expect("digits")).collect();
    parts.join(",")
}

/// The rest of a file's row, by a process of its own.
fn row_apart(k: usize, bytes: usize) -> Result<String, String> {
    let fault = |fault: std::io::Error| fault.to_string();
    let program = std::env::current_exe().map_err(fault)?;
    let (k, bytes) = (k.to_string(), bytes.to_string());
    let mut child =
        Command::new(program).args(["worst-one", &k, &bytes]).stdout(Stdio::piped()).spawn().map_err(fault)?;
    let begun = Instant::now();
    while child.try_wait().map_err(fault)?.is_none() {
        if begun.elapsed() > LONGEST {
            child.kill().map_err(fault)?;
            child.wait().map_err(fault)?;
            return Ok(format!("| stopped after {} s | | broken", LONGEST.as_secs()));
        }
        sleep(Duration::from_millis(5));
    }
    let output = child.wait_with_output().map_err(fault)?;
    if !output.status.success() {
        return Err(format!("file {k} of {bytes} bytes fails"));
    }
    Ok(String::from_utf8_lossy(&output.stdout).trim_end().to_string())
}

/// Steps, time, the longest step, and whether the target is kept. A step ends where the next would be paid, so
/// its time is what a limit of one more adds.
pub fn print_one(k: usize, bytes: usize) -> Result<bool, String> {
    let file = FILES.get(k).ok_or("there is no such file")?;
    let Made { tables, asked, room } = (file.make)(bytes);
    let bytes = tables.encode();
    let (check_target, step_target) = targets(bytes.len());
    let kept = |time: f64, target: f64| if time <= target { "kept" } else { "broken" };
    let Some(node) = asked else {
        if check(&bytes) != 0 {
            return Err(format!("{}: refused {}", file.name, check(&bytes)));
        }
        let time = timed(|| check(&bytes));
        println!("| {} | | {}", shown(time), kept(time, check_target));
        return Ok(true);
    };
    let case = Case::new(bytes).map_err(|refusal| format!("{}: {refusal}", file.name))?;
    let point = PointNo(case.contents().points - 1);
    let ask = |steps: u64| case.ask(point, RuleNo(node), &Bindings::new(), Limits { steps, room });
    let mut steps = 0;
    let first = once(|| steps = ask(Limits::MOST_STEPS).map_or(0, |answer| answer.steps));
    if steps == 0 {
        return Err(format!("{}: no answer", file.name));
    }
    let time = if first < LONG { by_itself(|| black_box(ask(steps))) } else { first };
    // of many steps the last is asked about: what is made of all rows comes after it
    let from = if steps <= FEW_STEPS { 0 } else { steps - 1 };
    let mut longest = 0.0;
    let mut before = timed(|| black_box(ask(from)));
    for limit in from + 1..=steps {
        let up_to = if limit == steps { time } else { timed(|| black_box(ask(limit))) };
        longest = f64::max(longest, up_to - before);
        before = up_to;
    }
    println!("{steps} | {} | {} | {}", shown(time), shown(longest), kept(longest, step_target));
    Ok(true)
}

/// The least of several calls, or one call where that is long.
fn timed<A>(mut call: impl FnMut() -> A) -> f64 {
    let first = once(&mut call);
    if first < LONG {
        by_itself(call)
    } else {
        first
    }
}

/// Puts a small version of each file to the model and to the calls that check and those on a checked case.
fn small_versions() -> Result<usize, String> {
    FILES.iter().try_for_each(small_version)?;
    Ok(FILES.len())
}

fn small_version(file: &File) -> Result<(), String> {
    let Made { tables, asked, .. } = (file.make)(SMALL);
    let bytes = tables.encode();
    let variables = tables.variables as usize;
    let room = 512;
    let call = match asked {
        None => Call::check(),
        Some(node) => Call {
            kind: Kind::Ask,
            point: tables.points.len() as u32 - 1,
            node,
            limit: 1_000_000,
            room,
            start: vec![0; 2 * variables],
            workspace: 2 * variables * room as usize,
            ..Call::check()
        },
    };
    let model = call.ask(Model::document(), &bytes);
    if model.outcome.refusal != 0 {
        return Err(format!("{}: the model refuses {}", file.name, model.outcome.refusal));
    }
    unchecked(&call, &bytes, &model).map_err(|said| format!("{}: {said}", file.name))?;
    checked(&call, &bytes, &model).map_err(|said| format!("{}: {said}", file.name))
}

#[cfg(test)]
mod tests {
    #[test]
    fn small_versions_are_as_the_model_has_them() {
        assert_eq!(super::small_versions(), Ok(super::FILES.len()));
    }
}
