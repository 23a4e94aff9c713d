//! The check's throughput on large files, beside a plain pass over the same bytes.

use std::fmt::Write;

use casefile::text::pack;
use casefile::{Builder, Tables};

use crate::archive::check;
use crate::timing::by_turns;

pub fn print_table() -> Result<bool, String> {
    println!("| file | bytes | check, MB/s | plain pass, MB/s | times as long |");
    println!("|---|---|---|---|---|");
    for (name, tables) in [
        ("a log of 5,400 points", log()?),
        ("16,384 long strings", strings("", &"x".repeat(240))),
        ("the same, 240 bytes in common", strings(&"x".repeat(240), "")),
        ("letters of two bytes", strings("", &"äöü".repeat(40))),
        ("letters of three bytes", strings("", &"漢字か".repeat(26))),
        ("letters of one to four bytes", strings("", &"aé漢b😀 word".repeat(12))),
        ("one array", array()),
    ] {
        let file = tables.encode();
        if check(&file) != 0 {
            return Err(format!("{name}: refused {}", check(&file)));
        }
        let (ours, plain) = by_turns(|| check(&file), || sum(&file));
        let speed = |time: f64| file.len() as f64 * 1e3 / time;
        let bytes = file.len();
        println!("| {name} | {bytes} | {:.0} | {:.0} | {:.1} |", speed(ours), speed(plain), ours / plain);
    }
    Ok(true)
}

/// A plain pass: all bytes added up.
fn sum(bytes: &[u8]) -> u64 {
    bytes.iter().map(|&byte| u64::from(byte)).sum()
}

/// Each point with a record of its own and a note of some 400 bytes.
fn log() -> Result<Tables, String> {
    let mut text = String::new();
    for k in 0..5_400 {
        let note = format!("{k:05} ").repeat(68);
        writeln!(text, "point {k} Flash logged {{board: \"b{}\", n: {k}, note: \"{note}\"}}", k % 50)
            .expect("a string takes all");
    }
    text.push_str("rule asked = formerly within 1h Flash(board: \"b7\")");
    pack(&text).map(|packed| packed.tables).map_err(|fault| fault.to_string())
}

/// Text and little else: a number in each string, with the same before and after it.
fn strings(before: &str, after: &str) -> Tables {
    let mut builder = Builder::new(0);
    for k in 0..16_384 {
        builder.string(&format!("{before}{k:05}{after}"));
    }
    builder.finish()
}

/// Members and little else: one array of 500,000 items.
fn array() -> Tables {
    let mut builder = Builder::new(0);
    let one = builder.int(1);
    builder.array(&vec![one; 500_000]);
    builder.finish()
}
