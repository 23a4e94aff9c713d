//! Import's throughput on logs of several sorts, beside a plain pass over the same bytes.

use crate::logs::{import, Buffers};
use crate::timing::by_turns;

/// So many bytes a log has, about.
const BYTES: usize = 4_000_000;
const NAMES: usize = 60_000;

/// A log's name, and itself.
type Shape = (&'static str, fn() -> String);

const SHAPES: [Shape; 6] = [
    ("usual events", || {
        repeated(|k| event(&format!("{{\"board\":\"b{}\",\"volts\":{},\"ok\":true}}", k % 50, 3_300 + k % 7)))
    }),
    ("long strings", || repeated(|k| event(&format!("{{\"note\":\"{}\"}}", format!("{k:07} ").repeat(1_000))))),
    ("30 objects around each other", || {
        repeated(|k| event(&format!("{}{{\"n\":{k}}}{}", "{\"a\":".repeat(29), "}".repeat(29))))
    }),
    ("entities and decimals", || {
        repeated(|k| {
            let by = format!("{{\"__entity\":{{\"type\":\"User\",\"id\":\"u{}\"}}}}", k % 9);
            event(&format!("{{\"by\":{by},\"volts\":{{\"__extn\":{{\"fn\":\"decimal\",\"arg\":\"3.{k}\"}}}}}}"))
        })
    }),
    ("one object of 60,000 names, rising", || names(|k| k)),
    ("one object of 60,000 names, falling", || names(|k| NAMES - k)),
];

fn event(logged: &str) -> String {
    let start = "{\"time\":1700000000,\"namespace\":[\"Bench\"],\"action\":\"Flash\",\"kind\":\"request\",\"logged\":";
    format!("{start}{logged},\"context\":{{}},\"entities\":[]}}\n")
}

fn repeated(line: impl Fn(usize) -> String) -> String {
    let mut log = String::new();
    let mut k = 0;
    while log.len() < BYTES {
        log.push_str(&line(k));
        k += 1;
    }
    log
}

fn names(number: impl Fn(usize) -> usize) -> String {
    let members: Vec<String> = (0..NAMES).map(|k| format!("\"n{:06}\":{k}", number(k))).collect();
    event(&format!("{{{}}}", members.join(",")))
}

/// A plain pass: all bytes added up.
fn sum(bytes: &[u8]) -> u64 {
    bytes.iter().map(|&byte| u64::from(byte)).sum()
}

/// The log of a shape, to be read by others.
pub fn print_log(shape: usize) -> Result<bool, String> {
    let (_, log) = SHAPES.get(shape).ok_or_else(|| format!("there are {} shapes", SHAPES.len()))?;
    print!("{}", log());
    Ok(true)
}

/// Megabytes a second of processor time.
pub fn print_table() -> Result<bool, String> {
    println!("| log | bytes | import, MB/s | plain pass, MB/s | times as long |");
    println!("|---|---|---|---|---|");
    for (name, log) in SHAPES {
        let log = log();
        let mut lent = Buffers::new(log.len().div_ceil(4), 12 * log.len() + 64, log.len());
        let (returned, _) = import(log.as_bytes(), &mut lent);
        if returned != 0 {
            return Err(format!("{name}: refused {returned}"));
        }
        let (ours, plain) = by_turns(|| import(log.as_bytes(), &mut lent), || sum(log.as_bytes()));
        let speed = |time: f64| log.len() as f64 * 1e3 / time;
        println!("| {name} | {} | {:.0} | {:.0} | {:.1} |", log.len(), speed(ours), speed(plain), ours / plain);
    }
    Ok(true)
}
