//! Damaged lines, and lines of random tokens.

use super::events::{random_event, Manner};
use super::faults::faulty_line;
use super::spelling::spelled_line;
use crate::random::Random;

const TOKENS: [&str; 40] = [
    "{",
    "}",
    "[",
    "]",
    ",",
    ":",
    "\"",
    "\\",
    "{}",
    "[]",
    "\"a\"",
    "\"a\":",
    "1",
    "0",
    "-",
    "-0",
    "1.5",
    "1e2",
    "true",
    "false",
    "null",
    "\"\\u0061\"",
    "\\uD800",
    "\\uDC00",
    "\"__entity\":",
    "\"__extn\":",
    "\"type\":",
    "\"id\":",
    "{\"__entity\":{\"type\":\"a\",\"id\":\"b\"}}",
    "{\"__extn\":{\"fn\":\"decimal\",\"arg\":\"1.0\"}}",
    " ",
    "\t",
    "\r",
    "\"time\":",
    "\"principal\":",
    "9223372036854775808",
    "NaN",
    "Infinity",
    "[[[[[[[[[[[[[[[[",
    "]]]]]]]]]]]]]]]]",
];
const BYTES: &[u8] =
    b"\"\\{}[],:-+.eE0123456789utfnbr/ax \t\r\0\x01\x1f\x7f\x80\xbf\xc0\xc3\xe0\xed\xa0\xef\xbb\xf0\xf4\x90\xff";

/// A line without its end: good, faulty, damaged or nonsense.
pub fn random_line(random: &mut Random) -> Vec<u8> {
    match random.below(20) {
        0..=3 => good(random),
        4..=7 => faulty_line(random).line,
        8..=15 => {
            let line = good(random);
            damaged_line(random, line)
        }
        16 | 17 => {
            let line = faulty_line(random).line;
            damaged_line(random, line)
        }
        18 => event_around(random),
        _ => tokens(random),
    }
}

fn good(random: &mut Random) -> Vec<u8> {
    let event = random_event(random, Manner::Any);
    spelled_line(random, &event)
}

fn tokens(random: &mut Random) -> Vec<u8> {
    (0..random.between(0, 12)).flat_map(|_| random.pick(&TOKENS).bytes()).collect()
}

/// A good event but for random tokens as its principal.
fn event_around(random: &mut Random) -> Vec<u8> {
    let before = b"{\"time\":1,\"namespace\":[],\"action\":\"\",\"kind\":\"\",\"logged\":{},\"context\":{},\"entities\":[],\"principal\":";
    [&before[..], &tokens(random), b"}"].concat()
}

/// Some small wounds; a line stays a line.
pub fn damaged_line(random: &mut Random, mut line: Vec<u8>) -> Vec<u8> {
    for _ in 0..random.pick(&[1, 1, 1, 2, 3]) {
        wound(random, &mut line);
    }
    line.retain(|&byte| byte != b'\n');
    line
}

fn wound(random: &mut Random, line: &mut Vec<u8>) {
    let at = random.below(line.len() + 1);
    let end = (at + random.between(1, 6)).min(line.len());
    match random.below(9) {
        0 => line.truncate(at),
        1 | 2 if at < line.len() => line[at] ^= 1 << random.below(8),
        3 => line.insert(at, random.pick(BYTES)),
        4 if at < line.len() => line[at] = random.pick(BYTES),
        5 => drop(line.drain(at..end)),
        6 => drop(line.splice(at..at, random.pick(&TOKENS).bytes())),
        7 => {
            let copy = line[at..end].to_vec();
            let to = random.below(line.len() + 1);
            drop(line.splice(to..to, copy));
        }
        _ => drop(line.splice(at..end, random.pick(&TOKENS).bytes())),
    }
}
