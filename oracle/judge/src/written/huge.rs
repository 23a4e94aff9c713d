//! Inputs at the edges, each with the refusal that it must get, or 0.

use casefile::{Tables, NONE};
use generate::unsorted::{Unsorted, WriteCall};
use model::{MOST_FILE_BYTES, MOST_RECORDS};

type Foretold = (&'static str, WriteCall, u32);

pub fn huge() -> Vec<Foretold> {
    let mut list: Vec<Foretold> = Vec::new();
    let most = MOST_FILE_BYTES;
    let mut add = |name, tables: Tables, expected| {
        list.push((name, Unsorted { tables, marks: Vec::new() }.call(most), expected));
    };
    add("16,384 strings, rising", strings((0..MOST_RECORDS).map(numbered)), 0);
    add("16,385 strings, rising", strings((0..=MOST_RECORDS).map(numbered)), 2);
    add("16,384 strings, falling", strings((0..MOST_RECORDS).rev().map(numbered)), 0);
    add("16,385 strings, falling", strings((0..=MOST_RECORDS).rev().map(numbered)), 2);
    let mixed = |k: usize| (k * 7_919) % MOST_RECORDS;
    add("16,384 strings, mixed", strings((0..MOST_RECORDS).map(|k| numbered(mixed(k)))), 0);
    add("16,384 different ones, each twice", strings((0..2 * MOST_RECORDS).map(|k| numbered(mixed(k % 16_384)))), 0);
    add("16,385 different ones, the last one after 100,000", strings((0..116_385).map(last_after_100_000)), 2);
    add("65,536 equal ones", strings((0..65_536).map(|_| "the same".to_string())), 0);
    add("65,536 empty ones", strings((0..65_536).map(|_| String::new())), 0);
    add("65,536 equal ones in one place", Tables { strings: vec![[0, 8]; 65_536], ..text("the same") }, 0);
    add("200,000 records of ten texts", strings((0..200_000).map(|k| format!("text {}", k % 10))), 0);
    add("an input longer than the most", strings((0..MOST_RECORDS).map(|k| numbered(k % 99).repeat(60))), 0);
    let starts: String = (0..4_000).map(|k| char::from(b'a' + (k * k % 23) as u8)).collect();
    let overlapping = (0..2_000).map(|k| [k, 2_000 + k]).collect();
    add("2,000 strings over 4,000 bytes", Tables { strings: overlapping, ..text(&starts) }, 2);
    let suffixes = (0..5_000).map(|k| [k, 16_000 - k]).collect();
    add("suffixes of one text", Tables { strings: suffixes, ..text(&"ab".repeat(8_000)) }, 2);
    for (name, length, expected) in [("4,194,304 bytes", most, 0), ("4,194,305 bytes", most + 1, 2)] {
        add(name, strings(["x".repeat(length - 64 - 8)].into_iter()), expected);
    }
    for (count, expected) in [(MOST_RECORDS, 0), (MOST_RECORDS + 1, 2)] {
        add("values at the most", Tables { values: vec![[0; 4]; count], ..Tables::default() }, expected);
        let points = vec![[0, 0, 0, 0, 2, 2, 0, 0, NONE, NONE, 0, 0]; count];
        add("points at the most", Tables { points, values: vec![[7, 0, 0, 0]], ..strings(falling()) }, expected);
    }
    for (count, expected) in [(1_024, 0), (1_025, 2)] {
        let nodes = vec![[24, 0, 0, 0, 0, 0, 0, 0]; count];
        add("nodes at the most", Tables { nodes, ..strings(falling()) }, expected);
    }
    for place in [[NONE, NONE], [NONE, 0], [0, NONE], [1, NONE], [2, NONE - 1], [NONE, 1], [3, NONE - 2]] {
        add("a place near 2^32", Tables { strings: vec![[0, 1], place], ..text("ab") }, 3);
    }
    add("many that leave text", Tables { strings: vec![[0, NONE]; 40_000], ..text("ab") }, 3);
    list.extend(lists());
    list
}

/// 65,536 list words, all marked and used by none; a fifth of them no string's number.
fn lists() -> Vec<Foretold> {
    let lists: Vec<u32> = (0..65_536).map(|k| if k % 5 == 0 { 3 + k } else { k % 3 }).collect();
    let tables = Tables { lists, ..strings(falling()) };
    let right = Unsorted { tables, marks: vec![3; 65_536] };
    let length = right.tables.encode().len();
    let one_more = Unsorted { marks: vec![3; 65_537], ..right.clone() };
    vec![
        ("65,536 marks", right.call(length), 0),
        ("65,537 marks", one_more.call(length), 1),
        ("65,536 marks, an output of one byte less", WriteCall { output: length - 1, ..right.call(length) }, 14),
        ("65,536 marks, a room of one byte less", WriteCall { room: length - 1, ..right.call(length) }, 10),
    ]
}

fn falling() -> impl Iterator<Item = String> {
    ["c", "b", "a"].into_iter().map(str::to_string)
}

fn numbered(k: usize) -> String {
    format!("{k:05}")
}

fn last_after_100_000(k: usize) -> String {
    numbered(if k < 100_000 { k % 16_000 } else { k - 100_000 })
}

fn text(text: &str) -> Tables {
    Tables { text: text.as_bytes().to_vec(), ..Tables::default() }
}

/// Strings end to end in this order.
fn strings(texts: impl Iterator<Item = String>) -> Tables {
    let mut tables = Tables::default();
    for text in texts {
        tables.strings.push([tables.text.len() as u32, text.len() as u32]);
        tables.text.extend(text.bytes());
    }
    tables
}
