//! Unsorted cases for the writer of request #101: scrambled copies of cases, with what must come of them;
//! copies with one fault; files of small random tables.

use casefile::{Tables, NONE};
use model::{uses, Model, Use};

use crate::random::Random;

/// One call of the writer: its two inputs, and how many bytes are lent.
#[derive(Clone, Debug, PartialEq, Eq)]
pub struct WriteCall {
    pub unsorted: Vec<u8>,
    pub marks: Vec<u8>,
    pub room: usize,
    pub output: usize,
}

/// What a call did: bytes written or the refusal, and both buffers after it.
#[derive(Clone, Debug, PartialEq, Eq)]
pub struct Written {
    pub said: Result<usize, u32>,
    pub room: Vec<u8>,
    pub output: Vec<u8>,
}

/// Byte `k` of the room before a call.
pub fn room_fill(k: usize) -> u8 {
    (k as u8).wrapping_mul(31) ^ 0xA5
}

/// Byte `k` of the output before a call.
pub fn written_fill(k: usize) -> u8 {
    (k as u8).wrapping_mul(59) ^ 0x5A
}

impl WriteCall {
    /// A call with buffers of this length.
    pub fn new(unsorted: Vec<u8>, marks: Vec<u8>, lent: usize) -> WriteCall {
        WriteCall { unsorted, marks, room: lent, output: lent }
    }

    /// The buffers before the call.
    pub fn buffers(&self) -> Written {
        Written {
            said: Ok(0),
            room: (0..self.room).map(room_fill).collect(),
            output: (0..self.output).map(written_fill).collect(),
        }
    }

    /// Puts the call to a model.
    pub fn ask(&self, model: Model) -> Written {
        let mut written = self.buffers();
        written.said = model.write(&self.unsorted, &self.marks, &mut written.room, &mut written.output);
        written
    }
}

/// An unsorted case as tables, with its marks.
#[derive(Clone, Debug, Default)]
pub struct Unsorted {
    pub tables: Tables,
    pub marks: Vec<u8>,
}

impl Unsorted {
    pub fn call(&self, lent: usize) -> WriteCall {
        WriteCall::new(self.tables.encode(), self.marks.clone(), lent)
    }
}

/// Whether a list place of a checked case is used as a string and otherwise.
pub fn used_both_ways(case: &[u8]) -> bool {
    let uses = uses(case);
    let mut how = std::collections::BTreeMap::new();
    uses.iter().any(|used| *how.entry(used.place).or_insert(used.as_string) != used.as_string)
}

/// A copy of a checked case whose strings stand in any order, some twice, over text that has gaps and is
/// shared; its marks are right, and so writing gives the case itself, if no list place is used both ways.
pub fn scrambled(random: &mut Random, case: &Tables, bytes: &[u8]) -> Unsorted {
    let (records, holders, text) = scrambled_strings(random, case);
    let mut tables = Tables { strings: records, text, ..case.clone() };
    let count = case.strings.len() as u32;
    let any = |random: &mut Random, old: u32| if old < count { random.pick(&holders[old as usize]) } else { old };
    for words in &mut tables.values {
        match words[0] {
            3 | 4 => words[1] = any(random, words[1]),
            5 => (words[1], words[2]) = (any(random, words[1]), any(random, words[2])),
            _ => {}
        }
    }
    tables.members.iter_mut().for_each(|words| words[0] = any(random, words[0]));
    for words in &mut tables.points {
        (words[4], words[5]) = (any(random, words[4]), any(random, words[5]));
    }
    for words in tables.nodes.iter_mut().filter(|words| words[0] == 7) {
        (words[3], words[4]) = (any(random, words[3]), any(random, words[4]));
    }
    let marks = scrambled_marks(random, &tables, count, bytes);
    for (word, _) in tables.lists.iter_mut().zip(&marks).filter(|(_, mark)| **mark != 0) {
        *word = any(random, *word);
    }
    Unsorted { tables, marks }
}

/// Records, for each string of the case those that hold it, and the text.
fn scrambled_strings(random: &mut Random, case: &Tables) -> (Vec<[u32; 2]>, Vec<Vec<u32>>, Vec<u8>) {
    let count = case.strings.len();
    let mut order: Vec<usize> = (0..count).collect();
    let often = random.pick(&[0, 0, 1, 3]);
    for _ in 0..often * count {
        if random.percent(30) {
            order.push(random.below(count));
        }
    }
    match random.below(4) {
        0 => order.reverse(),
        1 => {}
        _ => (1..order.len()).for_each(|k| order.swap(k, random.below(k + 1))),
    }
    let (gaps, sharing) = (random.percent(40), random.percent(60));
    let (mut records, mut text) = (Vec::new(), Vec::new());
    let mut holders = vec![Vec::new(); count];
    for string in order {
        let bytes = case.string(string as u32);
        if gaps && random.percent(30) {
            text.push(random.bits() as u8);
        }
        let found = if sharing { found_in(&text, bytes) } else { None };
        let start = found.unwrap_or(text.len());
        if found.is_none() {
            text.extend(bytes);
        }
        holders[string].push(records.len() as u32);
        records.push([start as u32, bytes.len() as u32]);
    }
    (records, holders, text)
}

fn found_in(text: &[u8], bytes: &[u8]) -> Option<usize> {
    if bytes.is_empty() {
        return Some(text.len() / 2);
    }
    text.windows(bytes.len()).position(|part| part == bytes)
}

/// Right marks: of places that nothing uses some, where the word then comes out as it stands.
fn scrambled_marks(random: &mut Random, tables: &Tables, count: u32, case: &[u8]) -> Vec<u8> {
    let any_mark = |random: &mut Random| random.between(1, 255) as u8;
    let comes_out = |word: u32| word < count || word as usize >= tables.strings.len();
    let mut marks: Vec<u8> = tables
        .lists
        .iter()
        .map(|&word| if comes_out(word) && random.percent(30) { any_mark(random) } else { 0 })
        .collect();
    for Use { place, as_string, .. } in uses(case) {
        marks[place] = match as_string {
            true if random.percent(70) => 1,
            true => any_mark(random),
            false => 0,
        };
    }
    marks
}

/// A call with one fault, and the refusal that it must get; of a scrambled copy that gives `case`.
pub fn faulty(random: &mut Random, right: &Unsorted, case: &[u8]) -> Option<(WriteCall, u32)> {
    let mut wrong = right.clone();
    let length = case.len();
    let refusal = match random.below(9) {
        0 => {
            let used = uses(case);
            let place = used.get(random.below(used.len().max(1)))?.place;
            wrong.marks[place] = if wrong.marks[place] == 0 { 1 } else { 0 };
            if used.iter().any(|other| other.place == place && other.by_point) {
                5
            } else {
                6
            }
        }
        1 => return Some((WriteCall { room: random.below(length), ..wrong.call(length) }, 10)),
        2 => return Some((WriteCall { room: length - 1, ..wrong.call(length) }, 10)),
        3 => return Some((WriteCall { output: random.below(length), ..wrong.call(length) }, 14)),
        4 => return Some((WriteCall { output: length - 1, ..wrong.call(length) }, 14)),
        5 => {
            let k = random.below(wrong.tables.strings.len());
            let text = wrong.tables.text.len() as u32;
            wrong.tables.strings[k] = match random.below(4) {
                0 => [text + 1, 0],
                1 => [text, 1],
                2 => [random.below(text as usize + 1) as u32, NONE],
                _ => [NONE, random.pick(&[0, 1, NONE])],
            };
            3
        }
        6 => {
            let bad: &[u8] = random.pick(&[b"\x80", b"\xC3", b"\xED\xA0\x80", b"\xF4\x90\x80\x80", b"\xC0\x80"]);
            let start = wrong.tables.text.len() as u32;
            wrong.tables.text.extend(bad);
            wrong.tables.strings.push([start, bad.len() as u32]);
            return Some((wrong.call(length + 8 + bad.len()), 3));
        }
        7 => {
            if random.percent(50) {
                wrong.marks.push(0);
            } else {
                wrong.marks.pop()?;
            }
            1
        }
        _ => {
            let objects: Vec<[u32; 4]> =
                wrong.tables.values.iter().copied().filter(|words| words[0] == 7 && words[2] > 1).collect();
            let [_, first, count, _] = *objects.get(random.below(objects.len().max(1)))?;
            let k = first as usize + random.below(count as usize - 1);
            wrong.tables.members.swap(k, k + 1);
            4
        }
    };
    // The finished case may have become longer, never by more than the text.
    let longer = length + 16 + wrong.tables.text.len();
    Some((wrong.call(longer), refusal))
}

/// Small tables of any words, with marks of their own: most are refused, but what the room holds tells.
pub fn random_tables(random: &mut Random) -> Unsorted {
    let letters: &[u8] = random.pick(&[b"ab", b"aab.", b"a\"\xC3\xA9"]);
    let text: Vec<u8> = (0..random.below(24)).map(|_| random.pick(letters)).collect();
    let strings: Vec<[u32; 2]> = (0..random.below(12)).map(|_| random_place(random, text.len())).collect();
    let words = |random: &mut Random, kinds: &[u32], most: usize| -> u32 {
        match random.below(8) {
            0 => NONE,
            1..=3 => random.pick(kinds),
            _ => random.below(most + 2) as u32,
        }
    };
    let most = strings.len();
    let mut tables = Tables {
        variables: if random.percent(3) { 17 } else { random.pick(&[0, 1, 2, 16]) },
        strings,
        text,
        ..Tables::default()
    };
    for _ in 0..random.below(6) {
        let kind = random.pick(&[0, 1, 2, 3, 4, 5, 6, 7, 7, 8]);
        let mut value = [kind, 0, 0, 0];
        (1..random.between(1, 4)).for_each(|k| value[k] = words(random, &[0, 1], most));
        tables.values.push(value);
    }
    for _ in 0..random.below(6) {
        tables.members.push([words(random, &[NONE], most), words(random, &[0], tables.values.len())]);
    }
    for _ in 0..random.below(3) {
        let mut point: [u32; 12] = std::array::from_fn(|_| words(random, &[0, 0, 1], most));
        if random.percent(80) {
            (point[2], point[3], point[10], point[11]) = (0, random.below(2) as u32, 0, random.below(2) as u32);
        }
        tables.points.push(point);
    }
    for _ in 0..random.below(4) {
        let kind = random.pick(&[1, 3, 7, 7, 7, 8, 10, 20, 21, 22, 23, 24, 30, 31, 9]);
        let mut node = [kind, 0, 0, 0, 0, 0, 0, 0];
        (1..random.between(1, 7)).for_each(|k| node[k] = words(random, &[0, 1], most));
        tables.nodes.push(node);
    }
    tables.lists = (0..random.below(8)).map(|_| words(random, &[0, 1], most)).collect();
    let marks = tables.lists.iter().map(|_| random.pick(&[0, 0, 1, 1, 2, 255])).collect();
    Unsorted { tables, marks }
}

fn random_place(random: &mut Random, text: usize) -> [u32; 2] {
    if random.percent(2) {
        return [random.pick(&[NONE, 0, text as u32, text as u32 + 1]), random.pick(&[NONE, NONE - 1, 0, 1])];
    }
    let start = random.below(text + 1);
    [start as u32, random.below((text - start).min(4) + 1) as u32]
}
