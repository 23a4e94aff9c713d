//! Request #101: the writer. Written from its reading (W1 to W13, G1 to G5) alone.

use std::cmp::Ordering;

use crate::calls::Model;
use crate::check::{bodies_in_place, check};
use crate::file::{File, Table, CONTENTS, TABLES};
use crate::variant::Variant;
use crate::{MOST_FILE_BYTES, MOST_NODES, MOST_RECORDS, MOST_VARIABLES};

impl Model {
    /// Writes an unsorted case, with a mark for each list word, as a case: how many bytes of the output were
    /// filled, or the refusal. The finished case is made in the room, where 1, 2 and 10 leave it as it was.
    pub fn write(self, unsorted: &[u8], marks: &[u8], room: &mut [u8], output: &mut [u8]) -> Result<usize, u32> {
        let writing = Writing::new(self.variant, unsorted, marks).ok_or(1_u32)?;
        if writing.is(Variant::WrittenRoomFirst) && writing.length() > room.len() {
            return Err(10);
        }
        if !writing.within_mosts() {
            return Err(2);
        }
        let finished = writing.finished();
        let fits = |lent: &[u8], full: Variant| finished.len() < lent.len() + usize::from(!writing.is(full));
        let room_lacks = !fits(room, Variant::WrittenFullRoomRefused);
        if room_lacks && !writing.is(Variant::WrittenRoomLast) {
            return Err(10);
        }
        if !room_lacks {
            room[..finished.len()].copy_from_slice(&finished);
        }
        let output_lacks = !fits(output, Variant::WrittenFullOutputRefused);
        if output_lacks && writing.is(Variant::WrittenShortFirst) {
            return Err(14);
        }
        let refusal = writing.refusal(&finished);
        if refusal != 0 {
            if writing.is(Variant::WrittenOutputTouched) && !output_lacks {
                output[..finished.len()].copy_from_slice(&finished);
            }
            return Err(refusal);
        }
        if room_lacks {
            return Err(10);
        }
        if output_lacks {
            return Err(14);
        }
        output[..finished.len()].copy_from_slice(&finished);
        Ok(finished.len())
    }
}

/// The marks that reading a checked case gives: 1 where a point or a node uses the place as a string (W11).
pub fn marks_of_reading(case: &[u8]) -> Vec<u8> {
    let file = File { bytes: case };
    let mut marks = vec![0; file.count(Table::Lists)];
    for used in all_uses(file).into_iter().filter(|used| used.as_string) {
        marks[used.place] = 1;
    }
    marks
}

/// A list place, and whether it is used as a string or otherwise.
pub struct Use {
    pub place: usize,
    pub as_string: bool,
    /// By a point; else by a node.
    pub by_point: bool,
}

/// Every use of a list place in a checked case.
pub fn uses(case: &[u8]) -> Vec<Use> {
    all_uses(File { bytes: case })
}

fn all_uses(file: File) -> Vec<Use> {
    let mut uses = points_uses(file);
    uses.extend(nodes_uses(file));
    uses
}

fn run(first: u32, words: usize, as_string: impl Fn(usize) -> bool) -> Vec<(usize, bool)> {
    (0..words).map(|k| (first as usize + k, as_string(k))).collect()
}

/// The places that points use: namespaces as strings; of an entity type and id as strings, attributes not.
fn points_uses(file: File) -> Vec<Use> {
    let mut places = Vec::new();
    for k in 0..file.count(Table::Points) {
        let [_, _, namespace, names, .., entities, count] = file.point(k);
        places.extend(run(namespace, names as usize, |_| true));
        places.extend(run(entities, 3 * count as usize, |k| k % 3 != 2));
    }
    places.into_iter().map(|(place, as_string)| Use { place, as_string, by_point: true }).collect()
}

/// The places that nodes use: namespaces and paths as strings; the words of an argument and binders not.
fn nodes_uses(file: File) -> Vec<Use> {
    let mut places = Vec::new();
    for k in 0..file.count(Table::Nodes) as u32 {
        let [kind, a, b, c, _, e, f, _] = file.node(k);
        match kind {
            7 => {
                places.extend(run(a, b as usize, |_| true));
                places.extend(run(e, 3 * f as usize, |_| false));
                let arguments = if f == 0 { Vec::new() } else { file.list(e, 3 * f as usize) };
                for argument in arguments.chunks(3) {
                    places.extend(run(argument[0], argument[1] as usize, |_| true));
                }
            }
            21 => places.extend(run(a, b as usize, |_| true)),
            22 => places.extend(run(b, c as usize, |_| true)),
            30 => places.extend(run(b, c as usize, |_| false)),
            31 => places.extend(run(a, b as usize, |_| false)),
            _ => {}
        }
    }
    places.into_iter().map(|(place, as_string)| Use { place, as_string, by_point: false }).collect()
}

struct Writing<'a> {
    file: File<'a>,
    marks: &'a [u8],
    variant: Variant,
    /// The text of each string, as far as it is there.
    strings: Vec<&'a [u8]>,
    /// The different ones, rising.
    sorted: Vec<&'a [u8]>,
}

impl<'a> Writing<'a> {
    /// None where there are no tables, or not a mark for each list word.
    fn new(variant: Variant, bytes: &'a [u8], marks: &'a [u8]) -> Option<Writing<'a>> {
        let file = File { bytes };
        if bytes.len() < CONTENTS || file.edition() != 1 || !bodies_in_place(file) {
            return None;
        }
        let words = file.count(Table::Lists);
        if marks.len() != words && !(variant == Variant::WrittenMarksLack && marks.len() < words) {
            return None;
        }
        let mut writing = Writing { file, marks, variant, strings: Vec::new(), sorted: Vec::new() };
        writing.strings = (0..file.count(Table::Strings)).map(|k| writing.text(k)).collect();
        let mut sorted = writing.strings.clone();
        sorted.sort_by(|a, b| writing.order(a, b));
        if !writing.is(Variant::WrittenNotJoined) {
            sorted.dedup();
        }
        writing.sorted = sorted;
        Some(writing)
    }

    fn is(&self, variant: Variant) -> bool {
        self.variant == variant
    }

    fn order(&self, a: &[u8], b: &[u8]) -> Ordering {
        let length = if self.is(Variant::WrittenShorterFirst) { a.len().cmp(&b.len()) } else { Ordering::Equal };
        length.then_with(|| a.cmp(b))
    }

    /// Start and end of a string in text, which may lie behind text's end.
    fn place(&self, string: usize) -> (usize, usize) {
        let [start, length]: [u32; 2] = self.file.record(Table::Strings, string);
        (start as usize, start as usize + length as usize)
    }

    /// The bytes of a string that are there.
    fn text(&self, string: usize) -> &'a [u8] {
        let text = &self.file.bytes[self.file.offset(Table::Text)..];
        let (start, end) = self.place(string);
        &text[start.min(text.len())..end.min(text.len())]
    }

    /// Bytes of the finished case.
    fn length(&self) -> usize {
        let same = [Table::Values, Table::Members, Table::Points, Table::Nodes, Table::Lists];
        let strings: usize = self.sorted.iter().map(|text| 8 + text.len()).sum();
        CONTENTS + strings + same.iter().map(|&table| self.file.length(table)).sum::<usize>()
    }

    /// The mosts, of what is finished (W5).
    fn within_mosts(&self) -> bool {
        let count = |table| self.file.count(table);
        let strings = if self.is(Variant::WrittenCountsRecords) { self.strings.len() } else { self.sorted.len() };
        let longest = if self.is(Variant::WrittenLongInput) { self.file.bytes.len() } else { 0 }.max(self.length());
        longest <= MOST_FILE_BYTES
            && strings <= MOST_RECORDS
            && count(Table::Values) <= MOST_RECORDS
            && count(Table::Points) <= MOST_RECORDS
            && count(Table::Nodes) <= MOST_NODES
            && self.file.variables() <= MOST_VARIABLES
    }

    /// The finished case (W2).
    fn finished(&self) -> Vec<u8> {
        let bodies = TABLES.map(|table| match table {
            Table::Strings => self.string_records(),
            Table::Text if self.is(Variant::WrittenTextKept) => {
                self.file.bytes[self.file.offset(Table::Text)..].to_vec()
            }
            Table::Text => self.sorted.concat(),
            _ => self.records(table),
        });
        let mut finished = Vec::new();
        let mut word = |word: usize| finished.extend((word as u32).to_le_bytes());
        word(1);
        word(self.file.variables() as usize);
        let mut offset = CONTENTS;
        for body in &bodies {
            word(offset);
            word(body.len());
            offset += body.len();
        }
        finished.extend(bodies.concat());
        finished
    }

    /// The different strings end to end from 0.
    fn string_records(&self) -> Vec<u8> {
        let mut records = Vec::new();
        let mut start = 0;
        for text in &self.sorted {
            records.extend((start as u32).to_le_bytes());
            records.extend((text.len() as u32).to_le_bytes());
            start += text.len();
        }
        records
    }

    /// A table's records with their strings renumbered.
    fn records(&self, table: Table) -> Vec<u8> {
        let mut bytes = Vec::new();
        for record in 0..self.file.count(table) {
            for k in 0..table.record_bytes() / 4 {
                let old = self.file.field(table, record, k);
                let word = if self.names_string(table, record, k) { self.renumbered(old) } else { old };
                bytes.extend(word.to_le_bytes());
            }
        }
        bytes
    }

    /// Whether word `k` of a record names a string (W3).
    fn names_string(&self, table: Table, record: usize, k: usize) -> bool {
        let kind = self.file.field(table, record, 0);
        match table {
            Table::Values => match kind {
                3 => k == 1 && !self.is(Variant::WrittenDecimalLeft),
                4 => k == 1,
                5 => k == 1 || (k == 2 && !self.is(Variant::WrittenIdLeft)),
                _ => false,
            },
            Table::Members => k == 0,
            Table::Points => k == 4 || (k == 5 && !self.is(Variant::WrittenPointKindLeft)),
            Table::Nodes => kind == 7 && (k == 3 || k == 4) && !self.is(Variant::WrittenPredicateLeft),
            Table::Lists => self.marked(record) && !self.is(Variant::WrittenMarkedLeft),
            Table::Strings | Table::Text => false,
        }
    }

    fn marked(&self, place: usize) -> bool {
        let mark = self.marks.get(place).copied().unwrap_or(0);
        match self.variant {
            Variant::WrittenMarkOfOne => mark == 1,
            Variant::WrittenEveryWord => true,
            _ => mark != 0,
        }
    }

    /// The new number of a string; a number that is none is kept.
    fn renumbered(&self, old: u32) -> u32 {
        let text = match self.strings.get(old as usize) {
            Some(text) => text,
            None if self.is(Variant::WrittenOutsideRenumbered) => return self.sorted.len() as u32 - 1,
            None => return old,
        };
        let found = self.sorted.binary_search_by(|other| self.order(other, text));
        found.expect("every string is among the different ones") as u32
    }

    /// Refusals 3 to 6: the check's of the finished case, with W4 and W6 besides.
    fn refusal(&self, finished: &[u8]) -> u32 {
        let text = self.file.length(Table::Text);
        let leaves = (0..self.strings.len()).any(|k| self.place(k).1 > text);
        if leaves && !self.is(Variant::WrittenLeavingPasses) {
            return 3;
        }
        let said = check(self.variant, finished);
        let file = File { bytes: finished };
        // Where the check finds no fault up to the points, their uses can be read; so with the nodes.
        if (said == 0 || said == 6) && self.against(points_uses(file)) {
            return if self.is(Variant::WrittenPointsAsNodes) { 6 } else { 5 };
        }
        if said == 0 && self.against(nodes_uses(file)) {
            return 6;
        }
        said
    }

    /// Whether a place is used against its mark.
    fn against(&self, uses: Vec<Use>) -> bool {
        !self.is(Variant::WrittenMarksUnasked) && uses.iter().any(|used| self.marked(used.place) != used.as_string)
    }
}
