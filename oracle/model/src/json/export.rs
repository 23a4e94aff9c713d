//! The export: a case's points as lines (J20 to J23).

use crate::calls::Model;
use crate::check::check;
use crate::file::{signed, File, Table, NONE};
use crate::variant::Variant;

/// What the export answers: a refusal, or how many bytes of the output it filled.
#[derive(Clone, Copy, Debug, Default, PartialEq, Eq)]
pub struct Exported {
    pub refusal: u32,
    pub length: usize,
}

impl Model {
    pub fn export(self, case: &[u8], output: &mut [u8]) -> Exported {
        match self.exported(case, output.len()) {
            Ok(text) => {
                output[..text.len()].copy_from_slice(&text);
                Exported { refusal: 0, length: text.len() }
            }
            Err(refusal) => Exported { refusal, length: 0 },
        }
    }

    /// The lines, if they are no longer than `most` bytes.
    pub fn exported(self, case: &[u8], most: usize) -> Result<Vec<u8>, u32> {
        let refusal = check(self.variant, case);
        if refusal != 0 {
            return Err(refusal);
        }
        let lines = Lines { file: File { bytes: case }, variant: self.variant };
        let most = if lines.is(Variant::JsonExactRefused) { most.saturating_sub(1) } else { most };
        let too_long = || lines.length() > most as u64;
        if lines.is(Variant::JsonShortFirst) && too_long() {
            return Err(14);
        }
        if lines.ambiguous() {
            return Err(25);
        }
        if too_long() {
            return Err(14);
        }
        let mut text = Vec::new();
        for point in 0..lines.file.count(Table::Points) {
            lines.point(point, &mut |piece| match piece {
                Piece::Bytes(bytes) => text.extend(bytes),
                Piece::Value(value) => lines.whole_value(value, &mut text),
            });
        }
        Ok(text)
    }
}

/// Of what a line is put together: bytes, and values by number.
enum Piece<'a> {
    Bytes(&'a [u8]),
    Value(u32),
}

type Put<'p> = &'p mut dyn FnMut(Piece);

struct Lines<'a> {
    file: File<'a>,
    variant: Variant,
}

impl Lines<'_> {
    fn is(&self, variant: Variant) -> bool {
        self.variant == variant
    }

    /// The bytes of all lines, or at least the most that 64 bits hold.
    fn length(&self) -> u64 {
        let mut lengths: Vec<u64> = Vec::new();
        let add = |sum: &mut u64, lengths: &[u64], piece: Piece| {
            *sum = sum.saturating_add(match piece {
                Piece::Bytes(bytes) => bytes.len() as u64,
                Piece::Value(value) => lengths[value as usize],
            });
        };
        for value in 0..self.file.count(Table::Values) as u32 {
            let mut sum = 0;
            self.value(value, &mut |piece| add(&mut sum, &lengths, piece));
            lengths.push(sum);
        }
        let mut sum = 0;
        for point in 0..self.file.count(Table::Points) {
            self.point(point, &mut |piece| add(&mut sum, &lengths, piece));
        }
        sum
    }

    /// Whether a point reaches an object whose only member is named as a Cedar form is.
    fn ambiguous(&self) -> bool {
        let count = self.file.count(Table::Values);
        let mut reached = vec![self.is(Variant::JsonUnreached); count];
        for point in 0..self.file.count(Table::Points) {
            self.point(point, &mut |piece| {
                if let Piece::Value(value) = piece {
                    reached[value as usize] = true;
                }
            });
        }
        // Children have lower numbers.
        for value in (0..count as u32).rev() {
            if reached[value as usize] && !self.is(Variant::JsonTopAmbiguous) {
                self.value(value, &mut |piece| {
                    if let Piece::Value(child) = piece {
                        reached[child as usize] = true;
                    }
                });
            }
        }
        (0..count as u32).any(|value| reached[value as usize] && self.is_form_like(value))
    }

    fn is_form_like(&self, value: u32) -> bool {
        let [kind, first, count, _] = self.file.value(value);
        let named = |name: u32| matches!(self.file.string(name), b"__entity" | b"__extn");
        kind == 7 && count == 1 && named(self.file.members(first, 1)[0][0])
    }

    fn whole_value(&self, value: u32, text: &mut Vec<u8>) {
        self.value(value, &mut |piece| match piece {
            Piece::Bytes(bytes) => text.extend(bytes),
            Piece::Value(child) => self.whole_value(child, text),
        });
    }

    fn point(&self, number: usize, put: Put) {
        let [low, high, namespace, names, action, kind, logged, context, principal, resource, entities, count] =
            self.file.point(number);
        put(Piece::Bytes(format!("{{\"time\":{},\"namespace\":[", signed(low, high)).as_bytes()));
        for (k, name) in self.words(namespace, names).into_iter().enumerate() {
            comma(k, put);
            self.string(name, put);
        }
        put(Piece::Bytes(b"],\"action\":"));
        self.string(action, put);
        put(Piece::Bytes(b",\"kind\":"));
        self.string(kind, put);
        for (field, value) in
            [("logged", logged), ("context", context), ("principal", principal), ("resource", resource)]
        {
            if value != NONE {
                put(Piece::Bytes(format!(",\"{field}\":").as_bytes()));
                put(Piece::Value(value));
            } else if self.is(Variant::JsonNoneNull) {
                put(Piece::Bytes(format!(",\"{field}\":null").as_bytes()));
            }
        }
        put(Piece::Bytes(b",\"entities\":["));
        for (k, entity) in self.words(entities, 3 * count).chunks(3).enumerate() {
            comma(k, put);
            put(Piece::Bytes(b"["));
            self.string(entity[0], put);
            put(Piece::Bytes(b","));
            self.string(entity[1], put);
            put(Piece::Bytes(b","));
            put(Piece::Value(entity[2]));
            put(Piece::Bytes(b"]"));
        }
        put(Piece::Bytes(b"]}\n"));
    }

    fn words(&self, first: u32, count: u32) -> Vec<u32> {
        if count == 0 {
            Vec::new()
        } else {
            self.file.list(first, count as usize)
        }
    }

    /// A value's own bytes and its children's numbers.
    fn value(&self, value: u32, put: Put) {
        let [kind, a, b, _] = self.file.value(value);
        match kind {
            0 => put(Piece::Bytes(b"null")),
            1 => put(Piece::Bytes(if a == 1 { b"true" } else { b"false" })),
            2 => put(Piece::Bytes(signed(a, b).to_string().as_bytes())),
            3 => self.between("{\"__extn\":{\"fn\":\"decimal\",\"arg\":", a, "}}", put),
            4 => self.string(a, put),
            5 => {
                self.between("{\"__entity\":{\"type\":", a, ",\"id\":", put);
                self.between("", b, "}}", put);
            }
            _ => self.members(kind == 7, a, b, put),
        }
    }

    fn between(&self, before: &str, string: u32, after: &str, put: Put) {
        put(Piece::Bytes(before.as_bytes()));
        self.string(string, put);
        put(Piece::Bytes(after.as_bytes()));
    }

    fn members(&self, object: bool, first: u32, count: u32, put: Put) {
        put(Piece::Bytes(if object { b"{" } else { b"[" }));
        let members = if count == 0 { Vec::new() } else { self.file.members(first, count) };
        for (k, [name, value]) in members.into_iter().enumerate() {
            comma(k, put);
            if object {
                self.string(name, put);
                put(Piece::Bytes(b":"));
            }
            put(Piece::Value(value));
        }
        put(Piece::Bytes(if object { b"}" } else { b"]" }));
    }

    /// A string in quotation marks: `"`, `\` and what is below 32 escaped, nothing else.
    fn string(&self, number: u32, put: Put) {
        let mut text = vec![b'"'];
        for &byte in self.file.string(number) {
            match byte {
                b'"' | b'\\' => text.extend([b'\\', byte]),
                b'/' if self.is(Variant::JsonSlashEscaped) => text.extend(b"\\/"),
                b'\n' if self.is(Variant::JsonShortEscapes) => text.extend(b"\\n"),
                0..=31 if self.is(Variant::JsonUpperHex) => text.extend(format!("\\u{byte:04X}").bytes()),
                0..=31 => text.extend(format!("\\u{byte:04x}").bytes()),
                _ => text.push(byte),
            }
        }
        text.push(b'"');
        put(Piece::Bytes(&text));
    }
}

fn comma(k: usize, put: Put) {
    if k > 0 {
        put(Piece::Bytes(b","));
    }
}
