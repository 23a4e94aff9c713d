//! The unsorted case that an import gives (J17): every number is a function of the events.

use super::{Event, Json, Members};
use crate::file::{CONTENTS, NONE};
use crate::variant::Variant;

/// An unsorted case, and a mark for each of its list words: 1 where it names a string.
#[derive(Clone, Debug, PartialEq, Eq)]
pub struct Trace {
    pub bytes: Vec<u8>,
    pub marks: Vec<u8>,
}

pub fn trace(variant: Variant, events: &[Event]) -> Trace {
    let mut laying = Laying { variant, ..Laying::default() };
    for event in events {
        laying.event(event);
    }
    Trace { bytes: laying.bytes(), marks: laying.marks }
}

/// The tables as far as they are laid out.
#[derive(Default)]
struct Laying {
    variant: Variant,
    strings: Vec<[u32; 2]>,
    values: Vec<[u32; 4]>,
    members: Vec<[u32; 2]>,
    points: Vec<[u32; 12]>,
    lists: Vec<u32>,
    marks: Vec<u8>,
    text: Vec<u8>,
}

fn low(number: i64) -> u32 {
    number as u32
}

fn high(number: i64) -> u32 {
    (number >> 32) as u32
}

impl Laying {
    fn is(&self, variant: Variant) -> bool {
        self.variant == variant
    }

    fn event(&mut self, event: &Event) {
        let namespace = self.lists.len() as u32;
        for name in &event.namespace {
            let name = self.string(name);
            self.list(name, 1);
        }
        let action = self.string(&event.action);
        let kind = self.string(&event.kind);
        let early = if self.is(Variant::JsonFieldsTextOrder) { self.object(&event.context) } else { 0 };
        let logged = self.object(&event.logged);
        let context = if self.is(Variant::JsonFieldsTextOrder) { early } else { self.object(&event.context) };
        let principal = event.principal.as_ref().map_or(NONE, |value| self.value(value));
        let resource = event.resource.as_ref().map_or(NONE, |value| self.value(value));
        let entities = self.lists.len() as u32;
        self.entities(&event.entities);
        let (names, count) = (event.namespace.len() as u32, event.entities.len() as u32);
        let (low, high) = (low(event.time), high(event.time));
        self.points
            .push([low, high, namespace, names, action, kind, logged, context, principal, resource, entities, count]);
    }

    /// Entities in byte order of (type, id), equal ones in the text's order.
    fn entities(&mut self, entities: &[(Vec<u8>, Vec<u8>, Members)]) {
        let mut sorted: Vec<_> = entities.iter().collect();
        if !self.is(Variant::JsonEntitiesTextOrder) {
            sorted.sort_by_key(|(ty, id, _)| (ty, id));
        }
        for (ty, id, attributes) in sorted {
            let ty = self.string(ty);
            self.list(ty, 1);
            let id = self.string(id);
            self.list(id, 1);
            let attributes = self.object(attributes);
            self.list(attributes, u8::from(self.is(Variant::JsonMarksAll)));
        }
    }

    fn list(&mut self, word: u32, mark: u8) {
        self.lists.push(word);
        self.marks.push(mark);
    }

    /// A record of its own for every occurrence.
    fn string(&mut self, text: &[u8]) -> u32 {
        if self.is(Variant::JsonStringsJoined) {
            let same = |&[start, length]: &[u32; 2]| &self.text[start as usize..(start + length) as usize] == text;
            if let Some(string) = self.strings.iter().position(same) {
                return string as u32;
            }
        }
        self.strings.push([self.text.len() as u32, text.len() as u32]);
        self.text.extend(text);
        self.strings.len() as u32 - 1
    }

    /// A value's number comes after its children's.
    fn value(&mut self, value: &Json) -> u32 {
        let words = match value {
            Json::Null => [0, 0, 0, 0],
            Json::Bool(yes) => [1, u32::from(*yes), 0, 0],
            Json::Int(number) => [2, low(*number), high(*number), 0],
            Json::Decimal(text) => [3, self.string(text), 0, 0],
            Json::String(text) => [4, self.string(text), 0, 0],
            Json::Entity(ty, id) => {
                let ty = self.string(ty);
                [5, ty, self.string(id), 0]
            }
            Json::Array(items) => {
                let items: Vec<_> = items.iter().map(|item| (None, item)).collect();
                self.run(6, &items)
            }
            Json::Object(members) => return self.object(members),
        };
        self.values.push(words);
        self.values.len() as u32 - 1
    }

    /// Members in byte order of their names.
    fn object(&mut self, members: &Members) -> u32 {
        let mut sorted: Vec<_> = members.iter().map(|(name, value)| (Some(name), value)).collect();
        if !self.is(Variant::JsonTextOrder) {
            sorted.sort_by_key(|(name, _)| *name);
        }
        let words = self.run(7, &sorted);
        self.values.push(words);
        self.values.len() as u32 - 1
    }

    /// A run stands before the runs of its children; of a member the name comes first, then its value.
    fn run(&mut self, kind: u32, items: &[(Option<&Vec<u8>>, &Json)]) -> [u32; 4] {
        let mut run = vec![[NONE, 0]; items.len()];
        let mut first = self.members.len();
        let after = self.is(Variant::JsonRunAfter);
        if !after {
            self.members.extend(&run);
        }
        for (record, (name, value)) in run.iter_mut().zip(items) {
            let early = if self.is(Variant::JsonValueFirst) { Some(self.value(value)) } else { None };
            let name = name.map_or(NONE, |name| self.string(name));
            *record = [name, early.unwrap_or_else(|| self.value(value))];
        }
        if after {
            first = self.members.len();
            self.members.extend(&run);
        } else {
            self.members[first..first + run.len()].copy_from_slice(&run);
        }
        [kind, first as u32, run.len() as u32, 0]
    }

    /// Edition 1, no variables, no nodes.
    fn bytes(&self) -> Vec<u8> {
        let bodies: [Vec<u8>; 7] = [
            little_endian(self.strings.as_flattened()),
            little_endian(self.values.as_flattened()),
            little_endian(self.members.as_flattened()),
            little_endian(self.points.as_flattened()),
            Vec::new(),
            little_endian(&self.lists),
            self.text.clone(),
        ];
        let mut contents = vec![1, 0];
        let mut offset = CONTENTS;
        for body in &bodies {
            contents.extend([offset as u32, body.len() as u32]);
            offset += body.len();
        }
        [little_endian(&contents), bodies.concat()].concat()
    }
}

fn little_endian(words: &[u32]) -> Vec<u8> {
    words.iter().flat_map(|word| word.to_le_bytes()).collect()
}
