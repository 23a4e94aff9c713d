//! A JSON log as the proved import gives it: an unsorted case of points alone. What is joined to it, what of it does
//! not fit into a case, and what a fault in its text is about.

mod fit;
mod place;
mod why;

use std::collections::HashSet;

pub use fit::TooMany;
pub use place::Place;
pub use why::why;

use crate::records::{Point, Value};
use crate::tables::{Tables, NONE};
use crate::unsorted::Unsorted;

/// The names that make an object with no other member one of Cedar's forms.
const FORMS: [&[u8]; 2] = [b"__entity", b"__extn"];

/// The points of a log. Its records stand in the order of its events.
#[derive(Clone, Debug, Default, PartialEq, Eq)]
pub struct Log {
    unsorted: Unsorted,
}

impl Log {
    /// From what the import wrote.
    pub fn of(trace: &[u8], marks: &[u8]) -> Result<Log, String> {
        Ok(Log { unsorted: Unsorted { tables: Tables::decode(trace)?, marks: marks.to_vec() } })
    }

    pub fn events(&self) -> usize {
        self.unsorted.tables.points.len()
    }

    /// The points behind the tables of a text without points: every number of the log's is shifted by what stands before
    /// it. None where the numbers would not fit their words; then no case holds them.
    pub fn joined(&self, rules: Unsorted) -> Option<Unsorted> {
        let log = &self.unsorted.tables;
        let Unsorted { mut tables, mut marks } = rules;
        let words = [tables.text.len() + log.text.len(), tables.members.len() + log.members.len()];
        let records = [tables.strings.len() + log.strings.len(), tables.values.len() + log.values.len()];
        if words.iter().chain(&records).any(|&count| count >= NONE as usize) {
            return None;
        }
        let shift = Shift {
            string: tables.strings.len() as u32,
            value: tables.values.len() as u32,
            member: tables.members.len() as u32,
            list: tables.lists.len() as u32,
        };
        let byte = tables.text.len() as u32;
        tables.strings.extend(log.strings.iter().map(|[start, length]| [start + byte, *length]));
        tables.text.extend(&log.text);
        tables.values.extend(log.values.iter().map(|&words| shift.value(words)));
        tables.members.extend(log.members.iter().map(|&words| shift.member(words)));
        tables.points.extend(log.points.iter().map(|&words| shift.point(words)));
        let words = log.lists.iter().zip(&self.unsorted.marks);
        tables.lists.extend(words.map(|(&word, &mark)| word + if mark == 0 { shift.value } else { shift.string }));
        marks.extend(&self.unsorted.marks);
        Some(Unsorted { tables, marks })
    }

    /// What the writer's refusal of these points and a text's tables is about, where that is found: the line, and words.
    /// The import takes more than a case holds.
    pub fn refused(&self, number: u8, rules: &Tables) -> (Option<usize>, Option<String>) {
        match number {
            2 => (None, self.too_many(rules).map(|too_many| too_many.to_string())),
            5 => self.bad_point().map(|(event, why)| (event + 1, why)).unzip(),
            _ => (None, None),
        }
    }

    /// The first event that the check of points refuses, and what is wrong with its entities.
    fn bad_point(&self) -> Option<(usize, String)> {
        let tables = &self.unsorted.tables;
        let text = |string: u32| String::from_utf8_lossy(tables.string(string)).into_owned();
        tables.points.iter().enumerate().find_map(|(event, words)| {
            let point = Point::read(*words);
            let first = point.entities.first as usize;
            let mut seen = HashSet::new();
            let entities = tables.lists[first..first + 3 * point.entities.count as usize].chunks(3);
            entities.into_iter().find_map(|entity| {
                let (ty, id) = (text(entity[0]), text(entity[1]));
                if ty.contains('"') {
                    return Some((event, format!("the type of an entity holds a quotation mark: {ty}")));
                }
                let again = format!("the entity {ty}::{id:?} stands here twice: leave one out");
                (!seen.insert((ty, id))).then_some((event, again))
            })
        })
    }
}

/// What stands before each table's records.
struct Shift {
    string: u32,
    value: u32,
    member: u32,
    list: u32,
}

impl Shift {
    fn value(&self, [kind, a, b, c]: [u32; 4]) -> [u32; 4] {
        match kind {
            3 | 4 => [kind, a + self.string, b, c],
            5 => [kind, a + self.string, b + self.string, c],
            6 | 7 => [kind, a + self.member, b, c],
            _ => [kind, a, b, c],
        }
    }

    fn member(&self, [name, value]: [u32; 2]) -> [u32; 2] {
        [if name == NONE { NONE } else { name + self.string }, value + self.value]
    }

    fn point(&self, words: [u32; 12]) -> [u32; 12] {
        let mut point = Point::read(words);
        point.namespace.first += self.list;
        point.entities.first += self.list;
        point.action += self.string;
        point.kind += self.string;
        let values = [&mut point.logged, &mut point.context].into_iter();
        let values = values.chain(&mut point.principal).chain(&mut point.resource);
        values.for_each(|value| *value += self.value);
        point.words()
    }
}

/// The first point of a checked case that reaches an object which a reader would take for one of Cedar's forms, and the
/// name of its only member. Export refuses such a case.
pub fn ambiguous(tables: &Tables) -> Option<(usize, String)> {
    let mut found: Vec<Option<u32>> = Vec::new();
    for words in &tables.values {
        let members = match Value::read(*words) {
            Some(Value::Array(run) | Value::Object(run)) => &tables.members[run.places()],
            _ => &[],
        };
        let own = match members {
            [[name, _]] if *name != NONE && FORMS.contains(&tables.string(*name)) => Some(*name),
            _ => None,
        };
        found.push(own.or_else(|| members.iter().find_map(|[_, value]| found[*value as usize])));
    }
    tables.points.iter().enumerate().find_map(|(number, words)| {
        let point = Point::read(*words);
        let first = point.entities.first as usize;
        let entities = tables.lists[first..first + 3 * point.entities.count as usize].chunks(3);
        let values = [point.logged, point.context].into_iter().chain(point.principal).chain(point.resource);
        let name = values.chain(entities.map(|entity| entity[2])).find_map(|value| found[value as usize])?;
        Some((number, String::from_utf8_lossy(tables.string(name)).into_owned()))
    })
}
