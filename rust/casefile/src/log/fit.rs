//! How many events of a log fit into one case.

use std::collections::HashSet;
use std::fmt;

use super::Log;
use crate::records::{Point, Run, Value};
use crate::tables::{Tables, CONTENTS};

const MOST_RECORDS: usize = 16_384;
const MOST_BYTES: usize = 4_194_304;

/// A log that does not fit into a case.
#[derive(Clone, Debug, PartialEq, Eq)]
pub struct TooMany {
    pub events: usize,
    /// How many of them fit, from the first on.
    pub fit: usize,
    /// What there is too much of with one event more: how many, the most, and its name.
    pub count: usize,
    pub most: usize,
    pub what: &'static str,
}

impl fmt::Display for TooMany {
    fn fmt(&self, f: &mut fmt::Formatter) -> fmt::Result {
        let TooMany { events, fit, count, most, what } = self;
        let [events, fit, count, most] = [events, fit, count, most].map(|number| grouped(*number));
        write!(f, "the log has {events} events; {fit} fit: a case holds {most} {what}, and one more would make {count}")
    }
}

/// A number with its thousands apart.
fn grouped(number: usize) -> String {
    let digits = number.to_string();
    let mut text = String::new();
    for (k, digit) in digits.chars().enumerate() {
        if k > 0 && (digits.len() - k) % 3 == 0 {
            text.push(',');
        }
        text.push(digit);
    }
    text
}

/// How many records the events before one take of each table.
struct Before {
    strings: usize,
    values: usize,
    members: usize,
    lists: usize,
}

impl Log {
    /// What does not fit, if these points and the rules' tables do not go into one case together.
    pub fn too_many(&self, rules: &Tables) -> Option<TooMany> {
        let log = &self.unsorted.tables;
        let mut texts: HashSet<&[u8]> = (0..rules.strings.len() as u32).map(|k| rules.string(k)).collect();
        let mut bytes: usize = texts.iter().map(|text| text.len()).sum();
        let mut counted = 0;
        for event in 0..self.events() {
            let before = self.before(event + 1);
            for string in counted..before.strings {
                let text = log.string(string as u32);
                bytes += if texts.insert(text) { text.len() } else { 0 };
            }
            counted = before.strings;
            let values = rules.values.len() + before.values;
            let records = 8 * texts.len() + 16 * values + 8 * (rules.members.len() + before.members);
            let nodes = 32 * rules.nodes.len() + 4 * (rules.lists.len() + before.lists);
            let size = CONTENTS + records + 48 * (event + 1) + nodes + bytes;
            let counts = [
                (event + 1, MOST_RECORDS, "points"),
                (values, MOST_RECORDS, "values"),
                (texts.len(), MOST_RECORDS, "different strings"),
                (size, MOST_BYTES, "bytes"),
            ];
            if let Some((count, most, what)) = counts.into_iter().find(|(count, most, _)| count > most) {
                return Some(TooMany { events: self.events(), fit: event, count, most, what });
            }
        }
        None
    }

    /// An event's first records follow those of the events before it: strings with its namespace or its action,
    /// members with its logged fields, values with what these hold.
    fn before(&self, event: usize) -> Before {
        let tables = &self.unsorted.tables;
        let Some(words) = tables.points.get(event) else {
            let (strings, values) = (tables.strings.len(), tables.values.len());
            return Before { strings, values, members: tables.members.len(), lists: tables.lists.len() };
        };
        let point = Point::read(*words);
        let string = if point.namespace.count == 0 { point.action } else { tables.lists[point.namespace.places()][0] };
        Before {
            strings: string as usize,
            values: self.values_to(event - 1),
            members: members_of(tables, point.logged).first as usize,
            lists: point.namespace.first as usize,
        }
    }

    /// Values up to an event's last: a value's number comes after those of what it holds, and entities come last.
    fn values_to(&self, event: usize) -> usize {
        let tables = &self.unsorted.tables;
        let point = Point::read(tables.points[event]);
        let first = point.entities.first as usize;
        let entities = tables.lists[first..first + 3 * point.entities.count as usize].chunks(3);
        let values = [point.logged, point.context].into_iter().chain(point.principal).chain(point.resource);
        values.chain(entities.map(|entity| entity[2])).max().map_or(0, |last| last as usize + 1)
    }
}

fn members_of(tables: &Tables, object: u32) -> Run {
    match Value::read(tables.values[object as usize]) {
        Some(Value::Object(run)) => run,
        _ => Run::default(),
    }
}
