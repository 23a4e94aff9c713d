//! What an unsorted case says: its points as events, and the case that the writer of #101 makes of it.

use std::collections::BTreeMap;

use casefile::{Point, Run, Tables, Value};
use model::json::{Event, Json, Members};

/// The points of a case, sorted or not, in the order of its records.
pub fn points(tables: &Tables) -> Vec<Event> {
    tables.points.iter().map(|&words| event(tables, Point::read(words))).collect()
}

fn event(tables: &Tables, point: Point) -> Event {
    let lists = |run: Run, size: usize| {
        let first = run.first as usize;
        &tables.lists[first..first + size * run.count as usize]
    };
    let entity =
        |words: &[u32]| (tables.string(words[0]).to_vec(), tables.string(words[1]).to_vec(), members(tables, words[2]));
    Event {
        time: point.time,
        namespace: lists(point.namespace, 1).iter().map(|&name| tables.string(name).to_vec()).collect(),
        action: tables.string(point.action).to_vec(),
        kind: tables.string(point.kind).to_vec(),
        logged: members(tables, point.logged),
        context: members(tables, point.context),
        principal: point.principal.map(|number| value(tables, number)),
        resource: point.resource.map(|number| value(tables, number)),
        entities: lists(point.entities, 3).chunks(3).map(entity).collect(),
    }
}

fn members(tables: &Tables, number: u32) -> Members {
    match value(tables, number) {
        Json::Object(members) => members,
        other => panic!("{other:?} is no object"),
    }
}

fn value(tables: &Tables, number: u32) -> Json {
    let text = |string: u32| tables.string(string).to_vec();
    let member = |&[name, number]: &[u32; 2]| (text(name), value(tables, number));
    match Value::read(tables.values[number as usize]).expect("a value of a known kind") {
        Value::Null => Json::Null,
        Value::Bool(yes) => Json::Bool(yes),
        Value::Int(number) => Json::Int(number),
        Value::Decimal(string) => Json::Decimal(text(string)),
        Value::String(string) => Json::String(text(string)),
        Value::Entity(ty, id) => Json::Entity(text(ty), text(id)),
        Value::Array(run) => {
            Json::Array(tables.members[run.places()].iter().map(|&[_, number]| value(tables, number)).collect())
        }
        Value::Object(run) => Json::Object(tables.members[run.places()].iter().map(member).collect()),
    }
}

/// The unsorted case with its strings in byte order, equal ones joined (W2, W3). It has no nodes.
pub fn finished(unsorted: &Tables, marks: &[u8]) -> Tables {
    let texts: Vec<&[u8]> = (0..unsorted.strings.len() as u32).map(|string| unsorted.string(string)).collect();
    let mut numbers: BTreeMap<&[u8], u32> = texts.iter().map(|&text| (text, 0)).collect();
    let mut tables = Tables { strings: Vec::new(), text: Vec::new(), ..unsorted.clone() };
    for (k, (text, number)) in numbers.iter_mut().enumerate() {
        *number = k as u32;
        tables.strings.push([tables.text.len() as u32, text.len() as u32]);
        tables.text.extend(*text);
    }
    let renumber = |word: &mut u32| {
        if let Some(text) = texts.get(*word as usize) {
            *word = numbers[text];
        }
    };
    for words in &mut tables.values {
        let strings = match words[0] {
            3 | 4 => 1,
            5 => 2,
            _ => 0,
        };
        words[1..1 + strings].iter_mut().for_each(renumber);
    }
    tables.members.iter_mut().for_each(|words| renumber(&mut words[0]));
    tables.points.iter_mut().for_each(|words| words[4..6].iter_mut().for_each(renumber));
    for (word, &mark) in tables.lists.iter_mut().zip(marks) {
        if mark != 0 {
            renumber(word);
        }
    }
    tables
}
