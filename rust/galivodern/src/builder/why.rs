//! What a refusal of the writer is about. The writer alone says whether a case is refused; this looks for a record
//! that explains it.

use casefile::{Node, Point, Tables, Unsorted, Value};

use crate::refusal::Refusal;

const MOST_RECORDS: usize = 16_384;
const MOST_NODES: usize = 1_024;
const MOST_VARIABLES: usize = 16;
const MOST_BYTES: usize = 4_194_304;
const MOST_DEPTH: u32 = 32;
const MOST_HEIGHT: u32 = 64;

pub fn why(refusal: Refusal, unsorted: &Unsorted) -> Option<String> {
    let tables = &unsorted.tables;
    match refusal {
        Refusal::TooLarge => too_large(tables),
        Refusal::BadValues => {
            let deep = depths(tables).iter().position(|&depth| depth > MOST_DEPTH)?;
            Some(format!("value {deep} is more than {MOST_DEPTH} deep"))
        }
        Refusal::BadPoints => bad_point(tables),
        Refusal::BadNodes => bad_node(tables),
        _ => None,
    }
}

fn too_large(tables: &Tables) -> Option<String> {
    let counts = [
        (tables.strings.len(), MOST_RECORDS, "strings"),
        (tables.values.len(), MOST_RECORDS, "values"),
        (tables.points.len(), MOST_RECORDS, "points"),
        (tables.nodes.len(), MOST_NODES, "conditions and terms"),
        (tables.variables as usize, MOST_VARIABLES, "variables"),
        (tables.encode().len(), MOST_BYTES, "bytes"),
    ];
    let (count, most, what) = counts.into_iter().find(|(count, most, _)| count > most)?;
    Some(format!("{count} {what}, and at most {most} are allowed"))
}

fn value(tables: &Tables, number: u32) -> Value {
    Value::read(tables.values[number as usize]).expect("a builder makes known kinds")
}

/// What an array or an object holds: names and values.
fn members(tables: &Tables, number: u32) -> &[[u32; 2]] {
    match value(tables, number) {
        Value::Array(run) | Value::Object(run) => &tables.members[run.places()],
        _ => &[],
    }
}

fn depths(tables: &Tables) -> Vec<u32> {
    let mut depths: Vec<u32> = Vec::new();
    for number in 0..tables.values.len() as u32 {
        let below = members(tables, number).iter().map(|[_, child]| depths[*child as usize]).max();
        depths.push(1 + below.unwrap_or(0));
    }
    depths
}

/// For each value whether something holds of it or of what is in it.
fn anywhere(tables: &Tables, holds: impl Fn(u32) -> bool) -> Vec<bool> {
    let mut found: Vec<bool> = Vec::new();
    for number in 0..tables.values.len() as u32 {
        let below = members(tables, number).iter().any(|[_, child]| found[*child as usize]);
        found.push(below || holds(number));
    }
    found
}

fn bad_point(tables: &Tables) -> Option<String> {
    let text = |string: u32| String::from_utf8_lossy(tables.string(string)).into_owned();
    tables.points.iter().enumerate().find_map(|(number, words)| {
        let point = Point::read(*words);
        let first = point.entities.first as usize;
        let entities = tables.lists[first..first + 3 * point.entities.count as usize].chunks(3);
        entities
            .into_iter()
            .map(|entity| entity[0])
            .find(|&ty| tables.string(ty).contains(&b'"'))
            .map(|ty| format!("the type of an entity of point {number} holds a quotation mark: {}", text(ty)))
    })
}

fn bad_node(tables: &Tables) -> Option<String> {
    let no_literal = |number: u32| matches!(value(tables, number), Value::Null | Value::Object(_));
    let no_literal = anywhere(tables, no_literal);
    let mut heights: Vec<u32> = Vec::new();
    for &words in &tables.nodes {
        let node = Node::read(words).expect("a builder makes known kinds");
        if matches!(node, Node::Literal { value } if no_literal[value as usize]) {
            return Some("a literal holds Null or an object".to_string());
        }
        let terms = |run: casefile::Run| {
            let first = run.first as usize;
            tables.lists[first..first + 3 * run.count as usize].chunks(3).map(|argument| argument[2]).collect()
        };
        let below = node.children(terms).iter().map(|&child| heights[child as usize]).max();
        heights.push(1 + below.unwrap_or(0));
        if heights.last() > Some(&MOST_HEIGHT) {
            return Some(format!("a condition is more than {MOST_HEIGHT} high"));
        }
    }
    None
}
