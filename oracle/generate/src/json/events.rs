//! Random events, at the ends of what the reading allows.

use model::json::{Event, Json, Members};
use model::MOST_DEPTH;

use crate::random::Random;

/// What an event may hold besides the usual.
#[derive(Clone, Copy, PartialEq, Eq)]
pub enum Manner {
    /// Whatever the import takes.
    Any,
    /// No object that begins like a Cedar form and has a second member.
    NoNearForms,
    /// Objects, too, that the export cannot write.
    Ambiguous,
}

const PIECES: [&str; 34] = [
    "",
    "a",
    "b",
    "T",
    "id",
    "naïve",
    "x.y",
    "\"",
    "\\",
    "/",
    "\0",
    "\u{1}",
    "\u{8}",
    "\t",
    "\n",
    "\u{c}",
    "\r",
    "\u{1f}",
    " ",
    "\u{7f}",
    "\u{80}",
    "\u{7ff}",
    "\u{800}",
    "\u{2028}",
    "\u{d7ff}",
    "\u{e000}",
    "\u{feff}",
    "\u{fffd}",
    "\u{ffff}",
    "\u{10000}",
    "\u{1f600}",
    "\u{10ffff}",
    "u0041",
    "}",
];
const NAMES: [&str; 16] =
    ["a", "b", "k", "m", "", "__entity", "__extn", "type", "id", "fn", "arg", "time", "é", "\u{10000}", "a\"b", "a\0"];
const INTS: [i64; 12] = [0, 1, -1, 9, 10, -10, i64::MAX, i64::MIN, i64::MAX - 1, i64::MIN + 1, 1 << 32, -(1 << 31)];
const DECIMALS: [&str; 5] = ["1.0", "-0.5000", "", "no number", "922337203685477.5807"];

pub fn random_event(random: &mut Random, manner: Manner) -> Event {
    let mut making = Making { random, manner, left: 24 };
    let namespace = (0..making.random.pick(&[0, 0, 0, 1, 2])).map(|_| making.text()).collect();
    Event {
        time: making.int(),
        namespace,
        action: making.text(),
        kind: making.text(),
        logged: making.members(1),
        context: making.members(1),
        principal: making.optional(),
        resource: making.optional(),
        entities: (0..making.random.pick(&[0, 0, 0, 1, 2, 3])).map(|_| making.entity()).collect(),
    }
}

struct Making<'a> {
    random: &'a mut Random,
    manner: Manner,
    /// Values that may still be made.
    left: usize,
}

impl Making<'_> {
    fn text(&mut self) -> Vec<u8> {
        let pieces = self.random.pick(&[0, 1, 1, 1, 2, 3]);
        (0..pieces).flat_map(|_| self.random.pick(&PIECES).bytes()).collect()
    }

    fn int(&mut self) -> i64 {
        match self.random.below(3) {
            0 => self.random.pick(&INTS),
            1 => self.random.below(1000) as i64,
            _ => self.random.bits() as i64 >> self.random.below(64),
        }
    }

    fn optional(&mut self) -> Option<Json> {
        (!self.random.percent(40)).then(|| self.value(1))
    }

    fn entity(&mut self) -> (Vec<u8>, Vec<u8>, Members) {
        if self.random.percent(60) {
            let ty = self.random.pick(&["T", "N::T", ""]);
            let id = self.random.pick(&["a", "b", "", "é"]);
            return (ty.into(), id.into(), self.members(1));
        }
        (self.text(), self.text(), self.members(1))
    }

    /// A value at this level; now and then a tower up to the greatest.
    fn value(&mut self, level: u32) -> Json {
        self.left = self.left.saturating_sub(1);
        let deep = level >= MOST_DEPTH || self.left == 0;
        match self.random.below(if deep { 12 } else { 18 }) {
            0 => Json::Null,
            1 => Json::Bool(self.random.percent(50)),
            2..=4 => Json::Int(self.int()),
            5 => Json::Decimal(self.random.pick(&DECIMALS).into()),
            6 | 7 => Json::Entity(self.text(), self.text()),
            8 => Json::Array(Vec::new()),
            9 => Json::Object(Vec::new()),
            10 | 11 => Json::String(self.text()),
            12 if level > 1 && self.random.percent(30) => self.tower(level),
            12..=14 => Json::Array((0..self.random.between(1, 4)).map(|_| self.value(level + 1)).collect()),
            _ => Json::Object(self.members(level)),
        }
    }

    /// Arrays and objects of one item each, up to level 32.
    fn tower(&mut self, level: u32) -> Json {
        if level == MOST_DEPTH {
            return self.value(level);
        }
        let inner = self.tower(level + 1);
        if self.random.percent(50) {
            Json::Array(vec![inner])
        } else {
            Json::Object(vec![("t".into(), inner)])
        }
    }

    fn members(&mut self, level: u32) -> Members {
        let mut members: Members = Vec::new();
        if level >= MOST_DEPTH {
            return members;
        }
        for _ in 0..self.random.pick(&[0, 0, 1, 1, 2, 3, 5]) {
            let name = if self.random.percent(80) { self.random.pick(&NAMES).into() } else { self.text() };
            let near = is_form_name(&name) && self.manner == Manner::NoNearForms;
            if !near && !members.iter().any(|(other, _)| *other == name) {
                members.push((name, self.value(level + 1)));
            }
        }
        if self.manner == Manner::Ambiguous && self.random.percent(5) {
            return vec![("__entity".into(), self.value(level + 1))];
        }
        if is_form_like(&members) && self.manner != Manner::Ambiguous {
            members.push(("z".into(), Json::Null));
        }
        members
    }
}

fn is_form_name(name: &[u8]) -> bool {
    name == b"__entity" || name == b"__extn"
}

/// Whether an object would be read as a Cedar form.
fn is_form_like(members: &Members) -> bool {
    members.len() == 1 && is_form_name(&members[0].0)
}

fn value_is_ambiguous(value: &Json) -> bool {
    match value {
        Json::Array(items) => items.iter().any(value_is_ambiguous),
        Json::Object(members) => members_are_ambiguous(members),
        _ => false,
    }
}

fn members_are_ambiguous(members: &Members) -> bool {
    is_form_like(members) || members.iter().any(|(_, value)| value_is_ambiguous(value))
}

/// Whether the export refuses an event (25).
pub fn is_ambiguous(event: &Event) -> bool {
    members_are_ambiguous(&event.logged)
        || members_are_ambiguous(&event.context)
        || event.principal.as_ref().is_some_and(value_is_ambiguous)
        || event.resource.as_ref().is_some_and(value_is_ambiguous)
        || event.entities.iter().any(|(_, _, attributes)| members_are_ambiguous(attributes))
}

/// The event with members and entities in byte order of their names.
pub fn sorted(event: &Event) -> Event {
    let mut event = event.clone();
    event.logged = sorted_members(&event.logged);
    event.context = sorted_members(&event.context);
    event.principal = event.principal.as_ref().map(sorted_value);
    event.resource = event.resource.as_ref().map(sorted_value);
    for entity in &mut event.entities {
        entity.2 = sorted_members(&entity.2);
    }
    event.entities.sort_by(|left, right| (&left.0, &left.1).cmp(&(&right.0, &right.1)));
    event
}

fn sorted_members(members: &Members) -> Members {
    let mut members: Members = members.iter().map(|(name, value)| (name.clone(), sorted_value(value))).collect();
    members.sort_by(|left, right| left.0.cmp(&right.0));
    members
}

fn sorted_value(value: &Json) -> Json {
    match value {
        Json::Array(items) => Json::Array(items.iter().map(sorted_value).collect()),
        Json::Object(members) => Json::Object(sorted_members(members)),
        _ => value.clone(),
    }
}

/// The line that the export writes for a sorted event (J21), with its end.
pub fn canonical(event: &Event) -> String {
    let names: Vec<String> = event.namespace.iter().map(|name| string(name)).collect();
    let mut line = format!("{{\"time\":{},\"namespace\":[{}]", event.time, names.join(","));
    line += &format!(",\"action\":{},\"kind\":{}", string(&event.action), string(&event.kind));
    line += &format!(",\"logged\":{},\"context\":{}", object(&event.logged), object(&event.context));
    if let Some(principal) = &event.principal {
        line += &format!(",\"principal\":{}", value(principal));
    }
    if let Some(resource) = &event.resource {
        line += &format!(",\"resource\":{}", value(resource));
    }
    let entity = |(ty, id, attributes): &(Vec<u8>, Vec<u8>, Members)| {
        format!("[{},{},{}]", string(ty), string(id), object(attributes))
    };
    let entities: Vec<String> = event.entities.iter().map(entity).collect();
    line + &format!(",\"entities\":[{}]}}\n", entities.join(","))
}

fn string(text: &[u8]) -> String {
    let text = std::str::from_utf8(text).expect("events are made of characters");
    let mut written = String::from("\"");
    for character in text.chars() {
        match character {
            '"' => written += "\\\"",
            '\\' => written += "\\\\",
            '\0'..='\u{1f}' => written += &format!("\\u{:04x}", character as u32),
            _ => written.push(character),
        }
    }
    written + "\""
}

fn value(json: &Json) -> String {
    match json {
        Json::Null => "null".to_string(),
        Json::Bool(yes) => yes.to_string(),
        Json::Int(number) => number.to_string(),
        Json::Decimal(text) => format!("{{\"__extn\":{{\"fn\":\"decimal\",\"arg\":{}}}}}", string(text)),
        Json::String(text) => string(text),
        Json::Entity(ty, id) => format!("{{\"__entity\":{{\"type\":{},\"id\":{}}}}}", string(ty), string(id)),
        Json::Array(items) => format!("[{}]", items.iter().map(value).collect::<Vec<_>>().join(",")),
        Json::Object(members) => object(members),
    }
}

fn object(members: &Members) -> String {
    let members: Vec<String> =
        members.iter().map(|(name, member)| format!("{}:{}", string(name), value(member))).collect();
    format!("{{{}}}", members.join(","))
}
