//! A rule's parts with all that is told of them, once for words, JSON and picture.

use casefile::text::NodeTexts;
use casefile::{time, Within};
use galivodern::{Bound, PointNo, Value};

use super::timeline::{begins, seconds, Scan, Timeline};
use super::walk::{By, Part};
use crate::ask::Question;
use crate::failure::Failure;
use crate::opened::Opened;
use crate::show;

/// Smaller times are seconds of a bench's own count; later ones are told as dates.
const LEAST_CLOCK: i64 = 100_000_000;

/// A part of the rule, as it is told.
pub struct Told {
    pub node: u32,
    pub text: String,
    pub verdict: bool,
    /// What is bound for it: names and values.
    pub bound: Vec<(String, Bound)>,
    /// What decided it, in words; nothing where a timeline tells it.
    pub how: String,
    pub timeline: Option<Timeline>,
    /// Left and right of a Since.
    pub sides: Option<(String, String)>,
    pub parts: Vec<Told>,
}

impl Told {
    pub fn of(question: &Question, part: &Part) -> Result<Told, Failure> {
        let opened = &question.opened;
        let texts = NodeTexts::of(&opened.tables, opened.names.given());
        let texts = texts.map_err(|message| Failure::of_file(&opened.file, message))?;
        told(question, &texts, part).map_err(|message| Failure::of_file(&opened.file, message))
    }
}

fn told(question: &Question, texts: &NodeTexts, part: &Part) -> Result<Told, String> {
    let opened = &question.opened;
    let mut told = Told {
        node: part.node,
        text: texts.node(part.node)?,
        verdict: part.verdict,
        bound: part.bound.iter().map(|&(variable, bound)| (opened.variable_name(variable), bound)).collect(),
        how: String::new(),
        timeline: None,
        sides: None,
        parts: Vec::new(),
    };
    match &part.by {
        By::Points(carried) => {
            told.timeline = Some(Timeline::of(opened, part.node, question.point, carried));
            if let Some(casefile::Node::Since { left, right, .. }) =
                casefile::Node::read(opened.tables.nodes[part.node as usize])
            {
                told.sides = Some((texts.node(left)?, texts.node(right)?));
            }
        }
        By::Parts(how, parts) => {
            told.how = how.to_string();
            told.parts = parts.iter().map(|part| self::told(question, texts, part)).collect::<Result<_, _>>()?;
        }
        By::Itself { variables } => {
            let nothing_past = if *variables { "" } else { "nothing past decided it: " };
            told.how = format!("{nothing_past}it is asked of point {} itself", question.point);
        }
        By::Numbers(numbers) => {
            let number = |&(node, number): &(u32, Option<i64>)| {
                let is = number.map_or("more than the limits allow to tell".to_string(), |number| number.to_string());
                texts.node(node).map(|text| format!("{text} is {is}"))
            };
            let numbers: Vec<String> = numbers.iter().map(number).collect::<Result<_, _>>()?;
            told.how = format!("it compares what is counted: {}", numbers.join("; "));
        }
        By::Whole(why) => told.how = format!("its parts cannot be shown apart: {why}"),
    }
    Ok(told)
}

/// What is bound, as ` with b = "b1", n = 3`; nothing where nothing is.
pub fn bound_words(opened: &Opened, bound: &[(String, Bound)]) -> String {
    let words: Vec<String> =
        bound.iter().map(|(name, bound)| format!("{name} = {}", show::text(&opened.case, Some(*bound)))).collect();
    if words.is_empty() {
        String::new()
    } else {
        format!(" with {}", words.join(", "))
    }
}

/// A time as it is read: a date where it is one of today's, else seconds.
pub fn clock(seconds: i64) -> String {
    let date = if seconds < LEAST_CLOCK { None } else { time::written(seconds) };
    date.unwrap_or_else(|| seconds.to_string())
}

/// The beginning of a window, as the time that it is seen from is read: before 1970, too.
pub fn beginning(from: i64, now: i64) -> String {
    let date = time::written(now).filter(|_| now >= LEAST_CLOCK).and_then(|_| time::written(from));
    date.unwrap_or_else(|| clock(from))
}

/// So many seconds, to the second: the edge of a window lies between two of them.
pub fn lasting(seconds: u64) -> String {
    let mut left = seconds;
    let mut parts = Vec::new();
    for (unit, letter) in [(86_400, 'd'), (3_600, 'h'), (60, 'm'), (1, 's')] {
        if left >= unit {
            parts.push(format!("{}{letter}", left / unit));
        }
        left %= unit;
    }
    if parts.is_empty() {
        "0s".to_string()
    } else {
        parts.join(" ")
    }
}

/// How long before the point asked about a point was stamped; nothing for that point itself.
pub fn before(opened: &Opened, asked: usize, point: usize) -> String {
    let (now, then) = (opened.time(asked).0, opened.time(point).0);
    if point == asked {
        return String::new();
    }
    format!("{} {}", lasting(now.abs_diff(then)), if then <= now { "before" } else { "after" })
}

/// A window as a rule writes it.
pub fn within(within: Within) -> String {
    format!("within {}{}", within.amount, ["s", "m", "h", "d"][within.unit as usize & 3])
}

/// The window in words: its times, and how many points lie in it.
pub fn window_words(opened: &Opened, timeline: &Timeline) -> String {
    let (span, now) = (seconds(timeline.within), opened.time(timeline.asked).0);
    let within = within(timeline.within);
    if span < 0 {
        return format!("{within}: no point lies in a negative window");
    }
    let from = begins(timeline.within, now).map_or("the beginning of time".to_string(), |from| beginning(from, now));
    let times = format!("{within}: from {from} to {}", clock(now));
    if timeline.scan == Scan::Previous {
        return times;
    }
    let (inside, all) = (timeline.inside(), timeline.moments.len());
    format!("{times}; {inside} of the {all} points up to point {} lie in it", timeline.asked)
}

/// What happened at a point: the action with its namespace and kind, each name as it is told.
pub fn action(opened: &Opened, point: usize, told: fn(&str) -> String) -> String {
    let Some(point) = opened.case.point(PointNo(point)) else { return String::new() };
    let names: Vec<String> = point.namespace().chain([point.action()]).map(told).collect();
    let kind = if point.kind() == "request" { String::new() } else { format!("/{}", told(point.kind())) };
    names.join("::") + &kind
}

/// The logged fields of a point, as names and values of the case.
pub fn fields(opened: &Opened, point: usize) -> Vec<(String, u32)> {
    let logged = casefile::Point::read(opened.tables.points[point]).logged;
    match opened.case.value(logged) {
        Some(Value::Object(members)) => members.into_iter().map(|(name, value)| (name.to_string(), value)).collect(),
        _ => Vec::new(),
    }
}

/// The logged fields in words, as `board: "b1", n: 3`.
pub fn fields_words(opened: &Opened, point: usize) -> String {
    let word = |(field, value): &(String, u32)| {
        format!("{}: {}", show::name(field), show::text(&opened.case, Some(Bound::Value(*value))))
    };
    fields(opened, point).iter().map(word).collect::<Vec<_>>().join(", ")
}

/// A text cut to so many characters.
pub fn cut(text: &str, most: usize) -> String {
    if text.chars().count() <= most {
        text.to_string()
    } else {
        text.chars().take(most - 1).chain(['…']).collect()
    }
}

pub fn yes_or_no(yes: bool) -> &'static str {
    if yes {
        "yes"
    } else {
        "no"
    }
}
