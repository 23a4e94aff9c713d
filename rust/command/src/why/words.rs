//! `why` in words: the verdict, and under it a timeline for each part that decided.

use super::timeline::{begins, seconds, Did, Line, Moment, Seen, Timeline};
use super::told::{
    action, before, beginning, bound_words, clock, cut, fields_words, lasting, window_words, yes_or_no, Told,
};
use crate::ask::Question;
use crate::help::wrapped;
use crate::opened::Opened;
use crate::show;

const MOST_FIELDS: usize = 60;

pub fn words(question: &Question, told: &Told) -> String {
    let (opened, point) = (&question.opened, question.point);
    let asked = question.asked.shown();
    let mut text = format!("{}: {asked} at point {point}, {}\n", yes_or_no(told.verdict), at(opened, point));
    push(opened, told, "", &format!("{}{}", told.text, bound_words(opened, &told.bound)), &mut text);
    text
}

/// When a point was.
pub fn at(opened: &Opened, point: usize) -> String {
    let time = clock(opened.time(point).0);
    if time.contains('T') {
        time
    } else {
        format!("time {time}")
    }
}

/// A part, those that decided it below it and further in.
fn push(opened: &Opened, told: &Told, indent: &str, head: &str, text: &mut String) {
    text.push('\n');
    text.push_str(&wrapped(head, indent));
    let inner = format!("{indent}  ");
    if !told.how.is_empty() {
        text.push_str(&wrapped(&format!("{}{}", told.how, if told.parts.is_empty() { "" } else { ":" }), &inner));
    }
    if let Some((left, right)) = &told.sides {
        text.push_str(&wrapped(&format!("left is {left}"), &inner));
        text.push_str(&wrapped(&format!("right is {right}"), &inner));
    }
    if let Some(timeline) = &told.timeline {
        text.push_str(&wrapped(&window_words(opened, timeline), &inner));
        text.push_str(&table(opened, timeline, &inner));
    }
    for part in &told.parts {
        let head = format!("{}: {}{}", yes_or_no(part.verdict), part.text, bound_words(opened, &part.bound));
        push(opened, part, &inner, &head, text);
    }
}

/// A row of the table, before it is laid out; a row with nothing but a remark is an edge of the window.
struct Row {
    mark: &'static str,
    cells: [String; 5],
    says: String,
}

fn table(opened: &Opened, timeline: &Timeline, indent: &str) -> String {
    let mut rows = vec![Row {
        mark: " ",
        cells: ["point", "time", "", "event", "logged"].map(str::to_string),
        says: "what it did".to_string(),
    }];
    let mut edges = Edges::default();
    for &line in &timeline.lines {
        let edge = edges.next(opened, timeline, line);
        rows.extend(edge.map(|says| Row { mark: "-", cells: Default::default(), says }));
        rows.push(row(opened, timeline, line));
    }
    let width = |k: usize| {
        let cells = rows.iter().filter(|row| row.mark != "-" && row.mark != ":");
        cells.map(|row| row.cells[k].chars().count()).max().unwrap_or(0)
    };
    let widths = [0, 1, 2, 3, 4].map(width);
    rows.iter().map(|row| laid_out(row, widths, indent)).collect()
}

fn laid_out(row: &Row, widths: [usize; 5], indent: &str) -> String {
    if row.mark == "-" {
        return format!("{indent}-- {} --\n", row.says);
    }
    if row.mark == ":" {
        return format!("{indent}: {}: {}\n", row.cells[0], row.says);
    }
    let [point, time, before, event, logged] = &row.cells;
    let (mark, numbers, times) = (row.mark, widths[0], widths[1]);
    let mut line = format!("{indent}{mark} {point:>numbers$}  {time:>times$}");
    for (cell, width) in [(before, widths[2]), (event, widths[3]), (logged, widths[4])] {
        if width > 0 {
            line.push_str(&format!("  {cell:<width$}"));
        }
    }
    format!("{}\n", format!("{line}  {}", row.says).trim_end())
}

fn row(opened: &Opened, timeline: &Timeline, line: Line) -> Row {
    let says = timeline.says_folded(line);
    match line {
        Line::One(moment) => {
            let point = moment.point;
            let fields = cut(&fields_words(opened, point), MOST_FIELDS);
            let time = clock(opened.time(point).0);
            let event = action(opened, point, show::name);
            let cells = [point.to_string(), time, before(opened, timeline.asked, point), event, fields];
            Row { mark: mark(moment), cells, says }
        }
        Line::Alike(Moment { point: from, .. }, to) | Line::Mixed { from, to, .. } => {
            let mut cells: [String; 5] = Default::default();
            cells[0] = stretch(from, to);
            Row { mark: ":", cells, says }
        }
    }
}

/// The numbers of a stretch of points.
pub fn stretch(from: usize, to: usize) -> String {
    if from == to {
        from.to_string()
    } else {
        format!("{from} to {to}")
    }
}

fn mark(moment: Moment) -> &'static str {
    match (moment.did, moment.seen) {
        (Did::Carried, _) => "*",
        (Did::InVain(_), _) => "!",
        (Did::Failed | Did::FailedInVain(_), _) => "x",
        (_, Seen::Inside) => "|",
        _ => ".",
    }
}

/// What is written between two lines of which one lies in the window and the other outside, or on its other side.
#[derive(Default)]
pub struct Edges {
    before: Option<Seen>,
    /// Whether a line before lies in the window.
    inside: bool,
}

impl Edges {
    /// What stands before the next line.
    pub fn next(&mut self, opened: &Opened, timeline: &Timeline, line: Line) -> Option<String> {
        let is = match line {
            Line::One(moment) | Line::Alike(moment, _) => Some(moment.seen),
            Line::Mixed { .. } => None,
        };
        let was = std::mem::replace(&mut self.before, is);
        let again = self.inside;
        self.inside |= is == Some(Seen::Inside);
        let (span, now) = (seconds(timeline.within), opened.time(timeline.asked).0);
        let back = lasting(span.unsigned_abs());
        let edge = match (was?, is?) {
            (was, is) if was == is => return None,
            (_, Seen::Inside) if again => "in the window again".to_string(),
            (Seen::TooOld, Seen::Inside) => {
                let from =
                    begins(timeline.within, now).map_or(String::new(), |from| format!(" at {}", beginning(from, now)));
                format!("the window begins{from}, {back} back")
            }
            (_, Seen::Inside) => "in the window".to_string(),
            // A negative window has no edge, the point asked about lies outside, too.
            (_, Seen::TooOld) if span < 0 => return None,
            (_, Seen::TooOld) => format!("more than {back} back"),
            (_, Seen::Later) => format!("stamped later than point {}", timeline.asked),
        };
        Some(edge)
    }
}
