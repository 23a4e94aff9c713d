//! `why --svg`: the timelines as a picture. It needs no network and no fonts of its own: texts stand in whatever font
//! of even width the reader has, and are cut to the room that they have.

use std::collections::BTreeSet;

use super::timeline::{begins, seconds, Did, Line, Moment, Seen, Timeline};
use super::told::{action, before, bound_words, clock, fields_words, window_words, yes_or_no, Told};
use super::words::{at, stretch, Edges};
use crate::ask::Question;
use crate::opened::Opened;
use crate::show;

/// The size of the font, and the width of its characters, a little more than fonts of even width have.
const SIZE: f64 = 13.0;
const CHARACTER: f64 = 8.0;
const ROW: f64 = 24.0;
const MARGIN: f64 = 24.0;
const INDENT: f64 = 22.0;
const LEAST_WIDTH: f64 = 800.0;
const MOST_FIELDS: usize = 48;
const MOST_EVENT: usize = 28;
const MOST_SAYS: usize = 72;
/// Between two columns of a table.
const GAP: f64 = 16.0;
/// From the left end of a table to its first column: the axis stands there.
const AXIS: f64 = 34.0;
/// Signs on an axis stand at least so far apart.
const SIGN: f64 = 18.0;

const INK: &str = "#1b1f24";
const GREY: &str = "#667080";
const PALE: &str = "#c3cad3";
const TICK: &str = "#7d8a9c";
const BAND: &str = "#dbe9fb";
const YES: &str = "#1a7f37";
const NO: &str = "#c62828";
const VAIN: &str = "#b26a00";

/// The whole picture.
pub fn drawn(question: &Question, told: &Told) -> String {
    let opened = &question.opened;
    let width = wanted_width(opened, told, 0.0).max(LEAST_WIDTH);
    let mut drawing = Drawing { opened, width, y: MARGIN, body: String::new() };
    drawing.title(question, told);
    drawing.part(told, MARGIN, true);
    let height = drawing.y + MARGIN / 2.0;
    let title = format!("{}: {} at point {}", yes_or_no(told.verdict), question.asked.shown(), question.point);
    format!(
        "<svg xmlns=\"http://www.w3.org/2000/svg\" width=\"{width:.0}\" height=\"{height:.0}\" \
         viewBox=\"0 0 {width:.0} {height:.0}\" role=\"img\" font-family=\"monospace\" font-size=\"{SIZE}\">\n\
         <title>{}</title>\n<rect width=\"100%\" height=\"100%\" fill=\"#ffffff\"/>\n{}</svg>\n",
        escaped(&title),
        drawing.body
    )
}

/// The width that the widest table needs.
fn wanted_width(opened: &Opened, told: &Told, indent: f64) -> f64 {
    let own = told.timeline.as_ref().map_or(0.0, |timeline| {
        let rows = rows(opened, timeline);
        2.0 * MARGIN + indent + AXIS + Columns::of(&rows).width
    });
    told.parts.iter().map(|part| wanted_width(opened, part, indent + INDENT)).fold(own, f64::max)
}

/// A row of a table.
enum Row {
    /// Point, time, how long before, event, logged fields, and what it did.
    Point(Moment, [String; 6]),
    Folded(Option<Seen>, String),
    Edge(String),
}

fn rows(opened: &Opened, timeline: &Timeline) -> Vec<Row> {
    let (mut rows, mut edges) = (Vec::new(), Edges::default());
    for &line in &timeline.lines {
        rows.extend(edges.next(opened, timeline, line).map(Row::Edge));
        let says = timeline.says_folded(line);
        rows.push(match line {
            Line::One(moment) => {
                let point = moment.point;
                let event = cut(&action(opened, point, show::name), MOST_EVENT);
                let fields = cut(&fields_words(opened, point), MOST_FIELDS);
                let before = before(opened, timeline.asked, point);
                let time = clock(opened.time(point).0);
                Row::Point(moment, [point.to_string(), time, before, event, fields, cut(&says, MOST_SAYS)])
            }
            Line::Alike(first, to) => Row::Folded(Some(first.seen), format!("{}: {says}", stretch(first.point, to))),
            Line::Mixed { from, to, .. } => Row::Folded(None, format!("{}: {says}", stretch(from, to))),
        });
    }
    rows
}

/// Where the columns of a table begin, seen from its first.
struct Columns {
    starts: [f64; 6],
    widths: [f64; 6],
    width: f64,
}

impl Columns {
    fn of(rows: &[Row]) -> Columns {
        let (mut widths, mut wide) = ([0.0_f64; 6], 0.0_f64);
        for row in rows {
            match row {
                Row::Point(_, cells) => {
                    cells.iter().zip(&mut widths).for_each(|(cell, width)| *width = width.max(length(cell)));
                }
                Row::Folded(_, text) | Row::Edge(text) => wide = wide.max(length(text) + 2.0 * GAP),
            }
        }
        let mut starts = [0.0; 6];
        let mut at = 0.0;
        for k in 0..6 {
            starts[k] = at;
            at += if widths[k] > 0.0 { widths[k] + GAP } else { 0.0 };
        }
        Columns { starts, widths, width: at.max(wide) }
    }
}

struct Drawing<'a> {
    opened: &'a Opened,
    width: f64,
    /// The lower end of what is drawn so far.
    y: f64,
    body: String,
}

impl Drawing<'_> {
    fn push(&mut self, element: String) {
        self.body.push_str(&element);
        self.body.push('\n');
    }

    fn text(&mut self, x: f64, y: f64, style: &str, text: &str) {
        if !text.is_empty() {
            // Runs of blanks stay as they are.
            self.push(format!(
                "<text x=\"{x:.1}\" y=\"{y:.1}\" xml:space=\"preserve\" {style}>{}</text>",
                escaped(text)
            ));
        }
    }

    fn line(&mut self, [x1, y1, x2, y2]: [f64; 4], style: &str) {
        self.push(format!("<line x1=\"{x1:.1}\" y1=\"{y1:.1}\" x2=\"{x2:.1}\" y2=\"{y2:.1}\" {style}/>"));
    }

    fn rect(&mut self, [x, y, width, height]: [f64; 4], style: &str) {
        self.push(format!("<rect x=\"{x:.1}\" y=\"{y:.1}\" width=\"{width:.1}\" height=\"{height:.1}\" {style}/>"));
    }

    fn circle(&mut self, x: f64, y: f64, r: f64, style: &str) {
        self.push(format!("<circle cx=\"{x:.1}\" cy=\"{y:.1}\" r=\"{r:.1}\" {style}/>"));
    }

    /// As many characters as stand between here and the right margin.
    fn characters(&self, x: f64) -> usize {
        ((self.width - MARGIN - x) / CHARACTER).max(12.0) as usize
    }

    /// A text in as many lines as it takes.
    fn wrapped(&mut self, x: f64, style: &str, text: &str) {
        for line in in_lines(text, self.characters(x)) {
            self.y += 18.0;
            self.text(x, self.y, style, &line);
        }
    }

    fn title(&mut self, question: &Question, told: &Told) {
        let title =
            format!("{} at point {}, {}", question.asked.shown(), question.point, at(self.opened, question.point));
        self.y += 12.0;
        self.badge(MARGIN, told.verdict);
        let most = self.characters(MARGIN + 52.0);
        self.text(MARGIN + 52.0, self.y, &format!("fill=\"{INK}\" font-weight=\"bold\""), &cut(&title, most));
        self.y += 18.0;
        let most = self.characters(MARGIN);
        self.text(MARGIN, self.y, &format!("fill=\"{GREY}\""), &cut(&self.opened.file.clone(), most));
    }

    /// Yes or no, on the line that is written next.
    fn badge(&mut self, x: f64, verdict: bool) {
        let colour = if verdict { YES } else { NO };
        self.rect([x, self.y - 14.0, 40.0, 19.0], &format!("rx=\"4\" fill=\"{colour}\""));
        let style = "fill=\"#ffffff\" font-weight=\"bold\" text-anchor=\"middle\"";
        self.text(x + 20.0, self.y, style, yes_or_no(verdict));
    }

    /// A part, its timeline, and the parts that decided it. The verdict of the whole stands in the title.
    fn part(&mut self, told: &Told, x: f64, whole: bool) {
        self.y += 16.0;
        if !whole {
            self.y += 18.0;
            self.badge(x, told.verdict);
            self.y -= 18.0;
        }
        let text = format!("{}{}", told.text, bound_words(self.opened, &told.bound));
        self.wrapped(x + 52.0, &format!("fill=\"{INK}\""), &text);
        self.y += 2.0;
        let grey = format!("fill=\"{GREY}\"");
        self.wrapped(x + 52.0, &grey, &told.how);
        if let Some((left, right)) = &told.sides {
            self.wrapped(x + 52.0, &grey, &format!("left is {left}"));
            self.wrapped(x + 52.0, &grey, &format!("right is {right}"));
        }
        if let Some(timeline) = &told.timeline {
            self.wrapped(x + 52.0, &grey, &window_words(self.opened, timeline));
            self.strip(timeline, x);
            self.table(timeline, x);
        }
        told.parts.iter().for_each(|part| self.part(part, x + INDENT, false));
    }

    /// All points on one axis of time, with the window behind them.
    fn strip(&mut self, timeline: &Timeline, x: f64) {
        let scale = Scale::of(self.opened, timeline, x + 12.0, self.width - MARGIN - 12.0);
        // What carried the yes is named above the axis.
        let axis = self.y + if timeline.verdict { 46.0 } else { 32.0 };
        if let Some((from, to)) = scale.window {
            self.rect([from, axis - 11.0, (to - from).max(2.0), 22.0], &format!("fill=\"{BAND}\""));
            if scale.begins {
                self.line(
                    [from, axis - 14.0, from, axis + 14.0],
                    &format!("stroke=\"{GREY}\" stroke-dasharray=\"3 2\""),
                );
            }
        }
        self.line([scale.left, axis, scale.right, axis], &format!("stroke=\"{PALE}\""));
        self.ticks(timeline, &scale, axis);
        self.strip_marks(timeline, &scale, axis);
        self.strip_labels(timeline, &scale, axis);
        self.y = axis + 38.0;
    }

    /// A tick for each point, one a pixel.
    fn ticks(&mut self, timeline: &Timeline, scale: &Scale, axis: f64) {
        let mut drawn = BTreeSet::new();
        for moment in &timeline.moments {
            let at = scale.at(self.opened.time(moment.point).0).round();
            if drawn.insert(at as i64) {
                let colour = if moment.seen == Seen::Inside { TICK } else { PALE };
                self.line([at, axis - 4.0, at, axis + 4.0], &format!("stroke=\"{colour}\""));
            }
        }
    }

    /// What decided, over the ticks: as signs, and as mere ticks where signs would cover each other.
    fn strip_marks(&mut self, timeline: &Timeline, scale: &Scale, axis: f64) {
        let mut signs: Vec<f64> = Vec::new();
        let mut ticks = BTreeSet::new();
        let (carried, others): (Vec<&Moment>, Vec<&Moment>) =
            timeline.moments.iter().rev().partition(|moment| moment.did == Did::Carried);
        for moment in carried.into_iter().chain(others) {
            let Some(colour) = colour(moment.did) else { continue };
            let at = scale.at(self.opened.time(moment.point).0);
            if signs.iter().all(|sign| (sign - at).abs() >= SIGN) {
                self.mark(moment.did, at, axis);
                signs.push(at);
            } else if signs.iter().all(|sign| (sign - at).abs() >= SIGN / 2.0) && ticks.insert(at.round() as i64) {
                self.line([at, axis - 8.0, at, axis + 8.0], &format!("stroke=\"{colour}\""));
            }
        }
        let at = scale.at(self.opened.time(timeline.asked).0);
        let (left, right, top, tip) = (at - 5.0, at + 5.0, axis - 19.0, axis - 10.0);
        self.push(format!("<path d=\"M{left:.1} {top:.1} L{right:.1} {top:.1} L{at:.1} {tip:.1} Z\" fill=\"{INK}\"/>"));
    }

    fn strip_labels(&mut self, timeline: &Timeline, scale: &Scale, axis: f64) {
        let (first, last) = (clock(scale.first as i64), clock(scale.last as i64));
        let style = format!("fill=\"{GREY}\" font-size=\"11\"");
        self.text(scale.left, axis + 26.0, &style, &first);
        if first != last {
            self.text(scale.right, axis + 26.0, &format!("{style} text-anchor=\"end\""), &last);
        }
        if let Some(by) = timeline.listed.first().filter(|_| timeline.verdict) {
            let label = format!("point {by} carried the yes");
            let half = length(&label) / 2.0;
            let at = scale.at(self.opened.time(*by).0).clamp(scale.left + half, scale.right - half);
            let style = format!("fill=\"{YES}\" font-size=\"11\" text-anchor=\"middle\"");
            self.text(at, axis - 24.0, &style, &label);
        }
    }

    /// What a point did, as a sign: a disc, a ring, a cross; nothing for the others.
    fn mark(&mut self, did: Did, x: f64, y: f64) {
        match did {
            Did::Carried => self.circle(x, y, 6.5, &format!("fill=\"{YES}\"")),
            Did::InVain(_) => {
                self.circle(x, y, 5.5, &format!("fill=\"#ffffff\" stroke=\"{VAIN}\" stroke-width=\"2.5\""))
            }
            Did::Failed => self.cross(x, y),
            Did::FailedInVain(_) => {
                self.circle(x, y, 8.0, &format!("fill=\"#ffffff\" stroke=\"{VAIN}\" stroke-width=\"2\""));
                self.cross(x, y);
            }
            _ => {}
        }
    }

    fn cross(&mut self, x: f64, y: f64) {
        let style = format!("stroke=\"{NO}\" stroke-width=\"2.5\"");
        self.line([x - 4.5, y - 4.5, x + 4.5, y + 4.5], &style);
        self.line([x - 4.5, y + 4.5, x + 4.5, y - 4.5], &style);
    }

    /// The lines of a timeline, one under the other.
    fn table(&mut self, timeline: &Timeline, x: f64) {
        let rows = rows(self.opened, timeline);
        let columns = Columns::of(&rows);
        for row in &rows {
            let (top, middle, text) = (self.y, self.y + ROW / 2.0, self.y + ROW / 2.0 + 4.5);
            let inside = match row {
                Row::Point(moment, _) => moment.seen == Seen::Inside,
                Row::Folded(seen, _) => *seen == Some(Seen::Inside),
                Row::Edge(_) => false,
            };
            if inside {
                self.rect([x + 2.0, top, 20.0, ROW], &format!("fill=\"{BAND}\""));
            }
            match row {
                Row::Point(moment, cells) => self.point(timeline, *moment, cells, &columns, x, middle),
                Row::Folded(_, says) => {
                    let dashed = format!("stroke=\"{PALE}\" stroke-dasharray=\"2 4\"");
                    self.line([x + 12.0, top, x + 12.0, top + ROW], &dashed);
                    self.text(x + AXIS, text, &format!("fill=\"{GREY}\" font-style=\"italic\""), says);
                }
                Row::Edge(says) => {
                    self.line(
                        [x, middle, x + AXIS - 8.0, middle],
                        &format!("stroke=\"{GREY}\" stroke-dasharray=\"3 2\""),
                    );
                    self.text(x + AXIS, text, &format!("fill=\"{GREY}\""), says);
                }
            }
            self.y += ROW;
        }
    }

    fn point(&mut self, timeline: &Timeline, moment: Moment, cells: &[String; 6], columns: &Columns, x: f64, y: f64) {
        self.line([x + 12.0, y - ROW / 2.0, x + 12.0, y + ROW / 2.0], &format!("stroke=\"{PALE}\""));
        let dot = if moment.seen == Seen::Inside { TICK } else { PALE };
        match colour(moment.did) {
            Some(_) => self.mark(moment.did, x + 12.0, y),
            None if moment.point == timeline.asked => {
                self.circle(x + 12.0, y, 4.5, &format!("fill=\"#ffffff\" stroke=\"{INK}\" stroke-width=\"2\""));
            }
            None => self.circle(x + 12.0, y, 3.0, &format!("fill=\"{dot}\"")),
        }
        let plain = if moment.seen == Seen::Inside || moment.point == timeline.asked { INK } else { GREY };
        let ink = colour(moment.did).unwrap_or(plain);
        for (k, cell) in cells.iter().enumerate() {
            // Numbers stand at the right of their column.
            let (at, anchor) = match k {
                0 | 1 => (columns.starts[k] + columns.widths[k], " text-anchor=\"end\""),
                _ => (columns.starts[k], ""),
            };
            let weight = if k == 5 && colour(moment.did).is_some() { " font-weight=\"bold\"" } else { "" };
            let fill = if k == 5 { ink } else { plain };
            self.text(x + AXIS + at, y + 4.5, &format!("fill=\"{fill}\"{anchor}{weight}"), cell);
        }
    }
}

/// The colour of what decided.
fn colour(did: Did) -> Option<&'static str> {
    match did {
        Did::Carried => Some(YES),
        Did::InVain(_) => Some(VAIN),
        Did::Failed | Did::FailedInVain(_) => Some(NO),
        _ => None,
    }
}

/// From times to places on an axis.
struct Scale {
    left: f64,
    right: f64,
    first: i128,
    last: i128,
    /// Where the window lies, as far as it is drawn.
    window: Option<(f64, f64)>,
    /// Whether its beginning is drawn, too.
    begins: bool,
}

impl Scale {
    fn of(opened: &Opened, timeline: &Timeline, left: f64, right: f64) -> Scale {
        let times = || timeline.moments.iter().map(|moment| i128::from(opened.time(moment.point).0));
        let (first, last) = (times().min().unwrap_or(0), times().max().unwrap_or(0));
        let mut scale = Scale { left, right, first, last, window: None, begins: false };
        let now = opened.time(timeline.asked).0;
        if seconds(timeline.within) >= 0 {
            let from = begins(timeline.within, now).filter(|&from| i128::from(from) >= first);
            scale.begins = from.is_some();
            scale.window = Some((from.map_or(left - 8.0, |from| scale.at(from)), scale.at(now)));
        }
        scale
    }

    fn at(&self, time: i64) -> f64 {
        self.place(i128::from(time))
    }

    fn place(&self, time: i128) -> f64 {
        let whole = self.last - self.first;
        if whole == 0 {
            return (self.left + self.right) / 2.0;
        }
        self.left + (self.right - self.left) * ((time - self.first) as f64 / whole as f64)
    }
}

/// Columns that a character takes: those of far-eastern writing take two.
fn columns(c: char) -> usize {
    1 + usize::from(c >= '\u{1100}')
}

fn length(text: &str) -> f64 {
    CHARACTER * text.chars().map(columns).sum::<usize>() as f64
}

/// A text cut to so many columns.
fn cut(text: &str, most: usize) -> String {
    let (mut kept, mut taken) = (String::new(), 0);
    for c in text.chars() {
        taken += columns(c);
        if taken > most {
            kept.pop();
            kept.push('…');
            return kept;
        }
        kept.push(c);
    }
    kept
}

/// A text in lines of so many columns, broken at single blanks; a longer word is cut.
fn in_lines(text: &str, most: usize) -> Vec<String> {
    let mut lines: Vec<String> = Vec::new();
    let wide = |text: &str| text.chars().map(columns).sum::<usize>();
    for word in text.split(' ').filter(|_| !text.is_empty()) {
        let word = cut(word, most);
        match lines.last_mut() {
            Some(line) if wide(line) + 1 + wide(&word) <= most => {
                line.push(' ');
                line.push_str(&word);
            }
            _ => lines.push(word),
        }
    }
    lines
}

/// Text that is no markup; what XML cannot hold is a question mark.
fn escaped(text: &str) -> String {
    let mut out = String::new();
    for c in text.chars() {
        match c {
            '&' => out.push_str("&amp;"),
            '<' => out.push_str("&lt;"),
            '>' => out.push_str("&gt;"),
            '"' => out.push_str("&quot;"),
            '\t' | '\n' | '\r' => out.push(' '),
            c if c < ' ' || c == '\u{fffe}' || c == '\u{ffff}' => out.push('?'),
            c => out.push(c),
        }
    }
    out
}
