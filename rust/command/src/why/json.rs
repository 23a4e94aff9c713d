//! `why` as one line of JSON.

use super::timeline::{begins, seconds, Did, Line, Moment, Scan, Seen, Timeline};
use super::told::{action, fields, Told};
use crate::json::Object;
use crate::opened::Opened;
use crate::show;

/// A part: its node, text and verdict, and its timeline or the parts that decided it.
pub fn part(opened: &Opened, told: &Told) -> String {
    let object = Object::new().plain("node", told.node).text("rule", &told.text).plain("answer", told.verdict);
    let bound =
        told.bound.iter().fold(Object::new(), |bound, (name, to)| bound.plain(name, show::json(&opened.case, *to)));
    let object = if told.bound.is_empty() { object } else { object.plain("bound", bound.done()) };
    let object = object.some("how", Some(told.how.as_str()).filter(|how| !how.is_empty()));
    let object = match &told.timeline {
        Some(timeline) => of_timeline(opened, timeline, object),
        None => object,
    };
    if told.parts.is_empty() {
        object.done()
    } else {
        object.list("parts", told.parts.iter().map(|told| part(opened, told))).done()
    }
}

fn of_timeline(opened: &Opened, timeline: &Timeline, object: Object) -> Object {
    let (span, now) = (seconds(timeline.within), opened.time(timeline.asked).0);
    let window = Object::new().plain("seconds", span);
    let from = begins(timeline.within, now).unwrap_or(i64::MIN);
    let window = if span < 0 { window } else { window.plain("from", from).plain("to", now) };
    let kind = match timeline.scan {
        Scan::Formerly => "formerly",
        Scan::Previous => "previous",
        Scan::Since => "since",
    };
    // Of Previous only the point before is looked at.
    let window = if timeline.scan == Scan::Previous { window } else { window.plain("inside", timeline.inside()) };
    let object = object.text("kind", kind).plain("window", window.done());
    let object = object.list("listed", timeline.listed.iter().map(usize::to_string));
    object.list("timeline", timeline.lines.iter().map(|&line| of_line(opened, timeline, line)))
}

fn of_line(opened: &Opened, timeline: &Timeline, line: Line) -> String {
    let says = timeline.says_folded(line);
    match line {
        Line::One(moment) => {
            let (time, date) = opened.time(moment.point);
            let logged = fields(opened, moment.point).iter().fold(Object::new(), |logged, (name, value)| {
                logged.plain(name, show::json(&opened.case, galivodern::Bound::Value(*value)))
            });
            let object = Object::new().plain("point", moment.point).plain("time", time).some("date", date.as_deref());
            let object =
                object.text("event", &action(opened, moment.point, str::to_string)).plain("logged", logged.done());
            let object = object.text("seen", seen(moment.seen)).text("did", did(moment.did));
            let object = match moment.did {
                Did::InVain(failed) | Did::FailedInVain(failed) => object.plain("failed_at", failed),
                _ => object,
            };
            object.text("says", &says).done()
        }
        Line::Alike(Moment { point: from, seen: s, did: d }, to) => {
            let object = Object::new().plain("from", from).plain("to", to).text("seen", seen(s)).text("did", did(d));
            object.text("says", &says).done()
        }
        Line::Mixed { from, to, .. } => Object::new().plain("from", from).plain("to", to).text("says", &says).done(),
    }
}

fn seen(seen: Seen) -> &'static str {
    match seen {
        Seen::Inside => "inside",
        Seen::TooOld => "too old",
        Seen::Later => "later",
    }
}

fn did(did: Did) -> &'static str {
    match did {
        Did::Carried => "carried",
        Did::InVain(_) => "held in vain",
        Did::Failed => "failed",
        Did::FailedInVain(_) => "failed, held in vain",
        Did::LeftHeld => "left held",
        Did::No => "no",
        Did::NotAsked => "not asked",
        Did::Outside => "outside",
    }
}
