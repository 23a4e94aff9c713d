//! The timeline of one Formerly, Previous or Since: what each point did, and the long stretches folded. All of it is
//! read off the list that the proved call gave, and off the window.

use casefile::{Node, Within};
use galivodern::{Carried, Window};

use crate::opened::Opened;

/// In a shorter log nothing is folded.
const ALL_SHOWN: usize = 12;
/// A stretch of alike points that is longer is folded.
const LONG: usize = 4;
/// No timeline has more lines: the earliest and the latest stay, and what carried the yes.
const MOST_LINES: usize = 36;
const EARLIEST: usize = 8;
const LATEST: usize = 24;

/// What a point did.
#[derive(Clone, Copy, Debug, PartialEq, Eq)]
pub enum Did {
    /// It carried the yes.
    Carried,
    /// Right held at it, in vain: left failed at this later point.
    InVain(usize),
    /// Left failed at it, and an earlier point was in vain.
    Failed,
    /// Both: right held at it, left failed at it and at this later point.
    FailedInVain(usize),
    /// Left was asked and held.
    LeftHeld,
    /// It was asked and did not hold.
    No,
    /// It lies in the window and was not asked.
    NotAsked,
    /// It lies outside the window.
    Outside,
}

/// Where a point lies, seen from the point asked about.
#[derive(Clone, Copy, Debug, PartialEq, Eq)]
pub enum Seen {
    Inside,
    TooOld,
    Later,
}

/// One point of a timeline.
#[derive(Clone, Copy, Debug, PartialEq, Eq)]
pub struct Moment {
    pub point: usize,
    pub seen: Seen,
    pub did: Did,
}

/// A line of a timeline: a point, or a stretch of points.
#[derive(Clone, Copy, Debug, PartialEq, Eq)]
pub enum Line {
    One(Moment),
    /// From this point to that one, all alike, or of several sorts.
    Alike(Moment, usize),
    Mixed {
        from: usize,
        to: usize,
        decided: Decided,
    },
}

/// How many points of a stretch have a part in what decided.
#[derive(Clone, Copy, Debug, Default, PartialEq, Eq)]
pub struct Decided {
    /// Right held at them, in vain.
    pub in_vain: usize,
    /// Left failed at them.
    pub failed: usize,
    /// Left held at them.
    pub held: usize,
}

impl Decided {
    fn of(moment: Moment, points: usize) -> Decided {
        let is = |did: bool| if did { points } else { 0 };
        Decided {
            in_vain: is(matches!(moment.did, Did::InVain(_) | Did::FailedInVain(_))),
            failed: is(matches!(moment.did, Did::Failed | Did::FailedInVain(_))),
            held: is(moment.did == Did::LeftHeld),
        }
    }

    fn and(self, more: Decided) -> Decided {
        Decided { in_vain: self.in_vain + more.in_vain, failed: self.failed + more.failed, held: self.held + more.held }
    }

    /// What stands behind the number of points.
    fn says(self) -> String {
        let kinds = [
            (self.in_vain, "right held, but left failed later"),
            (self.failed, "left failed"),
            (self.held, "left held"),
        ];
        let parts: Vec<String> =
            kinds.iter().filter(|(count, _)| *count > 0).map(|(count, did)| format!("; at {count} {did}")).collect();
        if parts.is_empty() {
            ", none of which decided it".to_string()
        } else {
            parts.concat()
        }
    }
}

/// Which operator a timeline is of.
#[derive(Clone, Copy, Debug, PartialEq, Eq)]
pub enum Scan {
    Formerly,
    Previous,
    Since,
}

pub struct Timeline {
    pub scan: Scan,
    pub within: Within,
    /// The point asked about.
    pub asked: usize,
    pub verdict: bool,
    /// What the call listed.
    pub listed: Vec<usize>,
    /// Every point up to the one asked about; of Previous the last two.
    pub moments: Vec<Moment>,
    pub lines: Vec<Line>,
}

impl Timeline {
    /// Of a node that scans, by what it listed at a point.
    pub fn of(opened: &Opened, node: u32, asked: usize, carried: &Carried) -> Timeline {
        let (scan, within) = match Node::read(opened.tables.nodes[node as usize]) {
            Some(Node::Previous { within, .. }) => (Scan::Previous, within),
            Some(Node::Since { within, .. }) => (Scan::Since, within),
            Some(Node::Formerly { within, .. }) => (Scan::Formerly, within),
            other => unreachable!("{other:?} is no scan, and the call would have refused it"),
        };
        let now = opened.time(asked).0;
        let seen = |point: usize| match Window::of(seconds(within), now, opened.time(point).0) {
            Window::Inside(_) => Seen::Inside,
            Window::TooOld(_) => Seen::TooOld,
            Window::Later(_) => Seen::Later,
        };
        let did = Done { scan, asked, carried }.each();
        let moment = |(point, did): (usize, Option<Did>)| {
            let seen = seen(point);
            // Of Previous the point asked about is asked nothing, and the one before it all there is.
            let in_reach = scan != Scan::Previous || point != asked;
            let passed = carried.by().is_none_or(|by| point > by.0);
            let rest = match seen {
                Seen::Inside if in_reach && passed => Did::No,
                Seen::Inside => Did::NotAsked,
                _ => Did::Outside,
            };
            Moment { point, seen, did: did.unwrap_or(rest) }
        };
        let first = if scan == Scan::Previous { asked.saturating_sub(1) } else { 0 };
        let moments: Vec<Moment> = did.into_iter().enumerate().skip(first).map(moment).collect();
        let earlier = (first > 0).then(|| Line::Mixed { from: 0, to: first - 1, decided: Decided::default() });
        let lines = earlier.into_iter().chain(folded(&moments, asked)).collect();
        let listed = carried.points.iter().map(|point| point.0).collect();
        Timeline { scan, within, asked, verdict: carried.verdict, listed, moments, lines }
    }

    /// The points in the window.
    pub fn inside(&self) -> usize {
        self.moments.iter().filter(|moment| moment.seen == Seen::Inside).count()
    }

    /// What a point did, in words.
    pub fn says(&self, moment: Moment) -> String {
        let here = match (moment.did, self.scan) {
            (Did::Carried, Scan::Since) => "right held here: carried the yes".to_string(),
            (Did::Carried, _) => "carried the yes".to_string(),
            (Did::InVain(failed), _) => format!("right held here, but left failed at {failed}"),
            (Did::Failed, _) => "left failed here".to_string(),
            (Did::FailedInVain(failed), _) => {
                format!("left failed here; right held here, but left failed at {failed}")
            }
            (Did::LeftHeld, _) => "left held".to_string(),
            (Did::No, Scan::Since) => "right did not hold".to_string(),
            (Did::No, _) => "did not hold".to_string(),
            (Did::NotAsked, _) if moment.point == self.asked => String::new(),
            (Did::NotAsked, _) => "not asked".to_string(),
            (Did::Outside, _) if moment.point == self.asked => String::new(),
            (Did::Outside, _) if moment.seen == Seen::TooOld => "too old".to_string(),
            (Did::Outside, _) => "stamped later".to_string(),
        };
        match (moment.point == self.asked, here.is_empty()) {
            (true, true) => "asked here".to_string(),
            (true, false) => format!("{here} (asked here)"),
            _ => here,
        }
    }

    /// What a folded stretch did, in words.
    pub fn says_folded(&self, line: Line) -> String {
        match line {
            Line::One(moment) => self.says(moment),
            Line::Alike(first, to) => {
                format!("{}, each: {}", counted(to - first.point + 1), self.says(first))
            }
            Line::Mixed { from, to, .. } if self.scan == Scan::Previous => counted(to - from + 1) + ", not asked",
            Line::Mixed { from, to, decided } => counted(to - from + 1) + &decided.says(),
        }
    }
}

fn counted(points: usize) -> String {
    format!("{points} point{}", if points == 1 { "" } else { "s" })
}

/// Reads the call's list.
struct Done<'a> {
    scan: Scan,
    asked: usize,
    carried: &'a Carried,
}

impl Done<'_> {
    /// What the list says of each point up to the one asked about; None where it says nothing.
    fn each(&self) -> Vec<Option<Did>> {
        let mut did = vec![None; self.asked + 1];
        if let Some(by) = self.carried.by() {
            did[by.0] = Some(Did::Carried);
            if self.scan == Scan::Since {
                did[by.0 + 1..].fill(Some(Did::LeftHeld));
            }
            return did;
        }
        for (anchor, failed) in self.carried.failed() {
            let held = did[anchor.0 + 1..failed.0].iter_mut().filter(|did| did.is_none());
            held.for_each(|did| *did = Some(Did::LeftHeld));
            did[failed.0] = Some(match did[failed.0] {
                Some(Did::InVain(later) | Did::FailedInVain(later)) => Did::FailedInVain(later),
                _ => Did::Failed,
            });
            did[anchor.0] = Some(match did[anchor.0] {
                Some(Did::Failed) => Did::FailedInVain(failed.0),
                _ => Did::InVain(failed.0),
            });
        }
        did
    }
}

/// The seconds of a window, or the nearest number that 64 bits hold.
pub fn seconds(within: Within) -> i64 {
    within.amount.saturating_mul([1, 60, 3_600, 86_400][within.unit as usize & 3])
}

/// The earliest time in a window, seen from a time; None where it reaches back to the beginning of time. So does the
/// longest span that 64 bits hold, for no two times count as further apart.
pub fn begins(within: Within, now: i64) -> Option<i64> {
    now.checked_sub(seconds(within)).filter(|_| seconds(within) < i64::MAX)
}

/// The points as lines: long stretches of alike points are one line, and no more lines than can be read.
fn folded(moments: &[Moment], asked: usize) -> Vec<Line> {
    if moments.len() <= ALL_SHOWN {
        return moments.iter().map(|&moment| Line::One(moment)).collect();
    }
    let mut lines = Vec::new();
    let alike = |a: &Moment, b: &Moment| (a.seen, a.did) == (b.seen, b.did) && folds(b, asked) && folds(a, asked);
    for stretch in moments.chunk_by(alike) {
        if stretch.len() > LONG {
            lines.push(Line::Alike(stretch[0], stretch[stretch.len() - 1].point));
        } else {
            lines.extend(stretch.iter().map(|&moment| Line::One(moment)));
        }
    }
    shortened(lines)
}

/// Whether a point may be folded with its like.
fn folds(moment: &Moment, asked: usize) -> bool {
    moment.point != asked && matches!(moment.did, Did::LeftHeld | Did::No | Did::NotAsked | Did::Outside)
}

fn shortened(lines: Vec<Line>) -> Vec<Line> {
    let count = lines.len();
    if count <= MOST_LINES {
        return lines;
    }
    let stays = |k: usize| {
        let carried = matches!(lines[k], Line::One(Moment { did: Did::Carried, .. }));
        k < EARLIEST || k + LATEST >= count || carried
    };
    let mut short = Vec::new();
    for (k, &line) in lines.iter().enumerate() {
        let (from, to, more) = extent(line);
        match short.last_mut() {
            _ if stays(k) => short.push(line),
            Some(Line::Mixed { to: last, decided, .. }) => (*last, *decided) = (to, decided.and(more)),
            _ => short.push(Line::Mixed { from, to, decided: more }),
        }
    }
    short
}

/// The first and last point of a line, and how many of them had a part in what decided.
fn extent(line: Line) -> (usize, usize, Decided) {
    match line {
        Line::One(moment) => (moment.point, moment.point, Decided::of(moment, 1)),
        Line::Alike(first, to) => (first.point, to, Decided::of(first, to - first.point + 1)),
        Line::Mixed { from, to, decided } => (from, to, decided),
    }
}

#[cfg(test)]
mod tests {
    use super::*;

    /// Points of every sort, in an order that a small generator of numbers makes.
    fn moments(count: usize, seed: u64) -> Vec<Moment> {
        let mut state = seed;
        let mut below = |end: u64| {
            state = state.wrapping_mul(6_364_136_223_846_793_005).wrapping_add(1_442_695_040_888_963_407);
            (state >> 33) % end
        };
        let mut did = Did::No;
        let mut made = Vec::new();
        for point in 0..count {
            if below(1 + seed % 9) == 0 {
                did = [Did::No, Did::LeftHeld, Did::InVain(point + 1), Did::Failed, Did::NotAsked, Did::Outside]
                    [below(6) as usize];
            }
            let seen = if did == Did::Outside { Seen::TooOld } else { Seen::Inside };
            made.push(Moment { point, seen, did });
        }
        made
    }

    /// Every point stands in one line, in order; the carrying one has a line of its own, and so has the last.
    #[test]
    fn lines_hold_every_point_once() {
        for seed in 0..200 {
            let count = 1 + 17 * seed as usize;
            let mut moments = moments(count, seed);
            let carried = count / 3;
            moments[carried].did = Did::Carried;
            let lines = folded(&moments, count - 1);
            let mut next = 0;
            for &line in &lines {
                let (from, to, _) = extent(line);
                assert_eq!(from, next);
                next = to + 1;
            }
            assert_eq!(next, count);
            assert!(lines.contains(&Line::One(moments[carried])), "seed {seed}");
            assert!(matches!(lines[lines.len() - 1], Line::One(_)), "seed {seed}");
            assert!(lines.len() <= MOST_LINES + 3, "seed {seed}: {}", lines.len());
            let each = moments.iter().fold(Decided::default(), |sum, &moment| sum.and(Decided::of(moment, 1)));
            let told = lines.iter().fold(Decided::default(), |sum, &line| sum.and(extent(line).2));
            assert_eq!(told, each, "seed {seed}");
        }
    }
}
