//! Request #106: which event carried the yes. Written from its reading (106.1 to 106.10) alone.

use crate::calls::{Model, Outcome, Question, Said};
use crate::file::signed;
use crate::variant::Variant;
use crate::walk::{Env, Refused, Walk};
use crate::window::{window, Window};

/// What the call answers, and how many cells of the list it filled.
#[derive(Clone, Copy, Debug, Default, PartialEq, Eq)]
pub struct Carried {
    pub outcome: Outcome,
    pub filled: u64,
}

/// Yes or no, and the points to be listed.
type Listed = (bool, Vec<u64>);

impl Model {
    /// The verdict of a Formerly, Previous or Since, and the points that decided it.
    pub fn carried(self, question: &Question, workspace: &mut [u64], list: &mut [u64]) -> Carried {
        let scans = |kind: u32| (4..=6).contains(&kind) || (kind <= 10 && self.variant == Variant::CarriedAnyCondition);
        let mut filled = 0;
        let outcome = self.call(question, scans, workspace, |walk, env| {
            let mut scan = Scan::new(walk, env, question, list.len());
            let (yes, points) = scan.listed(question.node)?;
            let short = list.len() < points.len();
            let kept = if short { Variant::CarriedFifteenNumbers } else { Variant::CarriedAnswerNumbers };
            scan.no_numbers_but(kept);
            if short {
                if self.variant == Variant::CarriedListCut {
                    let length = list.len();
                    list.copy_from_slice(&points[..length]);
                }
                return Ok(Said::Refusal(15));
            }
            list[..points.len()].copy_from_slice(&points);
            filled = points.len() as u64;
            Ok(Said::Answer(yes as u64))
        });
        Carried { outcome, filled }
    }
}

/// A scan from point i. Each question that it asks is a walk of its own.
struct Scan<'a, 'b> {
    walk: &'a mut Walk<'b>,
    env: &'a Env,
    i: usize,
    /// Low and high half of the amount, and the unit.
    within: [u32; 3],
    cells: usize,
    /// The most rows held in any question.
    most: u64,
}

impl<'a, 'b> Scan<'a, 'b> {
    fn new(walk: &'a mut Walk<'b>, env: &'a Env, question: &Question, cells: usize) -> Scan<'a, 'b> {
        Scan { walk, env, i: question.point as usize, within: [0; 3], cells, most: 0 }
    }

    fn is(&self, variant: Variant) -> bool {
        self.walk.variant == variant
    }

    /// Neither an answer nor 15 tells what a question took, save in this wrong variant.
    fn no_numbers_but(&mut self, kept: Variant) {
        if !self.is(kept) {
            (self.walk.steps, self.walk.most) = (0, 0);
        }
    }

    fn listed(&mut self, node: u32) -> Result<Listed, Refused> {
        let [kind, a, b, c, d, e, ..] = self.walk.file.node(node);
        match kind {
            4 => {
                self.within = [a, b, c];
                self.formerly(d)
            }
            5 => {
                self.within = [a, b, c];
                self.previous(d)
            }
            6 => {
                self.within = [c, d, e];
                self.since(a, b)
            }
            _ => Ok((self.asked(node, self.i)?, Vec::new())),
        }
    }

    /// The verdict of a node at a point, under the same limits, from 0 steps and 0 rows.
    fn asked(&mut self, node: u32, at: usize) -> Result<bool, Refused> {
        if !self.is(Variant::CarriedMeterRunsOn) {
            self.walk.steps = u64::from(self.is(Variant::CarriedOwnStep) && self.walk.limit > 0);
        }
        (self.walk.held, self.walk.most) = (0, 0);
        let asked = self.walk.asked;
        if self.is(Variant::CarriedContextAtPoint) {
            self.walk.asked = at;
        }
        let said = self.walk.verdict(node, self.env, at);
        self.walk.asked = asked;
        self.most = self.most.max(self.walk.most);
        if self.is(Variant::CarriedMostOfAll) {
            self.walk.most = self.most;
        }
        said
    }

    fn inside(&self, j: usize) -> bool {
        let [low, high, unit] = self.within;
        let file = self.walk.file;
        let seen = window(signed(low, high), unit as usize, file.time(self.i), file.time(j));
        matches!(seen, Window::Inside(_)) || self.is(Variant::CarriedNoWindow)
    }

    /// Whether a node holds at a point of the window; a point outside of it asks nothing.
    fn inside_holds(&mut self, node: u32, j: usize) -> Result<bool, Refused> {
        let inside = self.inside(j);
        if !inside && !self.is(Variant::CarriedAsksOutside) {
            return Ok(false);
        }
        Ok(self.asked(node, j)? && inside)
    }

    fn formerly(&mut self, body: u32) -> Result<Listed, Refused> {
        let mut found = None;
        for j in (0..=self.i).rev() {
            if self.inside_holds(body, j)? {
                if self.is(Variant::CarriedLeast) {
                    found = Some(j as u64);
                    continue;
                }
                found = found.or(Some(j as u64));
                if !self.is(Variant::CarriedScansOn) {
                    break;
                }
            }
        }
        Ok((found.is_some(), found.into_iter().collect()))
    }

    fn previous(&mut self, body: u32) -> Result<Listed, Refused> {
        let Some(before) = self.i.checked_sub(1) else { return Ok((false, Vec::new())) };
        let yes = self.inside_holds(body, before)?;
        let shown = if self.is(Variant::CarriedPreviousShowsI) { self.i } else { before };
        Ok((yes, if yes { vec![shown as u64] } else { Vec::new() }))
    }

    fn since(&mut self, left: u32, right: u32) -> Result<Listed, Refused> {
        let mut failed: Vec<[u64; 2]> = Vec::new();
        let mut found = None;
        for j in (0..=self.i).rev() {
            if !self.inside_holds(right, j)? {
                continue;
            }
            match self.first_failure(left, j)? {
                Some(k) => failed.push([j as u64, k as u64]),
                None if self.is(Variant::CarriedLeast) => found = Some(j),
                None => {
                    found = Some(j);
                    break;
                }
            }
            if self.is(Variant::CarriedShortFirst) && self.cells < 2 * failed.len() {
                (self.walk.steps, self.walk.most) = (0, 0);
                return Err(Refused(15));
            }
        }
        if let Some(j) = found {
            let last = if self.is(Variant::CarriedYesAlone) { j } else { self.i };
            return Ok((true, (j as u64..=last as u64).collect()));
        }
        if self.is(Variant::CarriedUpward) {
            failed.reverse();
        }
        let cells = if self.is(Variant::CarriedAnchorAlone) { 1 } else { 2 };
        Ok((false, failed.iter().flat_map(|pair| pair[..cells].to_vec()).collect()))
    }

    /// The first point above j at which left fails, asked from j + 1 up to i.
    fn first_failure(&mut self, left: u32, j: usize) -> Result<Option<usize>, Refused> {
        let first = if self.is(Variant::CarriedTestsAnchor) { j } else { j + 1 };
        let mut failure = None;
        for k in first..=self.i {
            if !self.asked(left, k)? {
                failure = if self.is(Variant::CarriedLastFailure) { Some(k) } else { failure.or(Some(k)) };
                if !self.is(Variant::CarriedAsksOn) && !self.is(Variant::CarriedLastFailure) {
                    break;
                }
            }
        }
        Ok(failure)
    }
}
