//! What request #106 must list, put together from single verdicts of the Rust at single points.

use std::collections::BTreeMap;

use casefile::{Node, Within};
use dogwood::error::Span;
use dogwood::extension::temporal::ast::{BinderSlot, Condition, ConditionKind};
use dogwood::interpreter::eval::eval_condition;
use dogwood::interpreter::value::Value;
use generate::Call;

use crate::convert::window;
use crate::rust::{Env, RustCase};

/// A verdict that takes more visits than this is not waited for.
const MOST_VISITS: u64 = 100_000;

/// A variable that no rule has.
const POINT: &str = "the point";

/// The Rust makes more visits than are waited for.
pub struct TooLong;

/// The Rust, asked single verdicts in the environment of one call.
pub struct Single<'a, 'b> {
    rust: &'a mut RustCase<'b>,
    env: Env,
    node: Node,
    i: usize,
    /// The points of the node's window, the latest first.
    inside: Vec<usize>,
    said: BTreeMap<(u32, usize), (bool, u64)>,
}

impl<'a, 'b> Single<'a, 'b> {
    pub fn new(rust: &'a mut RustCase<'b>, call: &Call) -> Single<'a, 'b> {
        let node = Node::read(rust.converter.tables.nodes[call.node as usize]).expect("a checked case has known nodes");
        let within = match node {
            Node::Formerly { within, .. } | Node::Previous { within, .. } | Node::Since { within, .. } => within,
            other => unreachable!("{other:?} is no scan"),
        };
        let mut single = Single {
            env: rust.env(call),
            rust,
            node,
            i: call.point as usize,
            inside: Vec::new(),
            said: BTreeMap::new(),
        };
        single.inside = single.window(within);
        single
    }

    fn asked(&mut self, node: u32, at: usize) -> Result<(bool, u64), TooLong> {
        if let Some(said) = self.said.get(&(node, at)) {
            return Ok(*said);
        }
        let said = self.rust.verdict_at(&self.env, node, at, MOST_VISITS).ok_or(TooLong)?;
        self.said.insert((node, at), said);
        Ok(said)
    }

    fn holds(&mut self, node: u32, at: usize) -> Result<bool, TooLong> {
        Ok(self.asked(node, at)?.0)
    }

    /// The points of a window, the latest first, each by the verdict of `formerly within W tp j`.
    fn window(&self, within: Within) -> Vec<usize> {
        let tp = Condition { span: Span, kind: ConditionKind::Tp { var: BinderSlot::Name(POINT.to_string()) } };
        let kind = ConditionKind::Formerly { within: window(within), body: Box::new(tp) };
        let formerly = Condition { span: Span, kind };
        let mut env = self.env.clone();
        let mut inside = |j: usize| {
            env.insert(POINT.to_string(), Value::Int(j as i64));
            eval_condition(&self.rust.trace, self.i, &env, &formerly)
        };
        (0..=self.i).rev().filter(|&j| inside(j)).collect()
    }

    /// The verdict and the points to be listed (106.3).
    pub fn listed(&mut self) -> Result<(bool, Vec<u64>), TooLong> {
        match self.node {
            Node::Formerly { body, .. } => self.first(self.inside.clone(), body),
            Node::Previous { body, .. } => {
                let before = self.inside.iter().copied().filter(|j| j + 1 == self.i).collect();
                self.first(before, body)
            }
            Node::Since { left, right, .. } => self.since(left, right),
            other => unreachable!("{other:?} is no scan"),
        }
    }

    /// The first of these points at which a body holds.
    fn first(&mut self, points: Vec<usize>, body: u32) -> Result<(bool, Vec<u64>), TooLong> {
        for j in points {
            if self.holds(body, j)? {
                return Ok((true, vec![j as u64]));
            }
        }
        Ok((false, Vec::new()))
    }

    /// Where right held, above or at the last failure of left, the answer is yes; below it each is listed.
    fn since(&mut self, left: u32, right: u32) -> Result<(bool, Vec<u64>), TooLong> {
        let mut anchors = Vec::new();
        for j in self.inside.clone() {
            if self.holds(right, j)? {
                anchors.push(j);
            }
        }
        let Some(&greatest) = anchors.first() else { return Ok((false, Vec::new())) };
        let mut failures = Vec::new();
        for k in anchors[anchors.len() - 1] + 1..=self.i {
            if !self.holds(left, k)? {
                failures.push(k);
            }
        }
        if failures.last().is_none_or(|&last| last <= greatest) {
            return Ok((true, (greatest as u64..=self.i as u64).collect()));
        }
        let failure = |j: usize| failures.iter().copied().find(|&k| k > j).expect("the last one is above all anchors");
        Ok((false, anchors.iter().flat_map(|&j| [j as u64, failure(j) as u64]).collect()))
    }

    /// The visits of each question that the scan asks, in its order (106.6).
    pub fn visits(&mut self) -> Result<Vec<u64>, TooLong> {
        let mut visits = Vec::new();
        match self.node {
            Node::Formerly { body, .. } | Node::Previous { body, .. } => {
                let (i, previous) = (self.i, matches!(self.node, Node::Previous { .. }));
                for j in self.inside.clone().into_iter().filter(|j| !previous || j + 1 == i) {
                    let (yes, count) = self.asked(body, j)?;
                    visits.push(count);
                    if yes {
                        break;
                    }
                }
            }
            Node::Since { left, right, .. } => {
                for j in self.inside.clone() {
                    let (yes, count) = self.asked(right, j)?;
                    visits.push(count);
                    if yes && self.left_visits(left, j, &mut visits)? {
                        break;
                    }
                }
            }
            other => unreachable!("{other:?} is no scan"),
        }
        Ok(visits)
    }

    /// Whether left holds from j + 1 to i.
    fn left_visits(&mut self, left: u32, j: usize, visits: &mut Vec<u64>) -> Result<bool, TooLong> {
        for k in j + 1..=self.i {
            let (yes, count) = self.asked(left, k)?;
            visits.push(count);
            if !yes {
                return Ok(false);
            }
        }
        Ok(true)
    }
}
