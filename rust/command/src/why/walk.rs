//! From a rule down to the parts that decided it. Each part is asked by a proved call of its own; this walk only
//! chooses which, by the verdicts that they give.

use std::cell::Cell;
use std::collections::BTreeSet;

use casefile::binding::Binding;
use casefile::{Node, Variables};
use galivodern::{Answer, Bindings, Bound, Carried, Limits, PointNo, Refused, RuleNo, VariableNo};

use super::every::Every;
use crate::ask::Question;

/// No more parts of one rule are looked at than this: rules may share their parts many times over.
const MOST_PARTS: usize = 200;

const BOTH: &str = "all of its parts hold";
const NEITHER: &str = "none of its parts holds";
const TOO_MUCH: &str = "they take more than the limits allow; allow more with --steps and --room";
pub const RIGHT_NO: &str = "its left side holds, its right side does not";

/// A part of a rule, the verdict that it has in it, and what decided that.
pub struct Part {
    pub node: u32,
    pub verdict: bool,
    /// The variables that are bound for it, and not for what it is a part of.
    pub bound: Vec<(u32, Bound)>,
    pub by: By,
}

/// What decided the verdict of a part.
pub enum By {
    /// Past events, or that there were none: a Formerly, Previous or Since.
    Points(Carried),
    /// Parts of it, and how.
    Parts(&'static str, Vec<Part>),
    /// An event or a comparison at the point asked about: nothing past, but what its variables may be bound to.
    Itself { variables: bool },
    /// Counts and sums that a comparison has in it, with what they come to; none where that takes too much.
    Numbers(Vec<(u32, Option<i64>)>),
    /// Its parts, none of which shows it alone; why not.
    Whole(String),
}

/// A walk at the point asked about.
pub struct Walk<'a> {
    question: &'a Question,
    nodes: Binding<'a>,
    looked: Cell<usize>,
}

impl<'a> Walk<'a> {
    pub fn of(question: &'a Question) -> Walk<'a> {
        Walk { question, nodes: Binding::of(&question.opened.tables), looked: Cell::new(0) }
    }

    /// The rule that is asked, with what is bound at the start. Its verdict is that of one proved call on the whole.
    pub fn rule(&self) -> Result<Part, Refused> {
        let Question { asked, start, .. } = self.question;
        let bound = self.nodes.free(asked.node).iter().filter_map(|v| Some((v, start.get(VariableNo(v as u16))?)));
        let part = Part { bound: bound.collect(), ..self.part(asked.node, start)? };
        if matches!(part.by, By::Points(_) | By::Itself { .. } | By::Numbers(_)) {
            return Ok(part);
        }
        let verdict = self.verdict(asked.node, start)?;
        if part.verdict == verdict {
            return Ok(part);
        }
        Ok(Part { verdict, by: By::Whole("its parts, asked one by one, say another thing".to_string()), ..part })
    }

    fn verdict(&self, node: u32, start: &Bindings) -> Result<bool, Refused> {
        let Question { opened, point, limits, .. } = self.question;
        Ok(opened.case.ask(PointNo(*point), RuleNo(node), start, *limits)?.verdict())
    }

    fn part(&self, node: u32, start: &Bindings) -> Result<Part, Refused> {
        let Question { opened, point, limits, .. } = self.question;
        let of = |verdict, by| Part { node, verdict, bound: Vec::new(), by };
        self.looked.set(self.looked.get() + 1);
        let read = Node::read(opened.tables.nodes[node as usize]).unwrap_or(Node::Wildcard);
        let parted = matches!(read, Node::And { .. } | Node::Or { .. } | Node::Not { .. } | Node::Exists { .. });
        if self.looked.get() > MOST_PARTS && parted {
            return Ok(of(self.verdict(node, start)?, By::Whole("it has more parts than are shown".to_string())));
        }
        match read {
            Node::Formerly { .. } | Node::Previous { .. } | Node::Since { .. } => {
                let carried = opened.case.carried(PointNo(*point), RuleNo(node), start, *limits)?;
                Ok(of(carried.verdict, By::Points(carried)))
            }
            Node::And { left, right } => self.and(left, right, start).map(|(verdict, by)| of(verdict, by)),
            Node::Or { left, right } => self.or(left, right, start).map(|(verdict, by)| of(verdict, by)),
            Node::Not { inner } => {
                let inner = self.part(inner, start)?;
                let how = if inner.verdict { "what it denies holds" } else { "what it denies does not hold" };
                Ok(of(!inner.verdict, By::Parts(how, vec![inner])))
            }
            Node::Exists { variable, body } => {
                let verdict = self.verdict(node, start)?;
                Ok(of(verdict, self.exists(verdict, variable, body, start)?))
            }
            _ => Ok(of(self.verdict(node, start)?, self.leaf(node, start))),
        }
    }

    /// An event or a comparison. What is counted or summed may be past.
    fn leaf(&self, node: u32, start: &Bindings) -> By {
        let Question { opened, point, limits, .. } = self.question;
        let number = |node: u32| match opened.case.ask(PointNo(*point), RuleNo(node), start, *limits).ok()?.value {
            Answer::Number(number) => Some(number),
            Answer::Verdict(_) => None,
        };
        let mut terms = BTreeSet::from([node]);
        let mut numbers = Vec::new();
        while let Some(term) = terms.pop_last() {
            match Node::read(opened.tables.nodes[term as usize]) {
                Some(Node::Aggregate { aggregate }) => numbers.push(aggregate),
                Some(read) => terms.extend(self.nodes.children(read)),
                None => {}
            }
        }
        numbers.sort_unstable();
        numbers.dedup();
        if numbers.is_empty() {
            By::Itself { variables: !self.nodes.free(node).is_empty() }
        } else {
            By::Numbers(numbers.into_iter().map(|node| (node, number(node))).collect())
        }
    }

    /// An event on the left lends what it binds to the right, which is asked under that.
    fn and(&self, left: u32, right: u32, start: &Bindings) -> Result<(bool, By), Refused> {
        let first = self.part(left, start)?;
        if !first.verdict {
            return Ok((false, By::Parts("its left side does not hold", vec![first])));
        }
        let lent = self.lent(left, start)?;
        let under = lent.iter().fold(start.clone(), |under, &(v, bound)| under.with(VariableNo(v as u16), bound));
        let second = Part { bound: lent, ..self.part(right, &under)? };
        Ok(if second.verdict {
            (true, By::Parts(BOTH, chained(BOTH, first, second)))
        } else {
            (false, By::Parts(RIGHT_NO, vec![second]))
        })
    }

    /// What an event that matches binds; other conditions lend nothing.
    fn lent(&self, left: u32, start: &Bindings) -> Result<Vec<(u32, Bound)>, Refused> {
        let Question { opened, point, limits, .. } = self.question;
        if !matches!(Node::read(opened.tables.nodes[left as usize]), Some(Node::Predicate { .. })) {
            return Ok(Vec::new());
        }
        let free = self.nodes.free(left).iter().filter(|&v| start.get(VariableNo(v as u16)).is_none());
        let free: Vec<u32> = free.collect();
        if free.is_empty() {
            return Ok(Vec::new());
        }
        let binders: Vec<VariableNo> = free.iter().map(|&v| VariableNo(v as u16)).collect();
        // An event that lends holds no row, and here it gives one.
        let limits = Limits { room: limits.room.max(1), ..*limits };
        let found = opened.case.rows(PointNo(*point), RuleNo(left), &binders, start, limits)?.value;
        let row = found.iter().next();
        let bound = |(k, &v): (usize, &u32)| row.and_then(|row| row.get(k)).map(|bound| (v, bound));
        Ok(free.iter().enumerate().filter_map(bound).collect())
    }

    fn or(&self, left: u32, right: u32, start: &Bindings) -> Result<(bool, By), Refused> {
        let first = self.part(left, start)?;
        if first.verdict {
            return Ok((true, By::Parts("its left side holds", vec![first])));
        }
        let second = self.part(right, start)?;
        Ok(if second.verdict {
            (true, By::Parts("its left side does not hold, its right side does", vec![second]))
        } else {
            (false, By::Parts(NEITHER, chained(NEITHER, first, second)))
        })
    }

    /// The first way to bind the variable, or the body with it unbound: shown if it comes to the same verdict.
    fn exists(&self, verdict: bool, variable: u32, body: u32, start: &Bindings) -> Result<By, Refused> {
        let Question { opened, point, limits, .. } = self.question;
        let under = without(start, variable, opened.case.contents().variables);
        let mut bound = Vec::new();
        let mut how = "there is nothing that makes it hold";
        if verdict {
            let binder = [VariableNo(variable as u16)];
            let found = opened.case.rows(PointNo(*point), RuleNo(body), &binder, &under, *limits)?.value;
            bound.extend(found.get(0).and_then(|row| row.get(0)).map(|first| (variable, first)));
            how = match found.len() {
                // Only a loose rule has rows that leave it unbound.
                _ if bound.is_empty() => "it holds with its variable unbound",
                0 | 1 => "it holds with what is found",
                _ => "it holds with the first that is found",
            };
        }
        let under = bound.iter().fold(under, |under, &(v, to)| under.with(VariableNo(v as u16), to));
        // The body is asked here in another manner than within the rule: its parts are shown if they come to the same.
        let inner = match self.part(body, &under) {
            Ok(inner) if inner.verdict != verdict => Err("what it asks for is put together from several events"),
            Ok(inner) if verdict => Ok(inner),
            Ok(inner) => {
                Every::of(&opened.tables, &self.nodes, variable).part(inner).ok_or("they differ with what is bound")
            }
            Err(_) => return Ok(By::Whole(TOO_MUCH.to_string())),
        };
        Ok(match inner {
            Ok(inner) => By::Parts(how, vec![Part { bound, ..inner }]),
            Err(why) => {
                let name = opened.variable_name(variable);
                By::Whole(format!("{why}; `--node {body} --bind {name}=..` shows them for one {name}"))
            }
        })
    }
}

/// Both parts; those of a part that is decided in the same way stand in its place.
fn chained(how: &str, first: Part, second: Part) -> Vec<Part> {
    let parts = |part: Part| match part {
        Part { by: By::Parts(same, parts), bound, .. } if same == how && bound.is_empty() => parts,
        part => vec![part],
    };
    parts(first).into_iter().chain(parts(second)).collect()
}

/// The bindings but for one variable.
fn without(start: &Bindings, variable: u32, variables: usize) -> Bindings {
    let others = Variables::of(0..variables as u32).but(Variables::of([variable]));
    let number = |v: u32| VariableNo(v as u16);
    others.iter().fold(Bindings::new(), |kept, v| match start.get(number(v)) {
        Some(bound) => kept.with(number(v), bound),
        None => kept,
    })
}
