//! What a question comes to that is computed, compared, kept or passed by other code than a small one:
//! read off the case's tables and the answer, so that a run can say how often.

use std::collections::{BTreeMap, BTreeSet};

use casefile::{Node, Point, Run, Tables, Value};
use generate::calls::Done;
use generate::Call;

pub const SHARED_TERMS: &str = "reached: a rule with arithmetic that is an operand twice";
pub const SHARED_VALUES: &str = "reached: a case with nested values that are members twice";
pub const SEVEN_ROWS: &str = "reached: 7 rows or more held";
pub const MANY_ROWS: &str = "reached: more than 512 rows held";
pub const PASSED: &str = "reached: a scan with points of another event before it";
pub const PASSED_MANY: &str = "reached: a scan with 32 such points or more";
pub const DOTTED: &str = "reached: a rule with a path that only names with dots lead along";
pub const TWO_CHAINS: &str = "reached: a rule with a path that two chains of names or more have";
pub const WAY_BACK: &str = "reached: a rule with a path whose longest name leads nowhere, and a shorter one to its end";
pub const ALL: [&str; 9] =
    [SHARED_TERMS, SHARED_VALUES, SEVEN_ROWS, MANY_ROWS, PASSED, PASSED_MANY, DOTTED, TWO_CHAINS, WAY_BACK];

/// What a rule has below it.
#[derive(Clone)]
struct Below {
    shared_terms: bool,
    /// Action and kind of each Predicate that a Formerly or Since scans for.
    sought: BTreeSet<(u32, u32)>,
    /// The paths of its terms, with the root that each starts from.
    paths: BTreeSet<(Root, String)>,
}

/// A checked case, and what was found out of the rules asked so far.
pub struct Reach<'a> {
    tables: &'a Tables,
    shared_values: bool,
    below: BTreeMap<u32, Below>,
}

impl<'a> Reach<'a> {
    pub fn new(tables: &'a Tables) -> Reach<'a> {
        Reach { tables, shared_values: shares_values(tables), below: BTreeMap::new() }
    }

    /// What a question that was walked comes to.
    pub fn of(&mut self, call: &Call, done: &Done) -> Vec<&'static str> {
        let tables = self.tables;
        let Below { shared_terms, sought, paths } =
            self.below.entry(call.node).or_insert_with(|| below(tables, call.node));
        let passed = sought.iter().map(|&event| passed(tables, call.point, event)).max().unwrap_or(0);
        let rows = done.outcome.rows;
        let found: Vec<Found> = paths.iter().filter_map(|(root, key)| found(tables, call.point, *root, key)).collect();
        let reached = [
            *shared_terms,
            self.shared_values,
            rows >= 7,
            rows > 512,
            passed > 0,
            passed >= 32,
            found.iter().any(|found| found.chains > 0 && !found.plain),
            found.iter().any(|found| found.chains > 1),
            found.iter().any(|found| found.chains > 0 && !found.longest),
        ];
        reached.into_iter().zip(ALL).filter(|(is, _)| *is).map(|(_, what)| what).collect()
    }
}

/// Whether an array or object that is not empty is a member of two others, or of one twice.
fn shares_values(tables: &Tables) -> bool {
    let mut held = BTreeSet::new();
    let runs = tables.values.iter().filter_map(|&words| match Value::read(words) {
        Some(Value::Array(run) | Value::Object(run)) => Some(run),
        _ => None,
    });
    let nested = |value: u32| matches!(tables.values[value as usize], [6 | 7, _, count, _] if count > 0);
    let mut members = runs.flat_map(|run| tables.members[run.places()].iter().map(|member| member[1]));
    members.any(|value| nested(value) && !held.insert(value))
}

fn below(tables: &Tables, rule: u32) -> Below {
    let node = |number: u32| Node::read(tables.nodes[number as usize]).expect("a checked case has known nodes");
    let joined = |run: Run| {
        let names: Vec<&[u8]> = tables.lists[run.places()].iter().map(|&name| tables.string(name)).collect();
        String::from_utf8(names.join(&b'.')).expect("a checked case has UTF-8 strings")
    };
    let mut below = Below { shared_terms: false, sought: BTreeSet::new(), paths: BTreeSet::new() };
    let (mut seen, mut operands) = (BTreeSet::new(), BTreeSet::new());
    let mut open = vec![rule];
    while let Some(number) = open.pop() {
        if !seen.insert(number) {
            continue;
        }
        match node(number) {
            Node::Arithmetic { left, right, .. } => {
                for side in [left, right] {
                    let is_arithmetic = matches!(node(side), Node::Arithmetic { .. });
                    below.shared_terms |= is_arithmetic && !operands.insert(side);
                }
            }
            Node::Formerly { body: scanned, .. } | Node::Since { right: scanned, .. } => {
                if let Node::Predicate { action, kind, .. } = node(scanned) {
                    below.sought.insert((action, kind));
                }
            }
            Node::Context { path } => {
                below.paths.insert((Root::Context, joined(path)));
            }
            Node::Scope { root, path } if path.count > 0 => {
                let root = if root == 0 { Root::Principal } else { Root::Resource };
                below.paths.insert((root, joined(path)));
            }
            _ => {}
        }
        open.extend(node(number).children(|run| {
            let words = &tables.lists[run.first as usize..run.first as usize + 3 * run.count as usize];
            words.chunks(3).map(|argument| argument[2]).collect()
        }));
    }
    below
}

/// How many points up to the one asked about have another action or kind.
fn passed(tables: &Tables, asked: u32, event: (u32, u32)) -> usize {
    let points = tables.points[..=asked as usize].iter().map(|&words| Point::read(words));
    points.filter(|point| (point.action, point.kind) != event).count()
}

// ---- names with dots

#[derive(Clone, Copy, PartialEq, Eq, PartialOrd, Ord)]
enum Root {
    Context,
    Principal,
    Resource,
}

/// How a key is found in an object.
struct Found {
    /// Chains of names that join to the key.
    chains: usize,
    /// Whether one of them has no name with a dot, and whether one has the longest name at each object.
    plain: bool,
    longest: bool,
}

/// How a key is found in context or attributes of a point.
fn found(tables: &Tables, point: u32, root: Root, key: &str) -> Option<Found> {
    let point = Point::read(tables.points[point as usize]);
    let entity = match root {
        Root::Context => return Some(found_in(tables, point.context, key.as_bytes())),
        Root::Principal => tables.values[point.principal? as usize],
        Root::Resource => tables.values[point.resource? as usize],
    };
    let first = point.entities.first as usize;
    let mut entities = tables.lists[first..first + 3 * point.entities.count as usize].chunks(3);
    let attributes = entities.find(|words| [5, words[0], words[1], 0] == entity)?[2];
    Some(found_in(tables, attributes, key.as_bytes()))
}

fn found_in(tables: &Tables, object: u32, key: &[u8]) -> Found {
    let mut all = Found { chains: 0, plain: false, longest: false };
    let [7, first, count, _] = tables.values[object as usize] else {
        return all;
    };
    for [name, value] in &tables.members[Run { first, count }.places()] {
        let name = tables.string(*name);
        let Some(rest) = key.strip_prefix(name) else { continue };
        let below = match rest.split_first() {
            None => Found { chains: 1, plain: true, longest: true },
            Some((b'.', rest)) => found_in(tables, *value, rest),
            Some(_) => continue,
        };
        all.chains += below.chains;
        all.plain |= below.plain && !name.contains(&b'.');
        // Names rise, so that the last one that fits is the longest.
        all.longest = below.longest;
    }
    all
}
