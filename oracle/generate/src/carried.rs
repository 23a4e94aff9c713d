//! Calls of request #106: any node that scans, any limits, any length of the list.

use casefile::{Node, Tables, Value, Within};
use model::{Carried, Model, Question, MOST_HEIGHT, MOST_NODES};

use crate::calls::{output_fill, random_call, workspace_fill, Call, Done, Kind};
use crate::cases::RandomCase;
use crate::random::Random;

/// What a call did, and how many cells of the list it filled. The list is the call's output.
#[derive(Clone, Debug, PartialEq, Eq)]
pub struct Shown {
    pub done: Done,
    pub filled: u64,
}

/// Puts a call to a model's `carried`, with filled buffers.
pub fn ask_carried(call: &Call, model: Model, case: &[u8]) -> Shown {
    let mut workspace: Vec<u64> = (0..call.workspace).map(workspace_fill).collect();
    let mut output: Vec<u64> = (0..call.output).map(output_fill).collect();
    let Call { point, node, limit, room, .. } = *call;
    let question = Question { case, point, node, start: &call.start, limit, room };
    let Carried { outcome, filled } = model.carried(&question, &mut workspace, &mut output);
    Shown { done: Done { outcome, workspace, output }, filled }
}

/// The nodes of a case that scan.
pub fn scans(case: &RandomCase) -> Vec<u32> {
    let scans = |&k: &u32| (4..=6).contains(&case.tables.nodes[k as usize][0]);
    (0..case.tables.nodes.len() as u32).filter(scans).collect()
}

/// Nodes that `with_scans` may add.
const MOST_ADDED: usize = 80;

/// The case with a few scans behind its nodes, over any conditions of it and over some that hold at a
/// few points only, or at all but a few.
pub fn with_scans(random: &mut Random, case: RandomCase) -> RandomCase {
    let mut tables = case.tables.clone();
    let heights = heights(&case);
    let condition = |k: &u32| tables.nodes[*k as usize][0] <= 10 && heights[*k as usize] < MOST_HEIGHT;
    let any: Vec<u32> = (0..tables.nodes.len() as u32).filter(condition).collect();
    if any.is_empty() || tables.nodes.len() + MOST_ADDED > MOST_NODES {
        return case;
    }
    let few: Vec<u32> = (0..if tables.variables > 0 { 4 } else { 0 }).map(|_| at_few(random, &mut tables)).collect();
    let few = if few.is_empty() { any.clone() } else { few };
    for kind in [4, 4, 5, 6, 6, 6, 6, 6] {
        let of = |random: &mut Random| if random.percent(60) { random.pick(&few) } else { random.pick(&any) };
        let (body, mut left, within) = (of(random), of(random), random_within(random));
        if kind == 6 && random.percent(60) {
            left = add(&mut tables, Node::Not { inner: random.pick(&few) });
        }
        let node = match kind {
            4 => Node::Formerly { within, body },
            5 => Node::Previous { within, body },
            _ => Node::Since { left, right: body, within },
        };
        add(&mut tables, node);
    }
    RandomCase { bytes: tables.encode(), tables, ..case }
}

fn add(tables: &mut Tables, node: Node) -> u32 {
    tables.nodes.push(node.words());
    tables.nodes.len() as u32 - 1
}

/// A condition that holds at one to three points: `exists v (tp v and v == 4) or ..`.
fn at_few(random: &mut Random, tables: &mut Tables) -> u32 {
    let variable = random.below(tables.variables as usize) as u32;
    let (tp, left) = (add(tables, Node::Tp { variable }), add(tables, Node::Variable { variable }));
    let mut made = None;
    for _ in 0..random.between(1, 3) {
        tables.values.push(Value::Int(random.below(tables.points.len()) as i64).words());
        let value = tables.values.len() as u32 - 1;
        let right = add(tables, Node::Literal { value });
        let equal = add(tables, Node::Comparison { op: 4, left, right });
        let body = add(tables, Node::And { left: tp, right: equal });
        let exists = add(tables, Node::Exists { variable, body });
        made = Some(made.map_or(exists, |left| add(tables, Node::Or { left, right: exists })));
    }
    made.expect("there is one point at least")
}

/// The height of each node, 1 where it has none below it.
fn heights(case: &RandomCase) -> Vec<u32> {
    let mut heights: Vec<u32> = Vec::new();
    for &words in &case.tables.nodes {
        let terms = |run: casefile::Run| {
            let words = &case.tables.lists[run.first as usize..run.first as usize + 3 * run.count as usize];
            words.chunks(3).map(|argument| argument[2]).collect()
        };
        let below = Node::read(words).map_or(Vec::new(), |node| node.children(terms));
        heights.push(1 + below.iter().map(|&k| heights[k as usize]).max().unwrap_or(0));
    }
    heights
}

/// All of the log, a part of it, none of it.
fn random_within(random: &mut Random) -> Within {
    let amount = match random.below(12) {
        0 => random.pick(&[-1, -5, i64::MIN]),
        1 => 0,
        2 => i64::MAX,
        _ => random.pick(&[3, 5, 8, 10, 20, 60, 100]),
    };
    Within { amount, unit: random.pick(&[0, 0, 0, 1, 2]) }
}

/// A random call over a case that has scans, with a list that takes whatever is found.
pub fn random_carried(random: &mut Random, case: &RandomCase, limit: u64, room: u64) -> Call {
    let mut call = random_call(random, case, limit, room);
    call.kind = Kind::Ask;
    call.binders.clear();
    call.node = random.pick(&scans(case));
    if random.percent(4) {
        call.point = 0;
    }
    call.output = 2 * (call.point as usize + 1) + random.below(3);
    call
}

/// The least limit and the least room under which a call answers, the other one as it is.
pub fn least(call: &Call, case: &RandomCase) -> (u64, u64) {
    let answers =
        |call: &Call| matches!(ask_carried(call, Model::document(), &case.bytes).done.outcome.refusal, 0 | 15);
    let limit = least_that(call.limit, |limit| answers(&Call { limit, ..call.clone() }));
    (limit, least_that(call.room, |room| answers(&with_room(call, case, room))))
}

/// The same call with other limits or another list, near the least that answers: `cells` were filled.
pub fn near(random: &mut Random, call: &Call, case: &RandomCase, (limit, room): (u64, u64), cells: usize) -> Call {
    let mut near = call.clone();
    if random.percent(45) {
        near.output = match random.below(5) {
            0 | 1 => cells,
            2 => cells.saturating_sub(1),
            3 => random.below(cells + 1),
            _ => cells + random.below(3),
        };
    }
    if random.percent(45) {
        near.limit = around(random, limit);
    }
    if random.percent(25) {
        near = with_room(&near, case, around(random, room));
    }
    if random.percent(2) {
        near.limit = model::MOST_STEPS;
    }
    near
}

fn with_room(call: &Call, case: &RandomCase, room: u64) -> Call {
    let mut call = Call { room, ..call.clone() };
    call.fit_workspace(case.tables.variables);
    call
}

fn around(random: &mut Random, least: u64) -> u64 {
    match random.below(4) {
        0 => least,
        1 | 2 => least.saturating_sub(1),
        _ => random.below(least as usize + 1) as u64,
    }
}

/// The least number that suffices, where `enough` does; it is mostly a small one.
fn least_that(enough: u64, suffices: impl Fn(u64) -> bool) -> u64 {
    let (mut low, mut high) = (0, enough.min(1));
    while high < enough && !suffices(high) {
        (low, high) = (high + 1, (4 * high).min(enough));
    }
    while low < high {
        let middle = low + (high - low) / 2;
        if suffices(middle) {
            high = middle;
        } else {
            low = middle + 1;
        }
    }
    low
}
