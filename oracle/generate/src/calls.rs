//! Calls with all their buffers, and random ones: ample, tight, short and malformed.

use model::{Model, Outcome, Question};

use crate::cases::RandomCase;
use crate::random::Random;

#[derive(Clone, Copy, Debug, PartialEq, Eq)]
pub enum Kind {
    Check,
    Ask,
    Rows,
}

/// One call on a case. The check call uses none of the fields below its kind.
#[derive(Clone, Debug)]
pub struct Call {
    pub kind: Kind,
    pub point: u32,
    pub node: u32,
    pub limit: u64,
    pub room: u64,
    pub start: Vec<u64>,
    /// Cells of workspace and of output.
    pub workspace: usize,
    pub binders: Vec<u32>,
    pub output: usize,
}

/// What a call did: its outcome, and both buffers after it.
#[derive(Clone, Debug, PartialEq, Eq)]
pub struct Done {
    pub outcome: Outcome,
    pub workspace: Vec<u64>,
    pub output: Vec<u64>,
}

/// Cell `k` of the workspace before a call.
pub fn workspace_fill(k: usize) -> u64 {
    0xA5A5_A5A5_0000_0000 + k as u64
}

/// Cell `k` of the output before a call.
pub fn output_fill(k: usize) -> u64 {
    0x5A5A_5A5A_0000_0000 + k as u64
}

impl Call {
    pub fn check() -> Call {
        Call {
            kind: Kind::Check,
            point: 0,
            node: 0,
            limit: 0,
            room: 0,
            start: Vec::new(),
            workspace: 0,
            binders: Vec::new(),
            output: 0,
        }
    }

    /// Puts the call to a model, with filled buffers.
    pub fn ask(&self, model: Model, case: &[u8]) -> Done {
        let mut workspace: Vec<u64> = (0..self.workspace).map(workspace_fill).collect();
        let mut output: Vec<u64> = (0..self.output).map(output_fill).collect();
        let question = Question {
            case,
            point: self.point,
            node: self.node,
            start: &self.start,
            limit: self.limit,
            room: self.room,
        };
        let outcome = match self.kind {
            Kind::Check => Outcome { refusal: model.check(case), ..Outcome::default() },
            Kind::Ask => model.ask(&question, &mut workspace),
            Kind::Rows => model.rows(&question, &self.binders, &mut workspace, &mut output),
        };
        Done { outcome, workspace, output }
    }

    /// Makes the workspace just large enough.
    pub fn fit_workspace(&mut self, variables: u32) {
        self.workspace = 2 * variables as usize * self.room as usize;
    }
}

/// A random question over a case, well formed and with ample room, save that it may run out of steps.
pub fn random_call(random: &mut Random, case: &RandomCase, limit: u64, room: u64) -> Call {
    let (condition, aggregate) = (&case.conditions, &case.aggregates);
    let (kind, nodes) = random.pick(&[
        (Kind::Ask, condition),
        (Kind::Ask, condition),
        (Kind::Rows, condition),
        (Kind::Rows, condition),
        (Kind::Ask, aggregate),
    ]);
    let node = random.pick(nodes);
    let variables = case.tables.variables;
    let points = case.tables.points.len();
    let mut call = Call {
        kind,
        // Rather a late point, with a history.
        point: random.below(points).max(random.below(points)) as u32,
        node,
        limit,
        room,
        start: random_start(random, case),
        workspace: 0,
        binders: Vec::new(),
        output: 0,
    };
    call.fit_workspace(variables);
    call.workspace += random.below(3);
    if kind == Kind::Rows {
        if variables > 0 {
            call.binders = (0..random.below(4)).map(|_| random.below(variables.min(4) as usize) as u32).collect();
        }
        call.output = 2 * call.binders.len() * room as usize;
    }
    call
}

/// Starting bindings of every tag, mostly unbound.
fn random_start(random: &mut Random, case: &RandomCase) -> Vec<u64> {
    let mut start = Vec::new();
    for _ in 0..case.tables.variables {
        let no_int: Vec<u64> =
            (0..case.tables.values.len()).filter(|&v| case.tables.values[v][0] != 2).map(|v| v as u64).collect();
        start.extend(match random.below(25) {
            0 | 1 => [1, random.pick(&[0, 1, 2, 3, 3, 4, 5, 9, u64::MAX, i64::MAX as u64])],
            2 | 3 => [2, random.pick(&no_int)],
            4 => [3, random.below(case.tables.strings.len()) as u64],
            _ => [0, 0],
        });
    }
    start
}

/// The same call with its limits at, or below, what it needed; or at the most allowed.
pub fn tightened(random: &mut Random, call: &Call, needed: &Outcome, variables: u32) -> Call {
    let mut tight = call.clone();
    if random.percent(2) {
        tight.limit = model::MOST_STEPS;
        if variables < 2 {
            tight.room = model::MOST_ROOM;
            tight.fit_workspace(variables);
        }
        return tight;
    }
    let around = |random: &mut Random, needed: u64| match random.below(3) {
        0 => needed,
        1 => needed.saturating_sub(1),
        _ => random.below(needed as usize + 1) as u64,
    };
    let both = random.percent(30);
    if both || random.percent(50) {
        tight.limit = around(random, needed.steps);
    }
    if both || tight.limit == call.limit {
        tight.room = around(random, needed.rows);
        tight.fit_workspace(variables);
    }
    if call.kind == Kind::Rows {
        let cells = 2 * call.binders.len() * needed.answer as usize;
        tight.output = if random.percent(70) { cells + random.below(3) } else { random.below(cells + 1) };
    }
    tight
}

/// The same call with a step limit anywhere in its walk, at its end, or one step beside that.
pub fn step_limited(random: &mut Random, call: &Call, needed: &Outcome) -> Call {
    let limit = match random.below(6) {
        0 => needed.steps,
        1 => needed.steps + 1,
        2 => needed.steps.saturating_sub(1),
        _ => random.below(needed.steps as usize + 1) as u64,
    };
    Call { limit, ..call.clone() }
}

/// A call with one thing wrong, and the refusal that it must get if the walk does not end it first.
pub struct Spoiled {
    pub call: Call,
    pub refusal: u32,
}

/// The same call with one thing wrong, for refusals 7 to 10 and 13.
pub fn spoiled(random: &mut Random, call: &Call, case: &RandomCase) -> Spoiled {
    let mut call = call.clone();
    let refusal = match random.below(10) {
        0..=2 => spoil_place(random, &mut call, case),
        3..=5 => spoil_start(random, &mut call, case),
        6..=8 => spoil_limits(random, &mut call, case.tables.variables),
        _ if call.kind == Kind::Rows => {
            call.binders.push(case.tables.variables + random.pick(&[0, 1, u32::MAX - 16]));
            13
        }
        _ => spoil_place(random, &mut call, case),
    };
    Spoiled { call, refusal }
}

/// A point or node that is not there, or a node of another sort.
fn spoil_place(random: &mut Random, call: &mut Call, case: &RandomCase) -> u32 {
    match random.below(3) {
        0 => {
            call.point = case.tables.points.len() as u32 + random.pick(&[0, 1, u32::MAX - 20_000]);
            7
        }
        1 => {
            call.node = case.tables.nodes.len() as u32 + random.pick(&[0, 1, u32::MAX - 2_000]);
            8
        }
        _ => {
            call.node = other_sort(random, call, case);
            8
        }
    }
}

/// A limit above its most, or a workspace a cell or two too small.
fn spoil_limits(random: &mut Random, call: &mut Call, variables: u32) -> u32 {
    match random.below(3) {
        0 => call.limit = model::MOST_STEPS + random.pick(&[1, 2, u64::MAX - model::MOST_STEPS]),
        1 if variables > 0 && call.room > 0 => {
            call.fit_workspace(variables);
            call.workspace -= random.between(1, 2);
        }
        _ => {
            call.room = model::MOST_ROOM + random.pick(&[1, 2]);
            call.fit_workspace(variables.min(1));
        }
    }
    10
}

/// A node that the call does not answer: one that is there, where there is one.
fn other_sort(random: &mut Random, call: &Call, case: &RandomCase) -> u32 {
    let answers = |kind: u32| kind <= 10 || (call.kind == Kind::Ask && kind >= 30);
    let others: Vec<u32> =
        (0..case.tables.nodes.len() as u32).filter(|&k| !answers(case.tables.nodes[k as usize][0])).collect();
    if others.is_empty() {
        return case.tables.nodes.len() as u32;
    }
    random.pick(&others)
}

/// Cells too many or too few, or one starting binding malformed.
fn spoil_start(random: &mut Random, call: &mut Call, case: &RandomCase) -> u32 {
    let tables = &case.tables;
    let int = tables.values.iter().position(|value| value[0] == 2);
    let cells = match (random.below(10), int) {
        _ if call.start.is_empty() => None,
        (0, _) => Some([0, 1]),
        (1, _) => Some([4, 0]),
        (2, _) => Some([u64::MAX, 0]),
        (3, _) => Some([2, tables.values.len() as u64]),
        (4, _) => Some([3, tables.strings.len() as u64]),
        (5, _) => Some([2, 1 << 32]),
        (6, _) => Some([3, 1 << 32]),
        (7, Some(int)) => Some([2, int as u64]),
        _ => None,
    };
    match cells {
        Some(cells) => {
            let at = 2 * random.below(call.start.len() / 2);
            call.start[at..at + 2].copy_from_slice(&cells);
        }
        None if !call.start.is_empty() && random.percent(50) => {
            call.start.truncate(call.start.len() - random.between(1, 2))
        }
        None => call.start.extend(random.pick(&[&[0][..], &[0, 0], &[1, 5]])),
    }
    9
}
