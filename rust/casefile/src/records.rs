//! Records with names: what the words of values, points and nodes say.

use crate::tables::NONE;

/// First record and count of items.
#[derive(Clone, Copy, Debug, Default, PartialEq, Eq, Hash)]
pub struct Run {
    pub first: u32,
    pub count: u32,
}

impl Run {
    pub fn places(self) -> std::ops::Range<usize> {
        self.first as usize..self.first as usize + self.count as usize
    }
}

/// A window: an amount of units (0 seconds, 1 minutes, 2 hours, 3 days).
#[derive(Clone, Copy, Debug, PartialEq, Eq, Hash)]
pub struct Within {
    pub amount: i64,
    pub unit: u32,
}

/// A value record. Strings and members are given by number.
#[derive(Clone, Copy, Debug, PartialEq, Eq, Hash)]
pub enum Value {
    Null,
    Bool(bool),
    Int(i64),
    Decimal(u32),
    String(u32),
    Entity(u32, u32),
    Array(Run),
    Object(Run),
}

impl Value {
    pub fn words(self) -> [u32; 4] {
        match self {
            Value::Null => [0; 4],
            Value::Bool(b) => [1, b as u32, 0, 0],
            Value::Int(n) => [2, low(n), high(n), 0],
            Value::Decimal(text) => [3, text, 0, 0],
            Value::String(text) => [4, text, 0, 0],
            Value::Entity(ty, id) => [5, ty, id, 0],
            Value::Array(run) => [6, run.first, run.count, 0],
            Value::Object(run) => [7, run.first, run.count, 0],
        }
    }

    /// None where the kind is not one of 0 to 7.
    pub fn read([kind, a, b, _]: [u32; 4]) -> Option<Value> {
        Some(match kind {
            0 => Value::Null,
            1 => Value::Bool(a != 0),
            2 => Value::Int(join(a, b)),
            3 => Value::Decimal(a),
            4 => Value::String(a),
            5 => Value::Entity(a, b),
            6 => Value::Array(Run { first: a, count: b }),
            7 => Value::Object(Run { first: a, count: b }),
            _ => return None,
        })
    }
}

/// A point record. `entities` counts items of three list words.
#[derive(Clone, Copy, Debug, PartialEq, Eq)]
pub struct Point {
    pub time: i64,
    pub namespace: Run,
    pub action: u32,
    pub kind: u32,
    pub logged: u32,
    pub context: u32,
    pub principal: Option<u32>,
    pub resource: Option<u32>,
    pub entities: Run,
}

impl Point {
    pub fn words(self) -> [u32; 12] {
        let optional = |value: Option<u32>| value.unwrap_or(NONE);
        [
            low(self.time),
            high(self.time),
            self.namespace.first,
            self.namespace.count,
            self.action,
            self.kind,
            self.logged,
            self.context,
            optional(self.principal),
            optional(self.resource),
            self.entities.first,
            self.entities.count,
        ]
    }

    pub fn read(w: [u32; 12]) -> Point {
        let optional = |word: u32| if word == NONE { None } else { Some(word) };
        Point {
            time: join(w[0], w[1]),
            namespace: Run { first: w[2], count: w[3] },
            action: w[4],
            kind: w[5],
            logged: w[6],
            context: w[7],
            principal: optional(w[8]),
            resource: optional(w[9]),
            entities: Run { first: w[10], count: w[11] },
        }
    }
}

/// A node record. Operators, units and roots keep document 01's numbers.
#[derive(Clone, Copy, Debug, PartialEq, Eq, Hash)]
pub enum Node {
    And { left: u32, right: u32 },
    Or { left: u32, right: u32 },
    Not { inner: u32 },
    Formerly { within: Within, body: u32 },
    Previous { within: Within, body: u32 },
    Since { left: u32, right: u32, within: Within },
    Predicate { namespace: Run, action: u32, kind: u32, arguments: Run },
    Comparison { op: u32, left: u32, right: u32 },
    Exists { variable: u32, body: u32 },
    Tp { variable: u32 },
    Literal { value: u32 },
    Context { path: Run },
    Scope { root: u32, path: Run },
    Variable { variable: u32 },
    Wildcard,
    Aggregate { aggregate: u32 },
    Arithmetic { op: u32, left: u32, right: u32 },
    Sum { variable: u32, binders: Run, body: u32 },
    Count { binders: Run, body: u32 },
}

impl Node {
    pub fn words(self) -> [u32; 8] {
        let window = |w: Within| [low(w.amount), high(w.amount), w.unit];
        let (kind, operands): (u32, Vec<u32>) = match self {
            Node::And { left, right } => (1, vec![left, right]),
            Node::Or { left, right } => (2, vec![left, right]),
            Node::Not { inner } => (3, vec![inner]),
            Node::Formerly { within, body } => (4, [&window(within)[..], &[body]].concat()),
            Node::Previous { within, body } => (5, [&window(within)[..], &[body]].concat()),
            Node::Since { left, right, within } => (6, [&[left, right], &window(within)[..]].concat()),
            Node::Predicate { namespace, action, kind, arguments } => {
                (7, vec![namespace.first, namespace.count, action, kind, arguments.first, arguments.count])
            }
            Node::Comparison { op, left, right } => (8, vec![op, left, right]),
            Node::Exists { variable, body } => (9, vec![variable, body]),
            Node::Tp { variable } => (10, vec![variable]),
            Node::Literal { value } => (20, vec![value]),
            Node::Context { path } => (21, vec![path.first, path.count]),
            Node::Scope { root, path } => (22, vec![root, path.first, path.count]),
            Node::Variable { variable } => (23, vec![variable]),
            Node::Wildcard => (24, vec![]),
            Node::Aggregate { aggregate } => (25, vec![aggregate]),
            Node::Arithmetic { op, left, right } => (26, vec![op, left, right]),
            Node::Sum { variable, binders, body } => (30, vec![variable, binders.first, binders.count, body]),
            Node::Count { binders, body } => (31, vec![binders.first, binders.count, body]),
        };
        let mut words = [0; 8];
        words[0] = kind;
        words[1..=operands.len()].copy_from_slice(&operands);
        words
    }

    /// None where the kind is none of document 01's.
    pub fn read([kind, a, b, c, d, e, f, _]: [u32; 8]) -> Option<Node> {
        let run = |first, count| Run { first, count };
        let within = |low, high, unit| Within { amount: join(low, high), unit };
        Some(match kind {
            1 => Node::And { left: a, right: b },
            2 => Node::Or { left: a, right: b },
            3 => Node::Not { inner: a },
            4 => Node::Formerly { within: within(a, b, c), body: d },
            5 => Node::Previous { within: within(a, b, c), body: d },
            6 => Node::Since { left: a, right: b, within: within(c, d, e) },
            7 => Node::Predicate { namespace: run(a, b), action: c, kind: d, arguments: run(e, f) },
            8 => Node::Comparison { op: a, left: b, right: c },
            9 => Node::Exists { variable: a, body: b },
            10 => Node::Tp { variable: a },
            20 => Node::Literal { value: a },
            21 => Node::Context { path: run(a, b) },
            22 => Node::Scope { root: a, path: run(b, c) },
            23 => Node::Variable { variable: a },
            24 => Node::Wildcard,
            25 => Node::Aggregate { aggregate: a },
            26 => Node::Arithmetic { op: a, left: b, right: c },
            30 => Node::Sum { variable: a, binders: run(b, c), body: d },
            31 => Node::Count { binders: run(a, b), body: c },
            _ => return None,
        })
    }

    /// The nodes that it refers to, in the order of its text; `terms` are those of a run of arguments.
    pub fn children(self, terms: impl Fn(Run) -> Vec<u32>) -> Vec<u32> {
        match self {
            Node::And { left, right } | Node::Or { left, right } | Node::Since { left, right, .. } => vec![left, right],
            Node::Comparison { left, right, .. } | Node::Arithmetic { left, right, .. } => vec![left, right],
            Node::Not { inner } => vec![inner],
            Node::Formerly { body, .. } | Node::Previous { body, .. } | Node::Exists { body, .. } => vec![body],
            Node::Aggregate { aggregate } => vec![aggregate],
            Node::Sum { body, .. } | Node::Count { body, .. } => vec![body],
            Node::Predicate { arguments, .. } => terms(arguments),
            _ => Vec::new(),
        }
    }

    pub fn is_condition(self) -> bool {
        self.words()[0] <= 10
    }

    pub fn is_aggregate(self) -> bool {
        self.words()[0] >= 30
    }
}

fn low(n: i64) -> u32 {
    n as u64 as u32
}

fn high(n: i64) -> u32 {
    (n as u64 >> 32) as u32
}

fn join(low: u32, high: u32) -> i64 {
    (low as u64 | (high as u64) << 32) as i64
}
