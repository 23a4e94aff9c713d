//! Names with dots: objects, shared ones too, in which chains of unlike names join to one key.

use casefile::{Node, Run, Value};

use super::{Leaning, Making, ATTRIBUTES, NAMES};

/// The parts that the names of a case are joined of: few, so that many joins are the same key. Some
/// stand beside the dot in the order of bytes.
const PARTS: [&[&str]; 10] = [
    &["a", "b"],
    &["a", "b"],
    &["a", "b", "c"],
    &["a"],
    &["a", "b", ""],
    &["", "q"],
    &["e", "", "q"],
    &["id", "type", "a"],
    &["a", "a!", "a/", "b"],
    &["a", "é", "a-"],
];
/// The Rust writes every chain of a context before each question.
const MOST_KEYS: usize = 160;
const MOST_DEPTH: u32 = 32;

/// A value, the key of every chain of names in it, and how deep it is.
#[derive(Clone)]
pub(super) struct Joined {
    value: u32,
    keys: Vec<String>,
    depth: u32,
}

impl Joined {
    /// Its keys; those that are there twice alone, where that is wanted and there are such.
    fn keys_mostly(&self, twice: bool) -> Vec<&String> {
        let count = |key: &String| self.keys.iter().filter(|other| *other == key).count();
        let many: Vec<&String> = self.keys.iter().filter(|key| twice && count(key) > 1).collect();
        if many.is_empty() {
            return self.keys.iter().collect();
        }
        many
    }
}

impl Making<'_> {
    // ---- values

    /// Objects of joined names, each of leaves and of objects made before it.
    pub(super) fn dotted_values(&mut self) {
        self.parts = self.random.pick(&PARTS);
        let few = self.profile.most_rules == 1;
        match self.random.below(10) {
            0 => self.dotted_tower(),
            1 => self.dotted_chain(),
            _ => {}
        }
        let objects = if few { self.random.between(2, 4) } else { self.random.between(3, 8) };
        for _ in 0..objects {
            let many = self.random.pick(&[1, 2, 3, 3, 4, 4, 5, 6, 12]);
            let members = (0..many).map(|_| (self.joined_name(), self.dotted_part())).collect();
            self.dotted_object(members);
        }
        self.joined.sort_by_key(|joined| joined.keys.len());
        if self.random.percent(40) {
            self.dotted_fork();
        }
    }

    /// An object whose longest name leads nowhere, and a shorter one to the end: {p: {q: {r: 1}}, "p.q": 2}.
    fn dotted_fork(&mut self) {
        let [p, q, r] = [0; 3].map(|_| self.random.pick(self.parts));
        let joined = |names: &[&str]| names.join(".");
        let end = self.leaf();
        let shorter = if self.random.percent(50) {
            self.dotted_object(vec![(joined(&[q, r]), end)])
        } else {
            let below = self.dotted_object(vec![(r.to_string(), end)]);
            self.dotted_object(vec![(q.to_string(), below)])
        };
        let mut members = vec![(p.to_string(), shorter), (joined(&[p, q]), self.dotted_part())];
        for _ in 0..self.random.below(3) {
            members.push((self.joined_name(), self.dotted_part()));
        }
        self.dotted_object(members);
        self.fork = Some([p, q, r].join("."));
    }

    /// Shared objects in which every name leads to the one object below: a search that remembers nothing
    /// takes three times as long with each.
    fn dotted_tower(&mut self) {
        let (one, last) = (self.random.pick(self.parts), self.random.pick(self.parts));
        let end = self.leaf();
        let mut below = self.dotted_object(vec![(last.to_string(), end)]);
        for _ in 0..self.random.between(2, 4) {
            let count = self.random.between(2, 3);
            let names = (1..=count).map(|many| vec![one; many].join("."));
            below = self.dotted_object(names.map(|name| (name, below.clone())).collect());
        }
    }

    /// A chain of up to 29 objects, for paths of many names.
    fn dotted_chain(&mut self) {
        let mut below = self.leaf();
        for _ in 0..self.random.between(5, 29) {
            let mut members = vec![(self.joined_name(), below)];
            if self.random.percent(20) {
                members.push((self.joined_name(), self.leaf()));
            }
            below = self.dotted_object(members);
        }
    }

    /// The first member of each name; members that write too much, or are too deep, become leaves.
    fn dotted_object(&mut self, members: Vec<(String, Joined)>) -> Joined {
        let mut object = Joined { value: 0, keys: Vec::new(), depth: 1 };
        let mut named: Vec<(String, u32)> = Vec::new();
        for (name, mut below) in members {
            if named.iter().any(|(other, _)| *other == name) {
                continue;
            }
            if object.keys.len() + below.keys.len() > MOST_KEYS || below.depth >= MOST_DEPTH {
                below = self.number();
            }
            object.keys.push(name.clone());
            object.keys.extend(below.keys.iter().map(|key| format!("{name}.{key}")));
            object.depth = object.depth.max(1 + below.depth);
            named.push((name, below.value));
        }
        let members: Vec<(&str, u32)> = named.iter().map(|(name, value)| (name.as_str(), *value)).collect();
        object.value = self.builder.object(&members);
        self.joined.push(object.clone());
        object
    }

    /// An object made before, or what ends a chain.
    fn dotted_part(&mut self) -> Joined {
        if self.joined.is_empty() || self.random.percent(45) {
            return self.leaf();
        }
        self.joined[self.random.below(self.joined.len())].clone()
    }

    /// Mostly a number of its own, so that answers tell one place from another.
    fn leaf(&mut self) -> Joined {
        let (value, depth) = match self.random.below(20) {
            0 => (self.builder.value(Value::Null), 1),
            1 => (self.random.pick(&self.scope).2, 1),
            2 if !self.joined.is_empty() => {
                let held = &self.joined[self.random.below(self.joined.len())];
                if held.depth + 1 >= MOST_DEPTH {
                    return self.number();
                }
                (self.builder.array(&[held.value]), held.depth + 1)
            }
            _ => return self.number(),
        };
        Joined { value, keys: Vec::new(), depth }
    }

    fn number(&mut self) -> Joined {
        let n = 100 + self.builder.values().len() as i64;
        let value = self.builder.int(n);
        self.literals.push(value);
        Joined { value, keys: Vec::new(), depth: 1 }
    }

    /// A join of one to three parts.
    fn joined_name(&mut self) -> String {
        let count = self.random.pick(&[1, 1, 1, 2, 2, 3]);
        let parts: Vec<&str> = (0..count).map(|_| self.random.pick(self.parts)).collect();
        parts.join(".")
    }

    // ---- points

    /// An object of joined names where the case leans to them.
    pub(super) fn dotted_record(&mut self) -> Option<u32> {
        if self.profile.leaning != Leaning::Dots || self.random.percent(10) {
            return None;
        }
        Some(self.held().value)
    }

    /// Mostly one of the two objects that hold most, or the fork.
    fn held(&mut self) -> &Joined {
        let many = self.joined.len();
        let first = self.random.pick(&[0, many - 1, many - 1, many.saturating_sub(2), many.saturating_sub(2)]);
        let at = self.random.between(first, many - 1);
        &self.joined[at]
    }

    // ---- rules

    /// Mostly the names of a chain, as they are or with one more or less.
    pub(super) fn dotted_path(&mut self) -> Option<Run> {
        if self.profile.leaning != Leaning::Dots || self.random.percent(10) {
            return None;
        }
        let mut names: Vec<String> = Vec::new();
        if self.random.percent(90) {
            let (twice, forked, at) = (self.random.percent(60), self.random.percent(25), self.random.bits());
            let fork = self.fork.clone().filter(|_| forked);
            let keys = self.held().keys_mostly(twice);
            let key = fork.unwrap_or_else(|| keys[at as usize % keys.len()].clone());
            names = key.split('.').map(str::to_string).collect();
        }
        let more = if names.is_empty() { self.random.between(1, 4) } else { usize::from(self.random.percent(10)) };
        for _ in 0..more {
            names.push(self.random.pick(self.parts).to_string());
        }
        if names.len() > 1 && self.random.percent(8) {
            names.pop();
        }
        let names: Vec<&str> = names.iter().map(String::as_str).collect();
        Some(self.builder.names(&names))
    }

    fn lookup(&mut self) -> u32 {
        let node = if self.random.percent(60) {
            Node::Context { path: self.path(&NAMES) }
        } else {
            Node::Scope { root: self.random.below(2) as u32, path: self.path(&ATTRIBUTES) }
        };
        self.builder.node(node)
    }

    /// A condition in which a lookup decides, or which binds a variable to what it finds.
    pub(super) fn dotted_condition(&mut self) -> u32 {
        let (left, right, op) = match self.random.below(10) {
            0..=5 if self.variables > 0 => return self.bound_lookup(),
            6 | 7 => (self.lookup(), self.lookup(), self.random.pick(&[4, 4, 5])),
            8 => return self.predicate(),
            _ => (self.lookup(), self.term(), self.random.pick(&[0, 3, 4, 4, 5])),
        };
        let (left, right) = if self.random.percent(50) { (left, right) } else { (right, left) };
        self.builder.node(Node::Comparison { op, left, right })
    }

    /// What a lookup finds, bound to a variable; often with the rows kept to itself.
    fn bound_lookup(&mut self) -> u32 {
        let variable = self.variable();
        let (left, right) = (self.builder.node(Node::Variable { variable }), self.lookup());
        let body = self.builder.node(Node::Comparison { op: 4, left, right });
        if self.random.percent(65) {
            return body;
        }
        self.builder.node(Node::Exists { variable, body })
    }
}
