//! Rules against what is known.

use super::known::{Kinds, Known};
use super::{About, Warning};
use crate::near::near_or_all;
use crate::records::{Node, Run, Within};
use crate::tables::Tables;
use crate::text::behind_dot;

const ROOTS: [&str; 2] = ["principal", "resource"];
/// Document 01's numbers of `==` and `!=`; lower ones are orderings.
pub const EQ: u32 = 4;

/// What the rules of a checked case speak of that is not known, and what in them can never hold.
pub fn rules(tables: &Tables, known: &Known) -> Vec<Warning> {
    let nodes: Vec<Node> = tables.nodes.iter().filter_map(|words| Node::read(*words)).collect();
    let mut look = Look { tables, known, nodes, variables: vec![Kinds::default(); 16], warnings: Vec::new() };
    look.variables = look.kinds_of_variables();
    for node in 0..look.nodes.len() as u32 {
        look.node(node);
    }
    look.warnings
}

pub struct Look<'a> {
    pub tables: &'a Tables,
    pub known: &'a Known,
    pub nodes: Vec<Node>,
    /// The kinds that each variable may be bound to by the rules.
    pub variables: Vec<Kinds>,
    warnings: Vec<Warning>,
}

impl Look<'_> {
    fn tell(&mut self, about: About, message: String) {
        self.warnings.push(Warning { about, message });
    }

    pub fn names(&self, run: Run) -> Vec<String> {
        let text = |&string: &u32| String::from_utf8_lossy(self.tables.string(string)).into_owned();
        self.tables.lists[run.places()].iter().map(text).collect()
    }

    /// Path and term of each argument.
    pub fn arguments(&self, run: Run) -> Vec<(Vec<String>, u32)> {
        let words = self.tables.lists.iter().copied().skip(run.first as usize).take(3 * run.count as usize);
        let words: Vec<u32> = words.collect();
        words.chunks(3).map(|a| (self.names(Run { first: a[0], count: a[1] }), a[2])).collect()
    }

    pub fn event(&self, namespace: Run, action: u32, kind: u32) -> (String, String) {
        let text = |string: u32| String::from_utf8_lossy(self.tables.string(string)).into_owned();
        let mut names = self.names(namespace);
        names.push(text(action));
        (names.join("::"), text(kind))
    }

    fn node(&mut self, number: u32) {
        let about = About::Node(number);
        match self.nodes[number as usize] {
            Node::Predicate { namespace, action, kind, arguments } => {
                let (action, kind) = self.event(namespace, action, kind);
                self.predicate(number, &action, &kind, arguments);
            }
            Node::Comparison { op, left, right } => self.comparison(about, op, [left, right]),
            Node::Arithmetic { left, right, .. } => self.numbers(about, "arithmetic", [left, right]),
            Node::Context { path } => {
                let path = self.names(path);
                let context = &self.known.context;
                if let Err((k, known)) = context.joined(&path) {
                    let near = near_or_all(&path[k], known);
                    let path = behind_dot(&path[..=k]);
                    self.tell(about, format!("{} `context.{path}`{near}", self.known.source()));
                }
            }
            Node::Scope { root, path } => self.scope(about, root as usize, path),
            Node::Formerly { within, .. } | Node::Previous { within, .. } | Node::Since { within, .. } => {
                self.window(about, within);
            }
            _ => {}
        }
    }

    fn window(&mut self, about: About, within: Within) {
        if within.amount < 0 {
            self.tell(
                about,
                "this window's amount is negative, so no point is ever in it: write it without the minus".to_string(),
            );
        }
    }

    fn predicate(&mut self, number: u32, action: &str, kind: &str, arguments: Run) {
        let known = self.known;
        let source = known.source();
        let Some(kinds) = known.actions.get(action) else {
            let near = near_or_all(action, known.actions.keys().map(String::as_str));
            return self.tell(About::Node(number), format!("{source} action `{action}`{near}"));
        };
        let Some(fields) = kinds.get(kind) else {
            let has: Vec<&str> = kinds.keys().map(String::as_str).collect();
            let message = format!("{source} `{action}` of kind `{kind}`; its kinds are: {}", has.join(", "));
            return self.tell(About::Node(number), message);
        };
        for (k, (path, term)) in self.arguments(arguments).into_iter().enumerate() {
            let about = About::Argument(number, k);
            let kinds = match fields.at(&path) {
                Ok(kinds) => kinds,
                Err((at, names)) => {
                    let near = match fields.joined(&path) {
                        Ok(_) => "; one whose own name holds a dot is reached by no path".to_string(),
                        Err(_) => near_or_all(&path[at], names),
                    };
                    self.tell(about, format!("{source} field `{}` in `{action}`{near}", behind_dot(&path[..=at])));
                    continue;
                }
            };
            let term = self.nodes[term as usize];
            let wanted = self.kinds(term);
            if term != Node::Wildcard && !wanted.none() && !wanted.meets(kinds) {
                let path = path.join(".");
                self.tell(
                    about,
                    format!("this never matches: `{path}` of `{action}` is {kinds}, and this is {wanted}; ask for one that it can be"),
                );
            }
        }
    }

    fn comparison(&mut self, about: About, op: u32, sides: [u32; 2]) {
        let [left, right] = sides.map(|side| self.nodes[side as usize]);
        if left == Node::Wildcard || right == Node::Wildcard {
            return self
                .tell(about, "this never holds: `*` stands for any field of an action, and nowhere else".to_string());
        }
        if op < EQ {
            return self.numbers(about, "an ordering", sides);
        }
        let (left, right) = (self.kinds(left), self.kinds(right));
        if op == EQ && !left.none() && !right.none() && !left.meets(right) {
            self.tell(
                about,
                format!("this never holds: the left side is {left}, the right side is {right}; make them one type"),
            );
        }
    }

    /// Orderings and arithmetic take integers only.
    fn numbers(&mut self, about: About, what: &str, sides: [u32; 2]) {
        for (side, words) in sides.into_iter().zip(["left", "right"]) {
            let kinds = self.kinds(self.nodes[side as usize]);
            if !kinds.none() && !kinds.meets(Kinds::INT) {
                self.tell(about, format!("this never holds: {what} takes integers, and the {words} side is {kinds}; compare it by == or !="));
            }
        }
    }

    fn scope(&mut self, about: About, root: usize, path: Run) {
        let known = self.known;
        if known.roots[root].none() {
            return self
                .tell(about, format!("{} {}: give the points one, or leave this out", known.source(), ROOTS[root]));
        }
        let path = self.names(path);
        if path.is_empty() || path == ["id"] || path == ["type"] {
            return;
        }
        if !known.roots[root].meets(Kinds::ENTITY) {
            return self
                .tell(about, format!("{} is no entity, so it has no attributes: compare it as it is", ROOTS[root]));
        }
        if let Err((k, names)) = known.attributes.joined(&path) {
            let near = near_or_all(&path[k], names);
            let path = behind_dot(&path[..=k]);
            self.tell(about, format!("{} entity with the attribute `{path}`{near}", known.source()));
        }
    }
}
