//! Free variables and the order of binding, by the rules of the Rust's front end: a variable is bound by an `exists`,
//! by an aggregate's `for` or as a parameter, and what binds it stands before what asks it.

use std::collections::HashMap;

use crate::records::{Node, Run};
use crate::tables::Tables;
use crate::variables::Variables;

/// Document 01's number of `==`.
const EQ: u32 = 4;

/// What is wrong with a variable's binding.
#[derive(Clone, Copy, Debug, PartialEq, Eq)]
pub enum Why {
    /// Nothing around the rule binds it.
    Free,
    /// It is asked before anything binds it.
    Early,
    /// The body of its `exists` or `for` need not bind it.
    Unrestricted,
    /// It is summed, but stands not among the binders.
    NotSummed,
}

#[derive(Clone, Copy, Debug, PartialEq, Eq)]
pub struct Misuse {
    pub node: u32,
    pub variable: u32,
    pub why: Why,
}

/// The nodes of a case, with the variables that are free in each.
pub struct Binding<'a> {
    tables: &'a Tables,
    nodes: Vec<Node>,
    free: Vec<Variables>,
}

impl<'a> Binding<'a> {
    /// Of a case whose nodes refer to lower ones, as the check demands.
    pub fn of(tables: &'a Tables) -> Binding<'a> {
        let nodes: Vec<Node> = tables.nodes.iter().map(|words| Node::read(*words).unwrap_or(Node::Wildcard)).collect();
        let mut binding = Binding { tables, nodes, free: Vec::new() };
        for node in 0..binding.nodes.len() {
            let free = binding.free_in(binding.nodes[node]);
            binding.free.push(free);
        }
        binding
    }

    /// The variables that a node speaks of and does not bind itself.
    pub fn free(&self, node: u32) -> Variables {
        self.free[node as usize]
    }

    fn free_in(&self, node: Node) -> Variables {
        let below = self.children(node).into_iter().fold(Variables::default(), |all, child| all.or(self.free(child)));
        match node {
            Node::Tp { variable } | Node::Variable { variable } => below.with(variable),
            Node::Exists { variable, .. } => below.but(Variables::of([variable])),
            Node::Count { binders, .. } | Node::Sum { binders, .. } => below.but(self.binders(binders)),
            _ => below,
        }
    }

    fn binders(&self, run: Run) -> Variables {
        Variables::of(self.tables.lists.iter().skip(run.first as usize).take(run.count as usize).copied())
    }

    /// What a node refers to, in the order of its text.
    pub fn children(&self, node: Node) -> Vec<u32> {
        node.children(|run: Run| {
            let words = self.tables.lists.iter().skip(run.first as usize).take(3 * run.count as usize);
            words.copied().skip(2).step_by(3).collect()
        })
    }

    /// What is wrong with a rule or number that is asked with these variables bound.
    pub fn asked(&self, node: u32, bound: Variables) -> Vec<Misuse> {
        let missing = self.free(node).but(bound);
        let free = |variable| Misuse { node: self.first_use(node, variable), variable, why: Why::Free };
        let mut misuses: Vec<Misuse> = missing.iter().map(free).collect();
        let mut walk = Walk { binding: self, seen: HashMap::new(), misuses: Vec::new() };
        walk.rows(node, bound.or(missing));
        misuses.append(&mut walk.misuses);
        misuses
    }

    /// What is wrong with a rule whose rows are asked for: all that is free in it must be found.
    pub fn listed(&self, node: u32, bound: Variables) -> Vec<Misuse> {
        let mut walk = Walk { binding: self, seen: HashMap::new(), misuses: Vec::new() };
        let given = walk.rows(node, bound);
        let missing = self.free(node).but(given);
        let free = |variable| Misuse { node: self.first_use(node, variable), variable, why: Why::Unrestricted };
        let more = missing.iter().filter(|v| walk.misuses.iter().all(|misuse| misuse.variable != *v)).map(free);
        walk.misuses.iter().copied().chain(more.collect::<Vec<_>>()).collect()
    }

    /// The first place below a node where a variable, free in it, is spoken of.
    pub fn first_use(&self, node: u32, variable: u32) -> u32 {
        let children = self.children(self.nodes[node as usize]);
        match children.into_iter().find(|&child| self.free(child).contains(variable)) {
            Some(child) => self.first_use(child, variable),
            None => node,
        }
    }

    /// Whether one node stands in another or is it.
    pub fn reaches(&self, node: u32, wanted: u32) -> bool {
        self.below(node).get(wanted as usize) == Some(&true)
    }

    /// For each node up to this one, whether it stands in it or is it.
    pub fn below(&self, node: u32) -> Vec<bool> {
        let mut below = vec![false; node as usize + 1];
        below[node as usize] = true;
        for number in (0..=node as usize).rev() {
            if below[number] {
                self.children(self.nodes[number]).into_iter().for_each(|child| below[child as usize] = true);
            }
        }
        below
    }
}

/// One look through a rule, in the order in which the evaluator goes.
struct Walk<'a> {
    binding: &'a Binding<'a>,
    /// What a node gives under given bindings: shared nodes are looked at once.
    seen: HashMap<(u32, Variables), Variables>,
    misuses: Vec<Misuse>,
}

impl Walk<'_> {
    /// The variables that every row of a node has, where those in `bound` are bound before it.
    fn rows(&mut self, number: u32, bound: Variables) -> Variables {
        if let Some(given) = self.seen.get(&(number, bound)) {
            return *given;
        }
        let given = match self.binding.nodes[number as usize] {
            Node::And { left, right } => {
                let given = self.rows(left, bound);
                self.rows(right, given)
            }
            Node::Or { left, right } => self.rows(left, bound).both(self.rows(right, bound)),
            Node::Formerly { body, .. } | Node::Previous { body, .. } => self.rows(body, bound),
            Node::Since { left, right, .. } => {
                let given = self.rows(right, bound);
                self.filter(left, given)
            }
            Node::Not { inner } => self.filter(inner, bound),
            Node::Exists { variable, body } => {
                let of = Variables::of([variable]);
                let given = self.restricted(number, of, body, bound);
                given.but(of).or(bound.both(of))
            }
            Node::Comparison { op, left, right } => self.comparison(number, op, [left, right], bound),
            Node::Sum { binders, body, .. } | Node::Count { binders, body } => {
                self.aggregate(number, binders, body, bound);
                bound
            }
            Node::Aggregate { aggregate } => self.rows(aggregate, bound),
            Node::Arithmetic { left, right, .. } => {
                self.rows(left, bound);
                self.rows(right, bound);
                bound
            }
            _ => bound.or(self.binding.free(number)),
        };
        self.seen.insert((number, bound), given);
        given
    }

    /// A condition that binds nothing: all that it speaks of is bound before it.
    fn filter(&mut self, node: u32, bound: Variables) -> Variables {
        let bound = self.needs(node, bound);
        self.rows(node, bound);
        bound
    }

    /// Tells what is free in a node and not bound; that counts as bound from then on, so that it is told once.
    fn needs(&mut self, node: u32, bound: Variables) -> Variables {
        for variable in self.binding.free(node).but(bound).iter() {
            let node = self.binding.first_use(node, variable);
            self.misused(Misuse { node, variable, why: Why::Early });
        }
        bound.or(self.binding.free(node))
    }

    fn misused(&mut self, misuse: Misuse) {
        if !self.misuses.contains(&misuse) {
            self.misuses.push(misuse);
        }
    }

    /// The rows of a body that must bind these variables itself.
    fn restricted(&mut self, node: u32, binders: Variables, body: u32, bound: Variables) -> Variables {
        let given = self.rows(body, bound.but(binders));
        for variable in binders.but(given).iter() {
            self.misused(Misuse { node, variable, why: Why::Unrestricted });
        }
        given
    }

    /// `x == ..` binds x by the other side; every other comparison only asks.
    fn comparison(&mut self, number: u32, op: u32, [left, right]: [u32; 2], bound: Variables) -> Variables {
        let unbound = |side: u32| match self.binding.nodes[side as usize] {
            Node::Variable { variable } => Some(variable).filter(|variable| !bound.contains(*variable)),
            _ => None,
        };
        match (unbound(left), unbound(right)) {
            (Some(variable), None) if op == EQ => self.filter(right, bound).with(variable),
            (None, Some(variable)) if op == EQ => self.filter(left, bound).with(variable),
            _ => {
                let bound = self.needs(number, bound);
                self.rows(left, bound);
                self.rows(right, bound);
                bound
            }
        }
    }

    fn aggregate(&mut self, number: u32, binders: Run, body: u32, bound: Variables) {
        let bound = self.needs(number, bound);
        let binders = self.binding.binders(binders);
        self.restricted(number, binders, body, bound);
        if let Node::Sum { variable, .. } = self.binding.nodes[number as usize] {
            if !binders.contains(variable) {
                self.misused(Misuse { node: number, variable, why: Why::NotSummed });
            }
        }
    }
}
