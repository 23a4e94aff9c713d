//! An `exists` that does not hold is asked with its variable unbound, which is another thing than with it bound. A part
//! is shown only where what it says is so whatever the variable stands for.

use std::cell::RefCell;
use std::collections::HashMap;

use casefile::binding::Binding;
use casefile::{Node, Tables};

use super::walk::{By, Part, RIGHT_NO};

pub struct Every<'a> {
    tables: &'a Tables,
    nodes: &'a Binding<'a>,
    variable: u32,
    /// What is known of nodes: rules may share their parts many times over.
    known: RefCell<HashMap<u32, bool>>,
}

impl<'a> Every<'a> {
    pub fn of(tables: &'a Tables, nodes: &'a Binding<'a>, variable: u32) -> Every<'a> {
        Every { tables, nodes, variable, known: RefCell::default() }
    }

    /// A part that does not hold, as it may be shown; None where it may not.
    pub fn part(&self, part: Part) -> Option<Part> {
        let bound = part.bound.iter().any(|(variable, _)| *variable == self.variable);
        if bound || !self.speaks(part.node) {
            return Some(part);
        }
        let by = match (part.by, self.read(part.node)) {
            // Left may fail for one value here and for another there; with no anchor it is not asked.
            (By::Points(carried), Node::Since { left, right, .. }) => {
                let shown = self.fails(right) && (carried.points.is_empty() || !self.speaks(left));
                shown.then_some(By::Points(carried))?
            }
            (By::Parts(..), Node::Not { .. }) => return None,
            (By::Parts(how, parts), Node::And { left, .. }) => {
                let lent = parts.iter().any(|part| part.bound.iter().any(|(v, _)| *v == self.variable));
                let apart = how == RIGHT_NO && self.speaks(left) && !lent;
                By::Parts(if apart { "its right side does not hold" } else { how }, self.parts(parts)?)
            }
            (By::Parts(how, parts), _) => By::Parts(how, self.parts(parts)?),
            (by, _) => self.fails(part.node).then_some(by)?,
        };
        Some(Part { by, ..part })
    }

    fn parts(&self, parts: Vec<Part>) -> Option<Vec<Part>> {
        parts.into_iter().map(|part| self.part(part)).collect()
    }

    fn read(&self, node: u32) -> Node {
        Node::read(self.tables.nodes[node as usize]).unwrap_or(Node::Wildcard)
    }

    fn speaks(&self, node: u32) -> bool {
        self.nodes.free(node).contains(self.variable)
    }

    /// Whether a condition that does not hold with the variable unbound holds with no value of it.
    fn fails(&self, node: u32) -> bool {
        if !self.speaks(node) {
            return true;
        }
        if let Some(&known) = self.known.borrow().get(&node) {
            return known;
        }
        let read = self.read(node);
        let fails = match read {
            Node::Predicate { .. } => self.matches(read),
            // An event lends what it binds: on its right the variable is bound.
            Node::And { left, right } => self.fails(left) && (self.lends(left) || self.fails(right)),
            Node::Or { left, right } | Node::Since { left, right, .. } => self.fails(left) && self.fails(right),
            Node::Formerly { body, .. } | Node::Previous { body, .. } | Node::Exists { body, .. } => self.fails(body),
            Node::Tp { .. } => true,
            _ => false,
        };
        self.known.borrow_mut().insert(node, fails);
        fails
    }

    fn lends(&self, node: u32) -> bool {
        matches!(self.read(node), Node::Predicate { .. }) && self.speaks(node)
    }

    /// Whether an event has the variable as a field of its own, so that unbound it stands for every value.
    fn matches(&self, predicate: Node) -> bool {
        let arguments = self.nodes.children(predicate).into_iter().filter(|&argument| self.speaks(argument));
        arguments.into_iter().all(|argument| matches!(self.read(argument), Node::Variable { .. }))
    }
}
