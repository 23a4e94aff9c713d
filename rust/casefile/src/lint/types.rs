//! The kinds that terms and variables of a rule may have.

use super::known::Kinds;
use super::rules::{Look, EQ};
use crate::records::Node;

impl Look<'_> {
    /// A variable takes the kinds of the fields that it stands for, and of what it is compared with by `==`.
    pub fn kinds_of_variables(&self) -> Vec<Kinds> {
        let mut kinds = vec![Kinds::default(); 16];
        let mut add = |variable: u32, more: Kinds| kinds[variable as usize] = kinds[variable as usize].or(more);
        for node in &self.nodes {
            match *node {
                Node::Tp { variable } => add(variable, Kinds::INT),
                Node::Predicate { namespace, action, kind, arguments } => {
                    let (action, kind) = self.event(namespace, action, kind);
                    let fields = self.known.actions.get(&action).and_then(|kinds| kinds.get(&kind));
                    for (path, term) in self.arguments(arguments) {
                        if let Node::Variable { variable } = self.nodes[term as usize] {
                            add(variable, fields.map_or(Kinds::ALL, |fields| fields.at(&path).unwrap_or(Kinds::ALL)));
                        }
                    }
                }
                Node::Comparison { op: EQ, left, right } => {
                    for (one, other) in [(left, right), (right, left)] {
                        if let Node::Variable { variable } = self.nodes[one as usize] {
                            let other = self.nodes[other as usize];
                            add(
                                variable,
                                if matches!(other, Node::Variable { .. }) { Kinds::ALL } else { self.kinds(other) },
                            );
                        }
                    }
                }
                _ => {}
            }
        }
        kinds
    }

    /// The kinds that a term may have.
    pub fn kinds(&self, term: Node) -> Kinds {
        match term {
            Node::Literal { value } => Kinds::of(self.tables.values[value as usize]),
            Node::Context { path } => self.known.context.joined(&self.names(path)).unwrap_or(Kinds::ALL),
            Node::Scope { root, path } if path.count == 0 => self.known.roots[root as usize],
            Node::Scope { path, .. } => {
                let path = self.names(path);
                let own = if path == ["id"] || path == ["type"] { Kinds::STRING } else { Kinds::default() };
                own.or(self.known.attributes.joined(&path).unwrap_or(if own.none() { Kinds::ALL } else { own }))
            }
            Node::Variable { variable } => match self.variables[variable as usize] {
                kinds if kinds.none() => Kinds::ALL,
                kinds => kinds,
            },
            Node::Aggregate { .. } | Node::Arithmetic { .. } => Kinds::INT,
            _ => Kinds::default(),
        }
    }
}
