//! Terms and values that share what they are made of.

use casefile::{Node, Value};

use super::towers::Tower;
use super::{Making, INTS, NAMES, TEXTS};

/// What a node comes to with all that is below it.
#[derive(Clone, Copy)]
pub(super) struct Measure {
    pub size: u64,
    pub height: u32,
}

/// How large a tower may be, were nothing shared: mostly small, now and then with ten doublings.
const TERM_SIZES: [u64; 16] = [4, 8, 8, 16, 16, 16, 32, 32, 32, 64, 64, 64, 128, 256, 512, 2_048];
/// Values are held by every point, so fewer are large.
const VALUE_SIZES: [u64; 24] =
    [4, 8, 8, 8, 16, 16, 16, 16, 32, 32, 32, 32, 64, 64, 64, 64, 128, 128, 128, 128, 256, 256, 512, 1_024];
const MOST_LEVELS: usize = 14;
/// What stands for more nodes, or has more height, is not built upon: the mosts are far from here.
const MOST_SIZE: u64 = 8_192;
const MOST_BELOW: u32 = 20;

/// What a level of nested values is: an array, or an object whose names begin with this one.
#[derive(Clone, Copy)]
enum Holder {
    Array,
    Object { first: usize },
}

/// Decimals of which most pairs are equal.
const PAIRS: [(&str, &str); 6] =
    [("1.0", "1.00"), ("1.0", "1.00"), ("2.50", "2.5"), ("-0.0", "0.0"), ("1.00000", "1.00000"), ("1.0", "1.00000")];

impl Making<'_> {
    fn tower(&mut self, widths: &[usize], leaves: usize, sizes: &[u64]) -> Tower {
        let most = self.random.pick(sizes);
        let levels = self.random.between(2, MOST_LEVELS);
        Tower::random(self.random, levels, widths, leaves, most)
    }

    // ---- terms

    /// A comparison of terms that share arithmetic: with themselves, with an equal term built apart,
    /// with one of another leaf, or with any other.
    pub(super) fn shared_terms(&mut self, nesting: usize) -> u32 {
        let mut leaves: Vec<u32> = (0..self.random.between(1, 3)).map(|_| self.number_leaf()).collect();
        let mut tower = self.tower(&[2], leaves.len(), &TERM_SIZES);
        let ops: Vec<u32> = (0..tower.height()).map(|_| self.random.pick(&[0, 0, 0, 1, 1, 2])).collect();
        if self.random.percent(40) {
            leaves.push(self.odd_leaf(nesting, tower.size));
            tower = tower.with_leaf(self.random, leaves.len() - 1);
        }
        let one = self.build_terms(&tower, &ops, &leaves);
        let two = match self.random.below(10) {
            0 => one,
            1..=3 => self.build_terms(&tower, &ops, &leaves),
            4..=6 => {
                leaves.push(if self.random.percent(60) {
                    self.number_leaf()
                } else {
                    self.odd_leaf(nesting, tower.size)
                });
                let tower = tower.with_leaf(self.random, leaves.len() - 1);
                self.build_terms(&tower, &ops, &leaves)
            }
            _ => self.variable_or_term(),
        };
        let op = self.random.pick(&[0, 1, 2, 3, 4, 4, 4, 4, 5]);
        let (left, right) = if self.random.percent(50) { (one, two) } else { (two, one) };
        let right = self.builder.node(Node::Comparison { op, left, right });
        if self.random.percent(60) {
            return right;
        }
        let left = self.predicate();
        self.builder.node(Node::And { left, right })
    }

    fn build_terms(&mut self, tower: &Tower, ops: &[u32], leaves: &[u32]) -> u32 {
        let builder = &mut self.builder;
        let made = tower.build(&[], leaves, |level, sides| {
            builder.node(Node::Arithmetic { op: ops[level], left: sides[0], right: sides[1] })
        });
        made[made.len() - 1]
    }

    /// A term that mostly is an Int.
    fn number_leaf(&mut self) -> u32 {
        let node = match self.random.below(6) {
            0 | 1 if self.variables > 0 => Node::Variable { variable: self.variable() },
            2 => Node::Context { path: self.builder.names(&["a"]) },
            3 => return self.summand(0),
            _ => {
                let n = if self.random.percent(80) {
                    self.random.between(0, 4) as i64 - 1
                } else {
                    self.random.pick(&INTS)
                };
                Node::Literal { value: self.builder.int(n) }
            }
        };
        self.builder.node(node)
    }

    /// A term that mostly ends the arithmetic above it, or an aggregate, for a tower of this size.
    fn odd_leaf(&mut self, nesting: usize, size: u64) -> u32 {
        if nesting > 0 && self.random.percent(60) {
            let aggregate = self.aggregate(nesting - 1);
            if self.can_carry(aggregate, size) {
                return self.builder.node(Node::Aggregate { aggregate });
            }
        }
        let node = match self.random.below(3) {
            0 => Node::Wildcard,
            1 => Node::Context { path: self.builder.names(&["none"]) },
            _ => Node::Literal { value: self.random.pick(&self.literals) },
        };
        self.builder.node(node)
    }

    /// How many nodes a node stands for, were nothing shared, and its height.
    pub(super) fn measure(&mut self, node: u32) -> Measure {
        for k in self.measures.len()..self.builder.nodes().len() {
            let node = self.builder.nodes()[k];
            // A Predicate's terms are leaves, and not among its children.
            let terms = if let Node::Predicate { arguments, .. } = node { arguments.count } else { 0 };
            let mut measure = Measure { size: 1 + u64::from(terms), height: 1 + terms.min(1) };
            for child in node.children(|_| Vec::new()) {
                let below = self.measures[child as usize];
                measure.size += below.size;
                measure.height = measure.height.max(1 + below.height);
            }
            self.measures.push(measure);
        }
        self.measures[node as usize]
    }

    /// Whether more may be built upon a node, so that nothing grows too tall or too large.
    pub(super) fn can_carry(&mut self, node: u32, times: u64) -> bool {
        let Measure { size, height } = self.measure(node);
        size.saturating_mul(times) <= MOST_SIZE && height <= MOST_BELOW
    }

    // ---- values

    /// Nested values that share members, first among those that fields and terms draw from: one tower,
    /// an equal one built apart, one that differs in a leaf or level, one above another's levels, and
    /// arrays of them.
    pub(super) fn shared_values(&mut self) {
        let literal = self.random.percent(60);
        let pairs: Vec<(u32, u32)> = (0..self.random.between(1, 3)).map(|_| self.equal_leaves(literal)).collect();
        let (mut leaves, mut others): (Vec<u32>, Vec<u32>) = pairs.into_iter().unzip();
        let tower = self.tower(&[1, 2, 2, 2, 2, 3], leaves.len(), &VALUE_SIZES);
        let holders: Vec<Holder> = (0..tower.height()).map(|_| self.holder(literal)).collect();
        let one = self.build_values(&tower, &[], &leaves, &holders);
        let two = self.build_values(&tower, &[], &others, &holders);
        let (leaf, other) = self.equal_leaves(literal);
        leaves.push(leaf);
        others.push(other);
        let (mut changed, mut other_holders) = (tower.clone(), holders.clone());
        if self.random.percent(70) {
            changed = tower.with_leaf(self.random, leaves.len() - 1);
        } else {
            let level = self.random.below(tower.height());
            other_holders[level] = self.holder(literal);
        }
        let three = self.build_values(&changed, &[], &others, &other_holders);
        let shared = self.random.between(1, tower.height()) - 1;
        let four = self.build_values(&tower, &two[..shared], &leaves, &holders);
        let [one, two, three, four] = [one, two, three, four].map(|made| made[made.len() - 1]);
        let mut towers = vec![one, two, three, four];
        if self.random.percent(40) {
            for items in [[one, two, four], [two, four, one], [four, one, three]] {
                towers.push(self.builder.array(&items));
            }
        }
        let first = self.random.below(towers.len());
        towers.rotate_left(first);
        if literal {
            self.literals.splice(0..0, towers.iter().copied());
        }
        self.common.splice(0..0, towers);
    }

    fn build_values(&mut self, tower: &Tower, below: &[u32], leaves: &[u32], holders: &[Holder]) -> Vec<u32> {
        let builder = &mut self.builder;
        tower.build(below, leaves, |level, parts| match holders[level] {
            Holder::Array => builder.array(parts),
            Holder::Object { first } => {
                let members: Vec<(&str, u32)> = NAMES[first..].iter().copied().zip(parts.iter().copied()).collect();
                builder.object(&members)
            }
        })
    }

    fn holder(&mut self, literal: bool) -> Holder {
        if literal || self.random.percent(50) {
            return Holder::Array;
        }
        Holder::Object { first: self.random.pick(&[0, 0, 1, 2]) }
    }

    /// A leaf under two numbers, equal but for some decimals.
    fn equal_leaves(&mut self, literal: bool) -> (u32, u32) {
        match self.random.below(6) {
            0 | 1 => {
                let (one, two) = self.random.pick(&PAIRS);
                (self.builder.decimal(one), self.builder.decimal(two))
            }
            2 => {
                let text = self.random.pick(&TEXTS);
                (self.builder.text(text), self.builder.text(text))
            }
            3 if !literal => (self.builder.value(Value::Null), self.builder.value(Value::Null)),
            4 => {
                let width = self.random.pick(&[0, 1, 2, 8, 20]);
                let items: Vec<u32> = (0..width).map(|_| self.random.pick(&self.literals)).collect();
                (self.builder.array(&items), self.builder.array(&items))
            }
            _ => {
                let n = self.random.pick(&INTS);
                (self.builder.int(n), self.builder.int(n))
            }
        }
    }

    /// A condition that compares nested values: fields with terms, or terms with each other.
    pub(super) fn shared_comparison(&mut self) -> u32 {
        if self.random.percent(40) {
            return self.predicate();
        }
        let op = self.random.pick(&[4, 4, 4, 5]);
        let (left, right) = (self.nested_term(), self.nested_term());
        self.builder.node(Node::Comparison { op, left, right })
    }

    fn nested_term(&mut self) -> u32 {
        let node = match self.random.below(5) {
            0 | 1 => Node::Context { path: self.path(&NAMES) },
            2 => Node::Literal { value: self.literals[self.random.below(self.literals.len().min(4))] },
            3 if self.variables > 0 => Node::Variable { variable: self.variable() },
            _ => return self.term(),
        };
        self.builder.node(node)
    }
}
