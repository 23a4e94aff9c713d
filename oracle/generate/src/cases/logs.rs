//! Longer logs, and the rules that find many rows in them or scan past most of their points.

use casefile::{Node, Point, Run, Within};

use super::{Making, NAMES};

/// How many of a hundred points have the event that rules mostly ask for.
const OFTEN: [usize; 4] = [85, 92, 97, 100];
const SELDOM: [usize; 5] = [1, 3, 8, 20, 50];
const ALWAYS: Within = Within { amount: i64::MAX, unit: 0 };
/// In a log of fewer points rows by the hundred come from pairs.
const LONG: usize = 200;

impl Making<'_> {
    /// Scalars under unlike numbers, some of them equal: a decimal of another text, a String that is an
    /// entity's own part.
    pub(super) fn many_values(&mut self) {
        for k in 0..self.random.between(2, 8) {
            let value = match self.random.below(4) {
                0 => {
                    let text = self.random.pick(&["1.0", "1.00", "2.5", "2.50", "1.00000"]);
                    self.builder.decimal(text)
                }
                1 => {
                    let (ty, id, _) = self.random.pick(&self.scope);
                    let text = self.random.pick(&[ty, id]);
                    self.builder.text(text)
                }
                _ => self.builder.int(k as i64),
            };
            self.common.push(value);
        }
    }

    /// So many points over a few records; the event that rules mostly ask for is at some of them.
    pub(super) fn long_log(&mut self, points: usize, seldom: bool) {
        let chance = if seldom { self.random.pick(&SELDOM) } else { self.random.pick(&OFTEN) };
        let records: Vec<u32> = (0..self.random.between(2, 12)).map(|_| self.record()).collect();
        let contexts: Vec<u32> = (0..2).map(|_| self.object(&NAMES, 0)).collect();
        let entities: Vec<Run> = (0..2).map(|_| self.entities()).collect();
        let mut time = 100;
        for _ in 0..points {
            time = self.next_time(time);
            let (namespace, action, kind) = self.event(chance);
            let (action, kind) = (self.builder.string(action), self.builder.string(kind));
            let namespace = self.builder.names(namespace);
            let logged = self.random.pick(&records);
            let context = self.random.pick(&contexts);
            let (principal, resource) = (self.root(), self.root());
            let entities = self.random.pick(&entities);
            self.builder.point(Point { time, namespace, action, kind, logged, context, principal, resource, entities });
        }
    }

    /// An object whose members are any of those at hand.
    fn record(&mut self) -> u32 {
        let count = self.random.pick(&[2, 2, 2, 3, 4]);
        let members: Vec<(&str, u32)> =
            NAMES[..count].iter().map(|name| (*name, self.common[self.random.below(self.common.len())])).collect();
        self.builder.object(&members)
    }

    /// Mostly a little later, now and then earlier, seldom at an end of the range.
    fn next_time(&mut self, time: i64) -> i64 {
        match self.random.below(100) {
            0..=5 => time.saturating_sub(self.random.below(40) as i64),
            6 if self.random.percent(20) => self.random.pick(&[i64::MIN, i64::MAX, -1, 100]),
            _ => time.saturating_add(self.random.below(4) as i64),
        }
    }

    /// The event A, request, or one that differs in action, kind or namespace.
    fn event(&mut self, chance: usize) -> (&'static [&'static str], &'static str, &'static str) {
        if self.random.percent(chance) {
            return (&[], "A", "request");
        }
        match self.random.below(8) {
            0..=3 => (&[], "B", "request"),
            4 | 5 => (&[], "A", "response"),
            6 => (&[], "C", "response"),
            _ => (&["N"], "A", "request"),
        }
    }

    /// Mostly a part of the log, often all of it.
    fn long_window(&mut self) -> Within {
        let points = self.builder.point_count();
        match self.random.below(20) {
            0..=9 => ALWAYS,
            10 => self.within(),
            _ => Within { amount: self.random.below(2 * points) as i64, unit: 0 },
        }
    }

    // ---- rules that find many rows

    /// A relation that mostly has many rows, in each way in which rows are joined or kept once.
    pub(super) fn many_rows(&mut self, nesting: usize) -> u32 {
        let within = self.long_window();
        if nesting == 0 || self.variables == 0 {
            let two = self.two_variables();
            return self.all_rows(within, two);
        }
        let below = nesting - 1;
        let node = match self.random.below(14) {
            0 | 1 => return self.many_rows(0),
            2 | 3 => Node::And { left: self.many_rows(0), right: self.many_rows(0) },
            4..=6 => Node::Or { left: self.many_rows(below), right: self.many_rows(below) },
            7 | 8 => Node::Since { left: self.lasting(), right: self.many_rows(below), within },
            9..=12 => Node::Exists { variable: self.variable(), body: self.many_rows(below) },
            _ => Node::Or { left: self.many_rows(below), right: self.own_part() },
        };
        self.builder.node(node)
    }

    /// A relation that mostly has rows by the hundred, kept once or about to be.
    pub(super) fn hundreds(&mut self) -> u32 {
        let last = self.variables.clamp(1, 4) - 1;
        let mut rows = self.all_rows(ALWAYS, [0, last / 2]);
        if self.builder.point_count() < LONG {
            let right = self.all_rows(ALWAYS, [last, last - last / 3]);
            rows = self.builder.node(Node::And { left: rows, right });
        }
        let node = match self.random.below(7) {
            0 | 1 => return rows,
            2 => Node::Or { left: rows, right: self.many_rows(0) },
            3 => Node::Or { left: self.many_rows(0), right: rows },
            4 | 5 if self.variables > 0 => Node::Exists { variable: self.variable(), body: rows },
            // Points of the same time only: the rows of few of them.
            _ => Node::Since { left: self.lasting(), right: rows, within: Within { amount: 0, unit: 0 } },
        };
        self.builder.node(node)
    }

    /// What one or two conditions bind over the log.
    fn all_rows(&mut self, within: Within, variables: [u32; 2]) -> u32 {
        let body = match self.random.below(12) {
            0..=4 => self.binding_predicate(variables),
            5..=7 if self.variables > 0 => {
                let left = self.binding_predicate([variables[0]; 2]);
                let right = self.builder.node(Node::Tp { variable: variables[1] });
                self.builder.node(Node::And { left, right })
            }
            8..=10 => {
                let left = self.binding_predicate(variables);
                let right = self.binding_predicate([variables[1], variables[0]]);
                self.builder.node(Node::Or { left, right })
            }
            _ => self.both_ways(),
        };
        self.builder.node(Node::Formerly { within, body })
    }

    /// A Predicate that mostly matches, and binds the first variable, often the second, too.
    fn binding_predicate(&mut self, [first, second]: [u32; 2]) -> u32 {
        let (namespace, action, kind) = self.event(97);
        let names = self.random.pick(&[["a", "b"], ["b", "a"]]);
        let mut arguments = vec![(self.builder.names(&names[..1]), self.bound_term(first))];
        if first != second && self.random.percent(50) {
            arguments.push((self.builder.names(&names[1..]), self.bound_term(second)));
        }
        self.event_predicate(namespace, action, kind, &arguments)
    }

    /// The variable, but for a few other terms.
    fn bound_term(&mut self, variable: u32) -> u32 {
        if self.variables == 0 || self.random.percent(5) {
            return self.term();
        }
        self.builder.node(Node::Variable { variable })
    }

    /// Two variables, where there are two mostly unlike.
    fn two_variables(&mut self) -> [u32; 2] {
        let many = self.variables.clamp(1, 4);
        let first = self.random.below(many as usize) as u32;
        [first, (first + self.random.pick(&[0, 1, 1, 2])) % many]
    }

    /// An entity's own part bound to a variable.
    fn own_part(&mut self) -> u32 {
        let variable = self.variable();
        let left = self.builder.node(Node::Variable { variable });
        let (root, name) = (self.random.below(2) as u32, self.random.pick(&["id", "type"]));
        let path = self.builder.names(&[name]);
        let right = self.builder.node(Node::Scope { root, path });
        self.builder.node(Node::Comparison { op: 4, left, right })
    }

    /// A condition that mostly holds at many points in a row.
    fn lasting(&mut self) -> u32 {
        match self.random.below(4) {
            0 | 1 => {
                let inner = self.predicate();
                self.builder.node(Node::Not { inner })
            }
            2 => self.predicate_of(&[], "B", "request"),
            _ => self.simple(),
        }
    }

    // ---- rules that scan

    /// A scan for a Predicate that most points are no event of.
    pub(super) fn scan(&mut self) -> u32 {
        let within = self.long_window();
        let node = match self.random.below(5) {
            0..=2 => Node::Formerly { within, body: self.sought() },
            _ => Node::Since { left: self.lasting(), right: self.sought(), within },
        };
        let right = self.builder.node(node);
        if self.random.percent(70) {
            return right;
        }
        // Lends its bindings to the scan.
        let left = self.predicate();
        self.builder.node(Node::And { left, right })
    }

    fn sought(&mut self) -> u32 {
        if self.random.percent(60) {
            return self.predicate();
        }
        let (namespace, action, kind) = self.event(30);
        self.predicate_of(namespace, action, kind)
    }

    /// A Predicate of this event, of one argument at most.
    fn predicate_of(&mut self, namespace: &[&str], action: &str, kind: &str) -> u32 {
        let arguments: Vec<(Run, u32)> =
            (0..self.random.below(2)).map(|_| (self.path(&NAMES), self.variable_or_term())).collect();
        self.event_predicate(namespace, action, kind, &arguments)
    }

    fn event_predicate(&mut self, namespace: &[&str], action: &str, kind: &str, arguments: &[(Run, u32)]) -> u32 {
        let arguments = self.builder.arguments(arguments);
        let (action, kind) = (self.builder.string(action), self.builder.string(kind));
        let namespace = self.builder.names(namespace);
        self.builder.node(Node::Predicate { namespace, action, kind, arguments })
    }
}
