//! Random cases that pass the check: every node and value kind, nested and shared.

mod dots;
mod logs;
mod sharing;
mod towers;

use casefile::{Builder, Node, Point, Run, Tables, Value, Within};

use crate::random::Random;

/// How large a case may become.
#[derive(Clone, Copy)]
pub struct Profile {
    pub most_points: usize,
    /// Rules and aggregates that are asked.
    pub most_rules: usize,
    pub most_nesting: usize,
    /// How often, in a hundred, what is rare is there: names, entities, nested values.
    pub rare: usize,
    pub leaning: Leaning,
}

/// What a case has more of than a plain one.
#[derive(Clone, Copy, PartialEq, Eq)]
pub enum Leaning {
    Plain,
    /// Arithmetic over shared arithmetic.
    Terms,
    /// Nested values that share members.
    Values,
    /// Relations of many rows, some of them.
    Rows,
    /// Relations of hundreds of rows.
    Hundreds,
    /// Points that a scan passes over.
    Scans,
    /// Names with dots in context, attributes and logged fields.
    Dots,
}

impl Profile {
    pub const TINY: Profile =
        Profile { most_points: 3, most_rules: 1, most_nesting: 2, rare: 4, leaning: Leaning::Plain };
    pub const SMALL: Profile =
        Profile { most_points: 4, most_rules: 1, most_nesting: 3, rare: 10, leaning: Leaning::Plain };
    pub const USUAL: Profile =
        Profile { most_points: 7, most_rules: 6, most_nesting: 4, rare: 35, leaning: Leaning::Plain };
    pub const TERMS: Profile =
        Profile { most_points: 5, most_rules: 3, most_nesting: 3, rare: 10, leaning: Leaning::Terms };
    pub const VALUES: Profile =
        Profile { most_points: 5, most_rules: 4, most_nesting: 3, rare: 20, leaning: Leaning::Values };
    pub const ROWS: Profile =
        Profile { most_points: 28, most_rules: 3, most_nesting: 3, rare: 10, leaning: Leaning::Rows };
    /// Enough points for hundreds of pairs.
    pub const PAIRS: Profile =
        Profile { most_points: 48, most_rules: 2, most_nesting: 2, rare: 5, leaning: Leaning::Hundreds };
    /// Enough points for hundreds of rows without pairs.
    pub const LONG: Profile =
        Profile { most_points: 1_100, most_rules: 2, most_nesting: 1, rare: 5, leaning: Leaning::Hundreds };
    /// Small enough for the list of answers, and for a claim over the definition.
    pub const FEW_DOTS: Profile =
        Profile { most_points: 3, most_rules: 1, most_nesting: 2, rare: 10, leaning: Leaning::Dots };
    pub const DOTS: Profile =
        Profile { most_points: 5, most_rules: 4, most_nesting: 3, rare: 30, leaning: Leaning::Dots };
    pub const SCANS: Profile =
        Profile { most_points: 120, most_rules: 3, most_nesting: 2, rare: 10, leaning: Leaning::Scans };
}

pub struct RandomCase {
    pub tables: Tables,
    pub bytes: Vec<u8>,
    pub conditions: Vec<u32>,
    pub aggregates: Vec<u32>,
}

const DECIMALS: [&str; 16] = [
    "1.0",
    "1.00",
    "1.000",
    "1.0000",
    "1.00000",
    "01.0",
    "2.5",
    "2.50",
    "0.0",
    "-0.0",
    "1",
    ".5",
    "-922337203685477.5808",
    "922337203685477.5807",
    "922337203685477.58070",
    "922337203685477.5808",
];
const TEXTS: [&str; 8] = ["a", "b", "T", "1.0", "", "id", "naïve \"q\" \\ \u{301}", "x.y"];
/// The first two stand in nearly every object, so that paths mostly lead somewhere.
const NAMES: [&str; 5] = ["a", "b", "k", "m", ""];
const ATTRIBUTES: [&str; 5] = ["a", "id", "type", "b", "k"];
const INTS: [i64; 11] = [0, 1, 2, 3, -5, i64::MAX, i64::MAX, i64::MIN, i64::MIN, i64::MAX - 1, 4_294_967_296];
const TYPES: [&str; 3] = ["T", "N::T", ""];

/// A random case of a profile.
pub fn random_case(random: &mut Random, profile: Profile) -> RandomCase {
    let variables = random.pick(&[0, 1, 1, 2, 2, 2, 3, 3, 3, 3, 4, 4, 4, 16]);
    let flavour = random.pick(&[Flavour::Mixed, Flavour::Mixed, Flavour::Ints, Flavour::Ints, Flavour::Decimals]);
    let mut making = Making {
        builder: Builder::new(variables),
        random,
        profile,
        flavour,
        variables,
        common: Vec::new(),
        scope: Vec::new(),
        literals: Vec::new(),
        conditions: Vec::new(),
        measures: Vec::new(),
        parts: &[],
        joined: Vec::new(),
        fork: None,
    };
    making.values();
    making.log();
    let (mut conditions, mut aggregates) = (Vec::new(), Vec::new());
    for _ in 0..making.random.between(1, profile.most_rules) {
        let nesting = making.random.between(1, profile.most_nesting);
        let rule = making.rule(nesting);
        conditions.push(making.tall(rule));
    }
    for _ in 0..making.random.between(1, profile.most_rules.div_ceil(2)) {
        let nesting = making.random.between(0, profile.most_nesting - 1);
        aggregates.push(making.aggregate(nesting));
    }
    let tables = making.builder.finish();
    RandomCase { bytes: tables.encode(), tables, conditions, aggregates }
}

/// What most scalars of a case are.
#[derive(Clone, Copy)]
enum Flavour {
    Mixed,
    Ints,
    Decimals,
}

struct Making<'a> {
    builder: Builder,
    random: &'a mut Random,
    profile: Profile,
    flavour: Flavour,
    variables: u32,
    /// Values that fields and terms draw from, few, so that they meet.
    common: Vec<u32>,
    /// Entities, for principal and resource: type, id and value.
    scope: Vec<(&'static str, &'static str, u32)>,
    /// Values that may stand in a literal.
    literals: Vec<u32>,
    /// Conditions made so far, to be shared.
    conditions: Vec<u32>,
    /// Of each node made so far, up to the last that was measured.
    measures: Vec<sharing::Measure>,
    /// What names with dots are joined of, and the objects that have them.
    parts: &'static [&'static str],
    joined: Vec<dots::Joined>,
    /// A key that leads back from the longest name to a shorter one.
    fork: Option<String>,
}

impl Making<'_> {
    fn values(&mut self) {
        for _ in 0..self.random.between(2, 4) {
            let value = self.scalar();
            self.literals.push(value);
        }
        for _ in 0..self.random.between(1, 2) {
            let (ty, id) = (self.random.pick(&TYPES), self.random.pick(&TEXTS));
            let entity = self.builder.entity(ty, id);
            self.scope.push((ty, id, entity));
            self.literals.push(entity);
        }
        while self.random.percent(self.profile.rare) {
            let items: Vec<u32> = (0..self.random.below(3)).map(|_| self.random.pick(&self.literals)).collect();
            let array = self.builder.array(&items);
            self.literals.push(array);
        }
        self.common = self.literals.clone();
        if self.random.percent(30) {
            let null = self.builder.value(Value::Null);
            self.common.push(null);
        }
        while self.random.percent(self.profile.rare) {
            let object = self.object(&NAMES, 1);
            self.common.push(object);
            if self.random.percent(50) {
                let array = self.builder.array(&[object]);
                self.common.push(array);
            }
        }
        match self.profile.leaning {
            Leaning::Values => self.shared_values(),
            Leaning::Dots => self.dotted_values(),
            Leaning::Rows | Leaning::Hundreds => {
                if self.random.percent(10) {
                    self.shared_values();
                }
                self.many_values();
            }
            _ => {}
        }
    }

    fn log(&mut self) {
        let points = self.random.between(self.profile.most_points / 2, self.profile.most_points);
        match self.profile.leaning {
            Leaning::Rows | Leaning::Hundreds => self.long_log(points, false),
            Leaning::Scans => self.long_log(points, true),
            _ => (0..points).for_each(|_| self.point()),
        }
    }

    fn scalar(&mut self) -> u32 {
        let kind = match self.flavour {
            _ if self.random.percent(25) => self.random.below(4),
            Flavour::Mixed => self.random.below(4),
            Flavour::Ints => 0,
            Flavour::Decimals => 1,
        };
        match kind {
            0 => {
                let n = self.random.pick(&INTS);
                self.builder.int(n)
            }
            1 => {
                let text = self.random.pick(&DECIMALS);
                self.builder.decimal(text)
            }
            2 => {
                let text = self.random.pick(&TEXTS);
                self.builder.text(text)
            }
            _ => {
                let b = self.random.percent(50);
                self.builder.value(Value::Bool(b))
            }
        }
    }

    /// An object with some of these names; nested ones come from `common`.
    fn object(&mut self, names: &[&'static str], least: usize) -> u32 {
        let mut members: Vec<(&str, u32)> = Vec::new();
        for (k, name) in names.iter().enumerate() {
            let chance = if k < 2 { 92 } else { self.profile.rare };
            if self.random.percent(chance) || members.len() < least {
                members.push((name, self.common_value()));
            }
        }
        self.builder.object(&members)
    }

    /// Logged fields, context or attributes.
    fn record_of(&mut self, names: &[&'static str], least: usize) -> u32 {
        match self.dotted_record() {
            Some(object) => object,
            None => self.object(names, least),
        }
    }

    /// Mostly one of the first few, so that fields and terms meet.
    fn common_value(&mut self) -> u32 {
        let few = if self.random.percent(75) { self.common.len().min(3) } else { self.common.len() };
        self.common[self.random.below(few)]
    }

    fn point(&mut self) {
        let time = match self.random.below(40) {
            0 => i64::MIN,
            1 => i64::MAX,
            2 => -1,
            3..=9 => self.random.between(95, 130) as i64,
            _ => (100 + 5 * self.builder.point_count() + self.random.below(5)) as i64,
        };
        let namespace = self.namespace();
        let (action, kind) = self.action();
        let logged_names = if self.random.percent(5) { ["a", "b", "k", "m", "x.y"] } else { NAMES };
        let logged = self.record_of(&logged_names, 2);
        let context = self.record_of(&NAMES, 0);
        let (principal, resource) = (self.root(), self.root());
        let entities = self.entities();
        self.builder.point(Point { time, namespace, action, kind, logged, context, principal, resource, entities });
    }

    fn namespace(&mut self) -> Run {
        match self.random.below(100) {
            0 => self.builder.names(&["N"]),
            1 => self.builder.names(&["N", "M"]),
            _ => self.builder.names(&[]),
        }
    }

    fn action(&mut self) -> (u32, u32) {
        let action = if self.random.percent(92) { "A" } else { "B" };
        let kind = if self.random.percent(97) { "request" } else { "response" };
        (self.builder.string(action), self.builder.string(kind))
    }

    fn root(&mut self) -> Option<u32> {
        match self.random.below(10) {
            0 | 1 => None,
            2 => Some(self.random.pick(&self.common)),
            _ => Some(self.random.pick(&self.scope).2),
        }
    }

    /// Records of some of the scope's entities and of others.
    fn entities(&mut self) -> Run {
        let mut items: Vec<(&str, &str, u32)> = Vec::new();
        let often = if self.profile.leaning == Leaning::Dots { 60 } else { self.profile.rare };
        for _ in 0..3 {
            if !self.random.percent(often) {
                continue;
            }
            let (ty, id) = if self.random.percent(70) {
                let (ty, id, _) = self.random.pick(&self.scope);
                (ty, id)
            } else {
                (self.random.pick(&TYPES), self.random.pick(&TEXTS))
            };
            if !items.iter().any(|item| item.0 == ty && item.1 == id) {
                items.push((ty, id, self.record_of(&ATTRIBUTES, 0)));
            }
        }
        self.builder.entities(&items)
    }

    fn variable(&mut self) -> u32 {
        self.random.below(self.variables.min(4) as usize) as u32
    }

    fn within(&mut self) -> Within {
        let amount = match self.random.below(25) {
            0 => 0,
            1 => -1,
            2 => i64::MAX,
            3 => i64::MIN,
            4 => 1 << 32,
            _ => self.random.pick(&[1, 5, 10, 20, 60, 100, 100]),
        };
        Within { amount, unit: self.random.pick(&[0, 0, 0, 0, 1, 2, 3]) }
    }

    fn path(&mut self, names: &[&str]) -> Run {
        if let Some(path) = self.dotted_path() {
            return path;
        }
        let length = if self.random.percent(93) { 1 } else { 2 };
        let path: Vec<&str> = (0..length)
            .map(|_| if self.random.percent(90) { self.random.pick(&names[..2]) } else { self.random.pick(names) })
            .collect();
        self.builder.names(&path)
    }

    /// A term that may stand anywhere.
    fn term(&mut self) -> u32 {
        let node = match self.random.below(20) {
            0..=6 => {
                let few = if self.random.percent(75) { self.literals.len().min(3) } else { self.literals.len() };
                Node::Literal { value: self.literals[self.random.below(few)] }
            }
            7..=9 => Node::Context { path: self.path(&NAMES) },
            10..=12 => {
                let root = self.random.below(2) as u32;
                let path = if self.random.percent(25) { self.builder.names(&[]) } else { self.path(&ATTRIBUTES) };
                Node::Scope { root, path }
            }
            13 => Node::Wildcard,
            _ if self.variables > 0 => Node::Variable { variable: self.variable() },
            _ => Node::Wildcard,
        };
        self.builder.node(node)
    }

    fn variable_or_term(&mut self) -> u32 {
        if self.variables > 0 && self.random.percent(85) {
            let variable = self.variable();
            return self.builder.node(Node::Variable { variable });
        }
        self.term()
    }

    /// A term that may stand in a comparison.
    fn operand(&mut self, nesting: usize) -> u32 {
        match self.random.below(10) {
            0..=2 if nesting > 0 => {
                let aggregate = self.aggregate(nesting - 1);
                self.builder.node(Node::Aggregate { aggregate })
            }
            3 | 4 if nesting > 0 => {
                let op = self.random.below(3) as u32;
                let (left, right) = (self.summand(nesting - 1), self.summand(nesting - 1));
                self.builder.node(Node::Arithmetic { op, left, right })
            }
            _ => self.term(),
        }
    }

    /// A side of arithmetic, mostly an Int, so that numbers come out and overflow.
    fn summand(&mut self, nesting: usize) -> u32 {
        let ints: Vec<u32> = (0..self.builder.values().len() as u32)
            .filter(|&v| matches!(self.builder.values()[v as usize], Value::Int(_)))
            .collect();
        if ints.is_empty() || self.random.percent(40) {
            return self.operand(nesting);
        }
        let value = self.random.pick(&ints);
        self.builder.node(Node::Literal { value })
    }

    fn predicate(&mut self) -> u32 {
        let namespace = self.namespace();
        let (action, kind) = self.action();
        let arguments: Vec<(Run, u32)> = (0..self.random.pick(&[0, 1, 1, 1, 1, 2, 2, 3]))
            .map(|_| (self.path(&NAMES), self.variable_or_term()))
            .collect();
        let arguments = self.builder.arguments(&arguments);
        self.builder.node(Node::Predicate { namespace, action, kind, arguments })
    }

    fn comparison(&mut self, nesting: usize) -> u32 {
        let op = self.random.pick(&[0, 1, 2, 3, 4, 4, 4, 4, 5]);
        let left = if self.random.percent(40) { self.variable_or_term() } else { self.operand(nesting) };
        let right = if self.random.percent(40) { self.variable_or_term() } else { self.operand(nesting) };
        self.builder.node(Node::Comparison { op, left, right })
    }

    fn condition(&mut self, nesting: usize) -> u32 {
        if !self.conditions.is_empty() && self.random.percent(8) {
            let shared = self.random.pick(&self.conditions);
            if self.profile.leaning == Leaning::Plain || self.can_carry(shared, 1) {
                return shared;
            }
        }
        let made = match self.leaning_condition(nesting) {
            Some(made) => made,
            None if nesting == 0 => self.simple(),
            None => self.nested(nesting),
        };
        self.conditions.push(made);
        made
    }

    /// Often what the case leans to.
    fn leaning_condition(&mut self, nesting: usize) -> Option<u32> {
        match self.profile.leaning {
            Leaning::Terms if self.random.percent(45) => Some(self.shared_terms(nesting)),
            Leaning::Values if self.random.percent(45) => Some(self.shared_comparison()),
            Leaning::Rows if self.random.percent(75) => Some(self.many_rows(nesting)),
            Leaning::Hundreds if self.random.percent(85) => Some(self.hundreds()),
            Leaning::Scans if self.random.percent(50) => Some(self.scan()),
            Leaning::Dots if self.random.percent(75) => Some(self.dotted_condition()),
            _ => None,
        }
    }

    fn simple(&mut self) -> u32 {
        match self.random.below(12) {
            0..=7 => self.predicate(),
            8 if self.variables > 0 => {
                let variable = self.variable();
                self.builder.node(Node::Tp { variable })
            }
            _ => self.comparison(0),
        }
    }

    fn nested(&mut self, nesting: usize) -> u32 {
        let below = nesting - 1;
        let node = match self.random.below(20) {
            0..=3 => Node::And { left: self.condition(below), right: self.condition(below) },
            4..=6 => Node::Or { left: self.condition(below), right: self.condition(below) },
            7 => Node::Not { inner: self.condition(below) },
            8..=11 => Node::Formerly { body: self.condition(below), within: self.within() },
            12 => Node::Previous { body: self.condition(below), within: self.within() },
            13 | 14 => Node::Since { left: self.condition(below), right: self.condition(below), within: self.within() },
            15..=17 if self.variables > 0 => Node::Exists { body: self.condition(below), variable: self.variable() },
            18 => return self.comparison(nesting),
            _ => return self.gathering(),
        };
        self.builder.node(node)
    }

    /// A condition; where the case leans to rows, often one that is asked for them by a verdict, too.
    fn rule(&mut self, nesting: usize) -> u32 {
        let body = self.condition(nesting);
        let rows = matches!(self.profile.leaning, Leaning::Rows | Leaning::Hundreds);
        if !rows || self.variables == 0 || self.random.percent(50) {
            return body;
        }
        let variable = self.variable();
        self.builder.node(Node::Exists { variable, body })
    }

    /// Now and then a rule of great height, of the 64 allowed.
    fn tall(&mut self, rule: u32) -> u32 {
        let mut top = rule;
        if self.random.percent(3) {
            let allowed = 64 - self.measure(rule).height as usize;
            for _ in 0..self.random.between(10, 40).min(allowed) {
                top = self.builder.node(Node::Not { inner: top });
            }
        }
        top
    }

    /// A condition that mostly has many rows: what predicates bind over the whole history.
    fn gathering(&mut self) -> u32 {
        let (left, right) = (self.predicate(), self.predicate());
        let body = match self.random.below(5) {
            0 | 1 => left,
            2 => self.builder.node(Node::And { left, right }),
            3 => self.builder.node(Node::Or { left, right }),
            _ => self.both_ways(),
        };
        let within = Within { amount: 100, unit: 3 };
        self.builder.node(Node::Formerly { within, body })
    }

    /// Two conditions joined in either order: rows that are equal by variable, with pairs in unlike order.
    fn both_ways(&mut self) -> u32 {
        let (x, y) = (self.simple(), self.simple());
        let left = self.builder.node(Node::And { left: x, right: y });
        let right = self.builder.node(Node::And { left: y, right: x });
        self.builder.node(Node::Or { left, right })
    }

    /// The sum of one field over the whole history.
    fn column(&mut self) -> u32 {
        let variable = self.variable();
        let term = self.builder.node(Node::Variable { variable });
        let path = self.path(&NAMES);
        let arguments = self.builder.arguments(&[(path, term)]);
        let namespace = self.builder.names(&[]);
        let (action, kind) = self.action();
        let body = self.builder.node(Node::Predicate { namespace, action, kind, arguments });
        let within = Within { amount: i64::MAX, unit: 0 };
        let body = self.builder.node(Node::Formerly { within, body });
        let binders = self.builder.binders(&[variable]);
        self.builder.node(Node::Sum { variable, binders, body })
    }

    fn aggregate(&mut self, nesting: usize) -> u32 {
        if self.variables > 0 && self.random.percent(15) {
            return self.column();
        }
        let body = if self.random.percent(35) { self.gathering() } else { self.condition(nesting) };
        let count = if self.variables > 0 { self.random.pick(&[0, 1, 1, 2, 2, 3]) } else { 0 };
        let binders: Vec<u32> = (0..count).map(|_| self.variable()).collect();
        let run = self.builder.binders(&binders);
        if self.variables > 0 && self.random.percent(50) {
            let variable = if binders.is_empty() || self.random.percent(15) {
                self.variable()
            } else {
                self.random.pick(&binders)
            };
            return self.builder.node(Node::Sum { variable, binders: run, body });
        }
        self.builder.node(Node::Count { binders: run, body })
    }
}
