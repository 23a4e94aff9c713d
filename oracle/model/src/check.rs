//! The check of a case: refusals 1 to 6, the lowest given, 0 where all rules are kept.

use crate::file::{File, Table, CONTENTS, NONE, TABLES};
use crate::utf8::well_formed;
use crate::variant::Variant;
use crate::*;

pub fn check(variant: Variant, bytes: &[u8]) -> u32 {
    let file = File { bytes };
    if bytes.len() < CONTENTS || file.edition() != 1 || !bodies_in_place(file) {
        return 1;
    }
    let check = Check { file, variant };
    let rules: [(u32, &dyn Fn() -> bool); 5] = [
        (2, &|| check.within_mosts()),
        (3, &|| check.strings()),
        (4, &|| check.values()),
        (5, &|| check.points()),
        (6, &|| check.nodes()),
    ];
    rules.iter().find(|(_, kept)| !kept()).map_or(0, |(refusal, _)| *refusal)
}

/// Bodies end to end from the contents to the file's end, each a whole number of records.
pub fn bodies_in_place(file: File) -> bool {
    let mut end = CONTENTS;
    for table in TABLES {
        if file.offset(table) != end || !file.length(table).is_multiple_of(table.record_bytes()) {
            return false;
        }
        end += file.length(table);
    }
    end == file.bytes.len()
}

struct Check<'a> {
    file: File<'a>,
    variant: Variant,
}

/// The sort a node has, by its kind.
#[derive(Clone, Copy, PartialEq, Eq)]
enum Sort {
    Condition,
    Term,
    /// Terms 25 and 26, which stand only as operands of 8 or 26.
    Operand,
    Aggregate,
}

impl Check<'_> {
    fn is(&self, variant: Variant) -> bool {
        self.variant == variant
    }

    fn within_mosts(&self) -> bool {
        let count = |table| self.file.count(table);
        self.file.bytes.len() <= MOST_FILE_BYTES
            && count(Table::Strings) <= MOST_RECORDS
            && count(Table::Values) <= MOST_RECORDS
            && count(Table::Points) <= MOST_RECORDS
            && count(Table::Nodes) <= MOST_NODES
            && self.file.variables() <= MOST_VARIABLES
    }

    /// Strings lie end to end, fill text, are UTF-8 and rise strictly.
    fn strings(&self) -> bool {
        let mut end = 0;
        for k in 0..self.file.count(Table::Strings) {
            let [start, length]: [u32; 2] = self.file.record(Table::Strings, k);
            if start as usize != end {
                return false;
            }
            end += length as usize;
            if end > self.file.length(Table::Text) {
                return false;
            }
            let text = self.file.string(k as u32);
            let rises = k == 0 || self.file.string(k as u32 - 1) < text;
            if !well_formed(text, self.is(Variant::SurrogatesPass)) || !rises {
                return false;
            }
        }
        end == self.file.length(Table::Text)
    }

    fn values(&self) -> bool {
        let members = (0..self.file.count(Table::Members)).all(|k| {
            let [name, value]: [u32; 2] = self.file.record(Table::Members, k);
            (name == NONE || self.is_string(name)) && self.file.has(Table::Values, value)
        });
        members && (0..self.file.count(Table::Values)).all(|k| self.value(k as u32)) && self.depths()
    }

    fn is_string(&self, number: u32) -> bool {
        self.file.has(Table::Strings, number)
    }

    /// A value's own rule: its words and, where it has them, its members.
    fn value(&self, number: u32) -> bool {
        let [kind, a, b, c] = self.file.value(number);
        let unused = match kind {
            0 => a == 0 && b == 0 && c == 0,
            1 | 3 | 4 => b == 0 && c == 0,
            2 | 5 | 6 | 7 => c == 0,
            _ => false,
        };
        unused
            && match kind {
                1 => a <= 1,
                3 | 4 => self.is_string(a),
                5 => self.is_string(a) && self.is_string(b),
                6 | 7 => self.run_in(Table::Members, a, b, 1) && self.item_rules(number),
                _ => true,
            }
    }

    fn run_in(&self, table: Table, first: u32, count: u32, size: usize) -> bool {
        (self.is(Variant::EmptyRunAnywhere) && count == 0) || self.file.has_run(table, first, count, size)
    }

    /// Items of an array bear no name; an object's names rise strictly; children have lower numbers.
    fn item_rules(&self, number: u32) -> bool {
        let [kind, first, count, _] = self.file.value(number);
        let items = if count == 0 { Vec::new() } else { self.file.members(first, count) };
        let names = items.iter().all(|[name, _]| (*name == NONE) == (kind == 6));
        let rising = kind == 6
            || items
                .windows(2)
                .all(|pair| pair[0][0] < pair[1][0] || (self.is(Variant::NamesRepeat) && pair[0][0] == pair[1][0]));
        names && rising && items.iter().all(|[_, value]| *value < number)
    }

    /// Every value's depth, from the children's: a leaf has 1.
    fn depths(&self) -> bool {
        let most = if self.is(Variant::Depth33) { MOST_DEPTH + 1 } else { MOST_DEPTH };
        let mut depth: Vec<u32> = Vec::new();
        for number in 0..self.file.count(Table::Values) as u32 {
            let below = self.children(number).iter().map(|&child| depth[child as usize]).max();
            depth.push(1 + below.unwrap_or(0));
        }
        depth.iter().all(|&d| d <= most)
    }

    /// The values that an array or object holds.
    fn children(&self, number: u32) -> Vec<u32> {
        match self.file.value(number) {
            [6 | 7, first, count, _] if count > 0 => {
                self.file.members(first, count).iter().map(|[_, value]| *value).collect()
            }
            _ => Vec::new(),
        }
    }

    fn points(&self) -> bool {
        let dotless = if self.is(Variant::DotsRefused) { self.dotless_values() } else { Vec::new() };
        // #103 dropped document 01's rule on dots; the variant keeps it.
        let may_be_looked_up = |value: u32| self.is_object(value) && dotless.get(value as usize) != Some(&false);
        (0..self.file.count(Table::Points)).all(|k| self.point(k, &may_be_looked_up))
    }

    /// For every value whether no name inside it, at any depth, holds a dot.
    fn dotless_values(&self) -> Vec<bool> {
        let mut dotless: Vec<bool> = Vec::new();
        for number in 0..self.file.count(Table::Values) as u32 {
            let [kind, first, count, _] = self.file.value(number);
            let names =
                kind != 7 || count == 0 || self.file.members(first, count).iter().all(|[name, _]| !self.has_dot(*name));
            dotless.push(names && self.children(number).iter().all(|&child| dotless[child as usize]));
        }
        dotless
    }

    fn has_dot(&self, string: u32) -> bool {
        self.file.string(string).contains(&b'.')
    }

    fn point(&self, number: usize, may_be_looked_up: &dyn Fn(u32) -> bool) -> bool {
        let [_, _, namespace, names, action, kind, logged, context, principal, resource, entities, count] =
            self.file.point(number);
        let optional = |value: u32| value == NONE || self.file.has(Table::Values, value);
        self.string_run(namespace, names)
            && self.is_string(action)
            && self.is_string(kind)
            && self.is_object(logged)
            && may_be_looked_up(context)
            && optional(principal)
            && optional(resource)
            && self.run_in(Table::Lists, entities, count, 3)
            && self.entities(entities, count, may_be_looked_up)
    }

    fn string_run(&self, first: u32, count: u32) -> bool {
        self.run_in(Table::Lists, first, count, 1)
            && (count == 0 || self.file.list(first, count as usize).iter().all(|&name| self.is_string(name)))
    }

    fn is_object(&self, value: u32) -> bool {
        self.file.has(Table::Values, value) && self.file.value(value)[0] == 7
    }

    /// Entities rise strictly by (type, id); types hold no quotation mark.
    fn entities(&self, first: u32, count: u32, may_be_looked_up: &dyn Fn(u32) -> bool) -> bool {
        let words = if count == 0 { Vec::new() } else { self.file.list(first, 3 * count as usize) };
        let entities: Vec<&[u32]> = words.chunks(3).collect();
        let each = entities.iter().all(|entity| {
            self.is_string(entity[0])
                && self.is_string(entity[1])
                && may_be_looked_up(entity[2])
                && (self.is(Variant::QuotedTypePasses) || !self.file.string(entity[0]).contains(&b'"'))
        });
        let rising = entities.windows(2).all(|pair| {
            let (before, after) = (&pair[0][..2], &pair[1][..2]);
            before < after || (self.is(Variant::EntityRepeats) && before == after)
        });
        each && rising
    }

    fn nodes(&self) -> bool {
        let literal = self.literal_values();
        (0..self.file.count(Table::Nodes) as u32).all(|k| self.node(k, &literal)) && self.heights()
    }

    /// For every value whether no Null and no Object is in it, at any depth.
    fn literal_values(&self) -> Vec<bool> {
        let mut literal: Vec<bool> = Vec::new();
        for number in 0..self.file.count(Table::Values) as u32 {
            let kind = self.file.value(number)[0];
            let below = self.children(number).iter().all(|&child| {
                literal[child as usize] || (self.is(Variant::NullLiteralPasses) && self.file.value(child)[0] == 0)
            });
            literal.push(kind != 0 && kind != 7 && below);
        }
        literal
    }

    /// A node's own rule: operands in range, children lower and of the right sort, the rest 0.
    fn node(&self, number: u32, literal: &[bool]) -> bool {
        let words = self.file.node(number);
        let [kind, a, b, c, d, e, f, _] = words;
        let condition = |child: u32| self.child(number, child, &[Sort::Condition]);
        let operand = |child: u32| self.child(number, child, &[Sort::Term, Sort::Operand]);
        let variable = |v: u32| v < self.file.variables();
        let (used, kept) = match kind {
            1 | 2 => (2, condition(a) && condition(b)),
            3 => (1, condition(a)),
            4 | 5 => (4, c <= 3 && condition(d)),
            6 => (5, condition(a) && condition(b) && e <= 3),
            7 => (6, self.string_run(a, b) && self.is_string(c) && self.is_string(d) && self.arguments(number, e, f)),
            8 => (3, a <= 5 && operand(b) && operand(c)),
            9 => (2, variable(a) && condition(b)),
            10 => (1, variable(a)),
            20 => (1, self.file.has(Table::Values, a) && literal[a as usize]),
            21 => (2, b >= 1 && self.path(a, b)),
            22 => (3, a <= 1 && self.path(b, c)),
            23 => (1, variable(a)),
            24 => (0, true),
            25 => (1, self.child(number, a, &[Sort::Aggregate])),
            26 => (3, a <= 2 && operand(b) && operand(c)),
            30 => (4, variable(a) && self.binders(b, c) && condition(d)),
            31 => (3, self.binders(a, b) && condition(c)),
            _ => (0, false),
        };
        kept && words[1 + used..].iter().all(|&word| word == 0)
    }

    fn child(&self, parent: u32, child: u32, sorts: &[Sort]) -> bool {
        child < parent && sort(self.file.node(child)[0]).is_some_and(|s| sorts.contains(&s))
    }

    fn path(&self, first: u32, count: u32) -> bool {
        self.string_run(first, count)
            && (count == 0
                || self.is(Variant::DottedPathPasses)
                || self.file.list(first, count as usize).iter().all(|&name| !self.has_dot(name)))
    }

    fn binders(&self, first: u32, count: u32) -> bool {
        self.run_in(Table::Lists, first, count, 1)
            && (count == 0 || self.file.list(first, count as usize).iter().all(|&v| v < self.file.variables()))
    }

    /// An argument is a path of at least one name and a term that is no aggregate and no arithmetic.
    fn arguments(&self, number: u32, first: u32, count: u32) -> bool {
        let sorts: &[Sort] = match self.variant {
            Variant::AggregateArgument => &[Sort::Term, Sort::Operand],
            _ => &[Sort::Term],
        };
        self.run_in(Table::Lists, first, count, 3)
            && (count == 0
                || self.file.list(first, 3 * count as usize).chunks(3).all(|argument| {
                    argument[1] >= 1 && self.path(argument[0], argument[1]) && self.child(number, argument[2], sorts)
                }))
    }

    /// Every node's height, from the children's: a leaf has 1; argument terms count too.
    fn heights(&self) -> bool {
        let most = if self.is(Variant::Height65) { MOST_HEIGHT + 1 } else { MOST_HEIGHT };
        let mut height: Vec<u32> = Vec::new();
        for number in 0..self.file.count(Table::Nodes) as u32 {
            let below = self.operands(number).iter().map(|&child| height[child as usize]).max();
            height.push(1 + below.unwrap_or(0));
        }
        height.iter().all(|&h| h <= most)
    }

    /// The nodes that a node refers to.
    fn operands(&self, number: u32) -> Vec<u32> {
        let [kind, a, b, c, d, e, f, _] = self.file.node(number);
        match kind {
            1 | 2 | 6 => vec![a, b],
            3 | 25 => vec![a],
            4 | 5 | 30 => vec![d],
            7 if f > 0 => self.file.list(e, 3 * f as usize).chunks(3).map(|argument| argument[2]).collect(),
            8 | 26 => vec![b, c],
            9 => vec![b],
            31 => vec![c],
            _ => Vec::new(),
        }
    }
}

fn sort(kind: u32) -> Option<Sort> {
    match kind {
        1..=10 => Some(Sort::Condition),
        20..=24 => Some(Sort::Term),
        25 | 26 => Some(Sort::Operand),
        30 | 31 => Some(Sort::Aggregate),
        _ => None,
    }
}
