//! Case files that break each rule of the check singly, and the neighbours that just pass.
//! What the check must say stands here by construction, not by any model.

use casefile::{Builder, Point, Run, Tables, NONE};

use crate::rules_base::*;

pub struct RuleFile {
    pub rule: String,
    pub bytes: Vec<u8>,
    /// 1 to 6, or 0 where it passes.
    pub expected: u32,
}

/// All files but the huge ones.
pub fn rule_files() -> Vec<RuleFile> {
    let mut list = RuleList { files: Vec::new() };
    list.contents();
    list.mosts();
    list.strings();
    list.utf8();
    list.values();
    list.arrays_and_objects();
    list.sharing();
    list.points();
    list.entities();
    list.dots();
    list.node_words();
    list.node_children();
    list.node_lists();
    list.literals();
    list.heights();
    list.lowest();
    list.files
}

/// Files of hundreds of kilobytes, at the most allowed and one above.
pub fn huge_rule_files() -> Vec<RuleFile> {
    let mut list = RuleList { files: Vec::new() };
    for (count, expected) in [(16_384, 0), (16_385, 2)] {
        list.add(expected, &format!("{count} strings"), &with_strings(&short_strings(count)));
        list.add(expected, &format!("{count} values"), &Tables { values: vec![[0; 4]; count], ..Tables::default() });
        list.add(expected, &format!("{count} points"), &with_points(count));
    }
    for (length, expected) in [(4_194_304, 0), (4_194_305, 2)] {
        let text = vec![b'x'; length - 64 - 8];
        list.add(expected, &format!("a file of {length} bytes"), &with_strings(&[text]));
    }
    let mut misplaced = with_strings(&[vec![b'x'; 4_194_305]]).encode();
    misplaced.push(0);
    list.add_bytes(1, "a file too long and misplaced", misplaced);
    list.files
}

/// The first so many strings of at most two letters, in order.
fn short_strings(count: usize) -> Vec<Vec<u8>> {
    let from = |a: u8| [vec![a]].into_iter().chain((0..128).map(move |b| vec![a, b]));
    [Vec::new()].into_iter().chain((0..128).flat_map(from)).take(count).collect()
}

fn with_strings(texts: &[Vec<u8>]) -> Tables {
    let mut tables = Tables::default();
    for text in texts {
        tables.strings.push([tables.text.len() as u32, text.len() as u32]);
        tables.text.extend(text);
    }
    tables
}

fn with_points(count: usize) -> Tables {
    let mut tables = with_strings(&[b"A".to_vec()]);
    tables.values.push([7, 0, 0, 0]);
    tables.points = vec![[0, 0, 0, 0, 0, 0, 0, 0, NONE, NONE, 0, 0]; count];
    tables
}

/// A node as a function of the node below it.
type Over = fn(u32) -> [u32; 8];

/// A change that breaks a rule, and the refusal it gets.
type Break = (u32, fn(&mut Tables));

struct RuleList {
    files: Vec<RuleFile>,
}

impl RuleList {
    fn add_bytes(&mut self, expected: u32, rule: &str, bytes: Vec<u8>) {
        self.files.push(RuleFile { rule: rule.to_string(), bytes, expected });
    }

    fn add(&mut self, expected: u32, rule: &str, tables: &Tables) {
        self.add_bytes(expected, rule, tables.encode());
    }

    /// The base case with one change.
    fn change(&mut self, expected: u32, rule: &str, change: impl FnOnce(&mut Tables)) {
        let mut tables = base();
        change(&mut tables);
        self.add(expected, rule, &tables);
    }

    /// The base case with one word of the contents set.
    fn word(&mut self, rule: &str, k: usize, word: u32) {
        let mut bytes = base().encode();
        bytes[4 * k..4 * k + 4].copy_from_slice(&word.to_le_bytes());
        self.add_bytes(1, rule, bytes);
    }

    fn contents(&mut self) {
        let whole = base().encode();
        self.add_bytes(0, "the base case", whole.clone());
        self.add_bytes(0, "contents and nothing else", Tables::default().encode());
        self.add_bytes(1, "no bytes", Vec::new());
        self.add_bytes(1, "63 bytes", Tables::default().encode()[..63].to_vec());
        for edition in [0, 2, 1 << 24] {
            self.word(&format!("edition {edition}"), 0, edition);
        }
        for body in 0..7 {
            let (offset, length) = (word_at(&whole, 2 + 2 * body), word_at(&whole, 3 + 2 * body));
            self.word(&format!("body {body} starts a record early"), 2 + 2 * body, offset.wrapping_sub(4));
            self.word(&format!("body {body} starts a record late"), 2 + 2 * body, offset + 4);
            self.word(&format!("body {body} starts at 0"), 2 + 2 * body, 0);
            let record = if body == 6 { 1 } else { 4 * casefile::tables::RECORD_WORDS[body] as u32 };
            self.word(&format!("body {body} a record longer"), 3 + 2 * body, length + record);
            self.word(&format!("body {body} a record shorter"), 3 + 2 * body, length - record);
            self.word(&format!("body {body} as long as can be said"), 3 + 2 * body, u32::MAX - record + 1);
        }
        for body in 0..6 {
            self.add_bytes(1, &format!("body {body} with half a word more"), with_part(&whole, body, 2));
        }
        for body in 0..5 {
            self.add_bytes(1, &format!("body {body} with a word more"), with_part(&whole, body, 4));
        }
        self.add_bytes(1, "a byte after the last body", [&whole[..], &[0]].concat());
        self.add_bytes(1, "the last byte gone", whole[..whole.len() - 1].to_vec());
    }

    fn mosts(&mut self) {
        self.change(0, "16 variables", |t| t.variables = 16);
        self.change(2, "17 variables", |t| t.variables = 17);
        self.change(2, "4294967295 variables", |t| t.variables = u32::MAX);
        for (count, expected) in [(1_024, 0), (1_025, 2)] {
            let nodes = vec![[24, 0, 0, 0, 0, 0, 0, 0]; count];
            self.add(expected, &format!("{count} nodes"), &Tables { nodes, ..Tables::default() });
        }
    }

    fn strings(&mut self) {
        let mut list = |expected, rule: &str, texts: &[&str]| {
            let texts: Vec<Vec<u8>> = texts.iter().map(|text| text.as_bytes().to_vec()).collect();
            self.add(expected, rule, &with_strings(&texts));
        };
        list(0, "an empty string first", &["", "a"]);
        list(3, "an empty string second", &["a", ""]);
        list(3, "two empty strings", &["", ""]);
        list(0, "a prefix first", &["a", "ab"]);
        list(3, "a prefix second", &["ab", "a"]);
        list(3, "equal strings", &["a", "a"]);
        list(3, "falling strings", &["b", "a"]);
        list(0, "bytes above 127 after those below", &["z", "é"]);
        list(3, "bytes above 127 before those below", &["é", "z"]);
        self.change(3, "the first string starts at 1", |t| t.strings[0] = [1, 0]);
        self.change(3, "a gap between strings", |t| t.strings[1][0] += 1);
        self.change(3, "strings overlap", |t| t.strings[1][0] -= 1);
        self.change(3, "text not filled", |t| t.text.push(b'z'));
        self.change(3, "text too short", |t| {
            t.text.pop();
        });
        self.change(3, "text without strings", |t| t.strings.clear());
        let last = base().strings.len() - 1;
        self.change(3, "a length that wraps", |t| t.strings[last][1] = u32::MAX);
    }

    fn utf8(&mut self) {
        let good: [&[u8]; 10] = [
            b"\x00",
            b"\x7F",
            b"\xC2\x80",
            b"\xDF\xBF",
            b"\xE0\xA0\x80",
            b"\xED\x9F\xBF",
            b"\xEE\x80\x80",
            b"\xEF\xBF\xBF",
            b"\xF0\x90\x80\x80",
            b"\xF4\x8F\xBF\xBF",
        ];
        let bad: [&[u8]; 25] = [
            b"\x80",
            b"\xBF",
            b"\xC0\x80",
            b"\xC1\xBF",
            b"\xC2",
            b"\xC2A",
            b"\xC2\xC0",
            b"\xC2\xC2",
            b"\xE0\x9F\xBF",
            b"\xE1\x80",
            b"\xE1A\x80",
            b"\xE1\x80A",
            b"\xE1\x80\xC0",
            b"\xED\xA0\x80",
            b"\xED\xBF\xBF",
            b"\xF0\x8F\xBF\xBF",
            b"\xF1\x80\x80",
            b"\xF1\x80\x80A",
            b"\xF1\x80A\x80",
            b"\xF1\x80\x80\xC0",
            b"\xF4\x90\x80\x80",
            b"\xF5\x80\x80\x80",
            b"\xF8\x88\x80\x80\x80",
            b"\xFE",
            b"\xFF",
        ];
        for text in good {
            self.add(0, &format!("UTF-8 {text:02x?}"), &with_strings(&[text.to_vec()]));
        }
        for text in bad {
            self.add(3, &format!("no UTF-8 {text:02x?}"), &with_strings(&[text.to_vec()]));
        }
        self.add(3, "a character over two strings", &with_strings(&[b"\xC2".to_vec(), b"\x80".to_vec()]));
    }

    fn values(&mut self) {
        for kind in [8, 9, u32::MAX] {
            self.change(4, &format!("value kind {kind}"), |t| t.values[NULL][0] = kind);
        }
        let used = [(NULL, 0), (BOOL, 1), (INT, 2), (DECIMAL, 1), (STRING, 1), (ENTITY, 2), (ARRAY, 2), (EMPTY, 2)];
        for (value, used) in used {
            for word in used + 1..4 {
                self.change(4, &format!("value kind {value}, unused word {word}"), |t| t.values[value][word] = 1);
            }
        }
        self.change(0, "a Bool of 0", |t| t.values[BOOL][1] = 0);
        self.change(4, "a Bool of 2", |t| t.values[BOOL][1] = 2);
        self.change(0, "an Int of all bits", |t| t.values[INT] = [2, NONE, NONE, 0]);
        let strings = base().strings.len() as u32;
        for (value, word) in [(DECIMAL, 1), (STRING, 1), (ENTITY, 1), (ENTITY, 2)] {
            self.change(0, &format!("value {value} names the last string"), |t| t.values[value][word] = strings - 1);
            self.change(4, &format!("value {value} names no string"), |t| t.values[value][word] = strings);
            self.change(4, &format!("value {value} names {NONE}"), |t| t.values[value][word] = NONE);
        }
        self.change(4, "a member nobody uses names no string", |t| t.members.push([strings, 0]));
        self.change(0, "a member nobody uses names a string", |t| t.members.push([strings - 1, 0]));
        self.change(0, "a member nobody uses bears no name", |t| t.members.push([NONE, 0]));
        let values = base().values.len() as u32;
        self.change(4, "a member nobody uses holds no value", |t| t.members.push([NONE, values]));
        self.change(0, "a member nobody uses holds the last value", |t| t.members.push([NONE, values - 1]));
    }

    fn arrays_and_objects(&mut self) {
        let members = base().members.len() as u32;
        for value in [ARRAY, EMPTY] {
            let name = if value == ARRAY { "array" } else { "object" };
            let mut run = |expected, rule: &str, first: u32, count: u32| {
                self.change(expected, &format!("{name} run {rule}"), |t| {
                    t.values[value][1] = first;
                    t.values[value][2] = count;
                });
            };
            run(0, "of none at the end", members, 0);
            run(4, "of none past the end", members + 1, 0);
            run(4, "of none far off", NONE, 0);
            run(4, "of one past the end", members, 1);
            run(4, "that wraps", NONE, 1);
            run(4, "of as many as can be said", 0, NONE);
        }
        self.change(4, "an array item bears a name", |t| t.members[ARRAY_ITEM][0] = 2);
        self.change(4, "an object member bears none", |t| t.members[MEMBER_A][0] = NONE);
        self.change(4, "names fall", |t| t.members[MEMBER_A][0] = 5);
        self.change(4, "names repeat", |t| t.members[MEMBER_A][0] = t.members[MEMBER_A + 1][0]);
        self.change(4, "an array holds itself", |t| t.members[ARRAY_ITEM][1] = ARRAY as u32);
        self.change(4, "an array holds a later value", |t| t.members[ARRAY_ITEM][1] = ARRAY as u32 + 1);
        self.change(0, "an array holds the value before it", |t| t.members[ARRAY_ITEM][1] = ARRAY as u32 - 1);
        self.change(4, "an object holds itself", |t| t.members[MEMBER_A][1] = OBJECT as u32);
        self.change(0, "an object holds the value before it", |t| t.members[MEMBER_A][1] = OBJECT as u32 - 1);
        for (kind, name) in [(6, NONE), (7, 2)] {
            for (depth, expected) in [(32, 0), (33, 4)] {
                self.change(expected, &format!("kind {kind} nested to depth {depth}"), |t| nest(t, kind, name, depth));
            }
            let mut empty = Tables { values: vec![[kind, 0, 0, 0]; INT + 1], ..with_strings(&[b"a".to_vec(); 1]) };
            nest(&mut empty, kind, if kind == 6 { NONE } else { 0 }, 32);
            self.add(0, &format!("kind {kind} nested to depth 32 over an empty one"), &empty);
        }
    }

    /// Values and nodes that hold the one below twice: 2 to the 31 and more parts when unfolded.
    fn sharing(&mut self) {
        self.change(0, "arrays that hold the one below twice, to depth 31, in context and in a literal", |t| {
            let mut below = INT as u32;
            for _ in 1..31 {
                let first = t.members.len() as u32;
                t.members.extend([[NONE, below], [NONE, below]]);
                below = t.values.len() as u32;
                t.values.push([6, first, 2, 0]);
            }
            let first = t.members.len() as u32;
            t.members.push([2, below]);
            t.points[0][7] = t.values.len() as u32;
            t.values.push([7, first, 1, 0]);
            t.nodes[LITERAL][1] = below;
        });
    }

    fn points(&mut self) {
        let (strings, values, lists) = sizes();
        let mut field = |expected, rule: &str, word: usize, to: u32| {
            self.change(expected, &format!("point: {rule}"), |t| t.points[0][word] = to);
        };
        field(5, "action is no string", 4, strings);
        field(0, "action is the last string", 4, strings - 1);
        field(5, "kind is no string", 5, strings);
        for (word, name) in [(6, "logged"), (7, "context")] {
            field(5, &format!("{name} is no value"), word, values);
            field(5, &format!("{name} is {NONE}"), word, NONE);
            field(5, &format!("{name} is an array"), word, ARRAY as u32);
            field(5, &format!("{name} is Null"), word, NULL as u32);
            field(0, &format!("{name} is empty"), word, EMPTY as u32);
        }
        for (word, name) in [(8, "principal"), (9, "resource")] {
            field(5, &format!("{name} is no value"), word, values);
            field(0, &format!("{name} is none"), word, NONE);
            field(0, &format!("{name} is Null"), word, NULL as u32);
            field(5, &format!("{name} is one below none"), word, NONE - 1);
        }
        let mut run = |expected, rule: &str, first: u32, count: u32| {
            self.change(expected, &format!("namespace run {rule}"), |t| {
                t.points[0][2] = first;
                t.points[0][3] = count;
            });
        };
        run(0, "of none at the end", lists, 0);
        run(5, "of none past the end", lists + 1, 0);
        run(5, "of one past the end", lists, 1);
        run(5, "that wraps", NONE, 2);
        self.change(5, "a namespace name is no string", |t| t.lists[NAMESPACE] = strings);
        self.change(0, "a time of all bits", |t| t.points[0][..2].copy_from_slice(&[NONE, NONE]));
    }

    fn entities(&mut self) {
        let (strings, values, lists) = sizes();
        let mut run = |expected, rule: &str, first: u32, count: u32| {
            self.change(expected, &format!("entities run {rule}"), |t| {
                t.points[0][10] = first;
                t.points[0][11] = count;
            });
        };
        run(0, "of none at the end", lists, 0);
        run(5, "of none past the end", lists + 1, 0);
        run(5, "of one that ends past the end", lists - 2, 1);
        run(5, "whose words wrap", 0, 0x5555_5556);
        run(5, "that wraps", NONE, 1);
        let mut entity = |expected, rule: &str, word: usize, to: u32| {
            self.change(expected, &format!("entity: {rule}"), |t| t.lists[word] = to);
        };
        entity(5, "type is no string", ENTITIES, strings);
        entity(5, "id is no string", ENTITIES + 1, strings);
        entity(5, "attributes are no value", ENTITIES + 2, values);
        entity(5, "attributes are an array", ENTITIES + 2, ARRAY as u32);
        entity(0, "attributes are an object", ENTITIES + 2, OBJECT as u32);
        entity(5, "the same twice", ENTITIES + 4, 2);
        entity(5, "ids fall", ENTITIES + 1, 5);
        entity(5, "types fall", ENTITIES + 3, 0);
        entity(0, "types rise while ids fall", ENTITIES, 0);
        entity(5, "type with a quotation mark", ENTITIES + 3, QUOTED);
        entity(0, "id with a quotation mark", ENTITIES + 4, QUOTED);
        entity(0, "type with a dot", ENTITIES + 3, DOTTED);
        self.change(0, "a value's type with a quotation mark", |t| t.values[ENTITY][1] = QUOTED);
    }

    /// Names may hold dots (document 02, #103), a path's names may not.
    fn dots(&mut self) {
        let holders = [
            (DOTTED_OBJECT, "a dotted name"),
            (DOTTED_BELOW, "a dotted name one below"),
            (DOTTED_UNDER_ARRAY, "a dotted name under an array"),
        ];
        for (value, holds) in holders {
            self.change(0, &format!("context holds {holds}"), |t| t.points[0][7] = value as u32);
            self.change(0, &format!("attributes hold {holds}"), |t| t.lists[ENTITIES + 2] = value as u32);
            self.change(0, &format!("logged holds {holds}"), |t| t.points[0][6] = value as u32);
            self.change(0, &format!("principal holds {holds}"), |t| t.points[0][8] = value as u32);
        }
        self.change(0, "a namespace with a dot", |t| t.lists[NAMESPACE] = DOTTED);
        self.change(0, "an action with a dot", |t| t.points[0][4] = DOTTED);
        self.change(6, "a path name with a dot", |t| t.lists[PATH] = DOTTED);
        self.change(0, "a predicate's action with a dot", |t| t.nodes[PREDICATE][3] = DOTTED);
        self.change(6, "context holds a dotted name, and a node is broken", |t| {
            t.points[0][7] = DOTTED_OBJECT as u32;
            t.nodes[TP][0] = 11;
        });
        self.change(5, "attributes hold a dotted name, and their type a quotation mark", |t| {
            t.lists[ENTITIES + 5] = DOTTED_OBJECT as u32;
            t.lists[ENTITIES + 3] = QUOTED;
        });
        self.add(0, "context and attributes with names of dots alone", &dots_alone());
    }

    fn node_words(&mut self) {
        for kind in [0, 11, 19, 27, 29, 32, NONE] {
            self.change(6, &format!("node kind {kind}"), |t| t.nodes.push([kind, 0, 0, 0, 0, 0, 0, 0]));
        }
        for (node, used) in USED_WORDS {
            for word in [used + 1, 7] {
                let kind = base().nodes[node][0];
                self.change(6, &format!("node kind {kind}, unused word {word}"), |t| t.nodes[node][word] = 1);
            }
        }
        for (node, word) in [(FORMERLY, 3), (PREVIOUS, 3), (SINCE, 5)] {
            self.change(0, &format!("node {node} counts days"), |t| t.nodes[node][word] = 3);
            self.change(6, &format!("node {node} has unit 4"), |t| t.nodes[node][word] = 4);
        }
        self.change(0, "an amount of all bits", |t| t.nodes[FORMERLY][1..3].copy_from_slice(&[NONE, NONE]));
        for (node, most) in [(COMPARISON, 5), (ARITHMETIC, 2), (SCOPE, 1)] {
            self.change(0, &format!("node {node} has its last operator or root"), |t| t.nodes[node][1] = most);
            self.change(6, &format!("node {node} has one more"), |t| t.nodes[node][1] = most + 1);
        }
        for node in [VARIABLE, TP, EXISTS, SUM] {
            self.change(6, &format!("node {node} has a variable of V"), |t| t.nodes[node][1] = 1);
            self.change(0, &format!("node {node} has a variable below V"), |t| {
                t.variables = 2;
                t.nodes[node][1] = 1;
            });
        }
        for word in [3, 4] {
            self.change(6, &format!("predicate word {word} is no string"), |t| t.nodes[PREDICATE][word] = sizes().0);
        }
    }

    fn node_children(&mut self) {
        let conditions = [
            (AND, 1),
            (AND, 2),
            (OR, 1),
            (OR, 2),
            (NOT, 1),
            (FORMERLY, 4),
            (PREVIOUS, 4),
            (SINCE, 1),
            (SINCE, 2),
            (EXISTS, 2),
            (COUNT, 3),
            (SUM, 4),
        ];
        for (node, word) in conditions {
            let mut child = |expected, what: &str, to: u32| {
                self.change(expected, &format!("node {node}, word {word}: {what}"), |t| t.nodes[node][word] = to);
            };
            child(6, "itself", node as u32);
            child(6, "a later node", base().nodes.len() as u32 - 1);
            child(6, "no node", NONE);
            child(6, "a term", VARIABLE as u32);
            child(0, "a condition", TP as u32);
        }
        for (node, word) in [(COMPARISON, 2), (COMPARISON, 3), (ARITHMETIC, 2), (ARITHMETIC, 3)] {
            let mut child = |expected, what: &str, to: u32| {
                self.change(expected, &format!("node {node}, operand {word}: {what}"), |t| t.nodes[node][word] = to);
            };
            child(6, "itself", node as u32);
            child(6, "a condition", TP as u32);
            child(6, "an aggregate", COUNT as u32);
            child(0, "an aggregate term", AGGREGATE as u32);
            child(0, "a wildcard", WILDCARD as u32);
        }
        self.change(6, "term 25 over itself", |t| t.nodes[AGGREGATE][1] = AGGREGATE as u32);
        self.change(6, "term 25 over a condition", |t| t.nodes[AGGREGATE][1] = TP as u32);
        self.change(6, "term 25 over a term", |t| t.nodes[AGGREGATE][1] = VARIABLE as u32);
        self.change(0, "term 25 over a sum", |t| t.nodes[AGGREGATE][1] = SUM as u32);
        self.change(6, "And over an aggregate", |t| t.nodes.push([1, COUNT as u32, TP as u32, 0, 0, 0, 0, 0]));
        self.change(6, "And over an aggregate term", |t| t.nodes.push([1, AGGREGATE as u32, TP as u32, 0, 0, 0, 0, 0]));
    }

    fn node_lists(&mut self) {
        let (strings, _, lists) = sizes();
        for (node, word, size) in
            [(CONTEXT, 1, 1), (SCOPE, 2, 1), (PREDICATE, 1, 1), (PREDICATE, 5, 3), (COUNT, 1, 1), (SUM, 2, 1)]
        {
            let mut run = |expected, rule: &str, first: u32, count: u32| {
                self.change(expected, &format!("node {node}, run at word {word}, {rule}"), |t| {
                    t.nodes[node][word] = first;
                    t.nodes[node][word + 1] = count;
                });
            };
            let none = if node == CONTEXT { 6 } else { 0 };
            run(none, "of none at the end", lists, 0);
            run(6, "of none past the end", lists + 1, 0);
            run(6, "of one that ends past the end", lists + 1 - size, 1);
            run(6, "that wraps", NONE, 1);
        }
        self.change(6, "arguments whose words wrap", |t| t.nodes[PREDICATE][6] = 0x5555_5556);
        self.change(6, "a path name is no string", |t| t.lists[PATH + 1] = strings);
        self.change(6, "a namespace name of a node is no string", |t| {
            t.lists.push(strings);
            t.nodes[PREDICATE][1] = lists;
        });
        self.change(6, "a binder of V", |t| t.lists[BINDERS] = 1);
        let mut argument = |expected, rule: &str, word: usize, to: u32| {
            self.change(expected, &format!("argument: {rule}"), |t| t.lists[ARGUMENT + word] = to);
        };
        argument(6, "path past the end", 0, lists);
        argument(6, "path that wraps", 0, NONE);
        argument(6, "path of no names", 1, 0);
        argument(0, "path of two names", 1, 2);
        argument(6, "term is the node itself", 2, PREDICATE as u32);
        argument(6, "term is a later node", 2, TP as u32);
        argument(0, "term is a wildcard", 2, WILDCARD as u32);
        for (term, what) in
            [(AGGREGATE, "an aggregate term"), (ARITHMETIC, "arithmetic"), (TP, "a condition"), (COUNT, "an aggregate")]
        {
            self.change(6, &format!("argument: term is {what}"), |t| {
                let first = t.lists.len() as u32;
                t.lists.extend([PATH as u32, 1, term as u32]);
                t.nodes.push([7, 0, 0, 0, 0, first, 1, 0]);
            });
        }
        self.change(0, "list words that nobody uses", |t| t.lists.extend([NONE, NONE]));
    }

    fn literals(&mut self) {
        let mut literal = |expected, what: &str, value: u32| {
            self.change(expected, &format!("literal: {what}"), |t| t.nodes[LITERAL][1] = value);
        };
        literal(6, "no value", sizes().1);
        literal(6, "Null", NULL as u32);
        literal(6, "an empty Object", EMPTY as u32);
        literal(0, "Bool", BOOL as u32);
        literal(0, "Decimal", DECIMAL as u32);
        literal(0, "String", STRING as u32);
        literal(0, "Entity", ENTITY as u32);
        literal(0, "Array", ARRAY as u32);
        literal(6, "Array of Null", NULL_ARRAY as u32);
        literal(6, "Array of Array of Null", NULL_ARRAY as u32 + 1);
        literal(6, "Array of Object", DOTTED_ARRAY as u32);
        self.change(0, "literal: an empty Array", |t| t.values[ARRAY][2] = 0);
    }

    fn heights(&mut self) {
        let towers: [(&str, [u32; 8], Over); 3] = [
            ("Not over Tp", [10, 0, 0, 0, 0, 0, 0, 0], |below| [3, below, 0, 0, 0, 0, 0, 0]),
            ("Formerly over Tp", [10, 0, 0, 0, 0, 0, 0, 0], |below| [4, 1, 0, 0, below, 0, 0, 0]),
            ("arithmetic over a variable", [23, 0, 0, 0, 0, 0, 0, 0], |below| [26, 0, below, below, 0, 0, 0, 0]),
        ];
        for (name, leaf, over) in towers {
            for (height, expected) in [(64, 0), (65, 6)] {
                let mut nodes = vec![leaf];
                for below in 0..height - 1 {
                    nodes.push(over(below));
                }
                let tables = Tables { variables: 1, nodes, ..Tables::default() };
                self.add(expected, &format!("{name}, height {height}"), &tables);
            }
        }
        for (nots, expected) in [(62, 0), (63, 6)] {
            self.change(expected, &format!("{nots} Nots over a Predicate with an argument"), |t| {
                t.nodes.truncate(PREDICATE + 1);
                for below in 0..nots {
                    t.nodes.push([3, PREDICATE as u32 + below, 0, 0, 0, 0, 0, 0]);
                }
            });
        }
    }

    /// Two rules broken: the lower number is given.
    fn lowest(&mut self) {
        let breaks: [Break; 5] = [
            (2, |t| t.variables = 17),
            (3, |t| t.text.push(b'z')),
            (4, |t| t.values[NULL][0] = 8),
            (5, |t| t.points[0][4] = NONE),
            (6, |t| t.nodes[TP][0] = 11),
        ];
        for (k, (lower, first)) in breaks.iter().enumerate() {
            for (higher, second) in &breaks[k + 1..] {
                self.change(*lower, &format!("rules of {lower} and {higher} broken"), |t| {
                    first(t);
                    second(t);
                });
            }
        }
        let mut bytes = base().encode();
        bytes[4] = 17;
        bytes.push(0);
        self.add_bytes(1, "17 variables in a file with a byte too many", bytes);
    }
}

/// A point whose context and attributes have names that are dots, or begin or end with one, inside an
/// array, too.
fn dots_alone() -> Tables {
    let mut builder = Builder::new(0);
    let one = builder.int(1);
    let mut object = builder.object(&[]);
    for name in ["", ".", "..", ".q", "e.", "uart.0"] {
        let items = builder.array(&[object]);
        object = builder.object(&[(name, one), ("..a", items), ("a.", object)]);
    }
    let entities = builder.entities(&[("T", "i", object)]);
    let (action, kind) = (builder.string("A"), builder.string("request"));
    let (namespace, context) = (Run::default(), object);
    let (principal, resource) = (None, None);
    builder.point(Point { time: 0, namespace, action, kind, logged: object, context, principal, resource, entities });
    builder.finish()
}

/// Strings, values and list words of the base case.
fn sizes() -> (u32, u32, u32) {
    let base = base();
    (base.strings.len() as u32, base.values.len() as u32, base.lists.len() as u32)
}

fn word_at(bytes: &[u8], k: usize) -> u32 {
    u32::from_le_bytes([bytes[4 * k], bytes[4 * k + 1], bytes[4 * k + 2], bytes[4 * k + 3]])
}

/// The file with some bytes more at the end of a body, and the later bodies moved.
fn with_part(whole: &[u8], body: usize, more: u32) -> Vec<u8> {
    let mut bytes = whole.to_vec();
    let end = (word_at(whole, 2 + 2 * body) + word_at(whole, 3 + 2 * body)) as usize;
    bytes.splice(end..end, vec![0; more as usize]);
    let mut set = |k: usize, by: u32| {
        let word = word_at(whole, k) + by;
        bytes[4 * k..4 * k + 4].copy_from_slice(&word.to_le_bytes());
    };
    set(3 + 2 * body, more);
    for later in body + 1..7 {
        set(2 + 2 * later, more);
    }
    bytes
}

/// Arrays or objects around the Int until the outermost has this depth.
fn nest(tables: &mut Tables, kind: u32, name: u32, depth: usize) {
    let mut below = INT as u32;
    for _ in 1..depth {
        let first = tables.members.len() as u32;
        tables.members.push([name, below]);
        below = tables.values.len() as u32;
        tables.values.push([kind, first, 1, 0]);
    }
}
