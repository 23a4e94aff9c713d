//! What the packer writes, to the byte: every unit, operator, root, node kind, value kind and order of
//! fields, by the numbers of document 01. The file is read here by a reader of its own.

use casefile::log::Log;
use casefile::text::{pack, unpack};
use casefile::{Tables, Unsorted};

/// The word that stands for no name, no principal and no resource.
const NONE: u32 = 4_294_967_295;

/// Strings, values, members, points, nodes, lists: the bodies before the text, with words a record.
const STRINGS: (usize, usize) = (0, 2);
const VALUES: (usize, usize) = (1, 4);
const MEMBERS: (usize, usize) = (2, 2);
const POINTS: (usize, usize) = (3, 12);
const NODES: (usize, usize) = (4, 8);
const LISTS: (usize, usize) = (5, 1);

struct File(Vec<u8>);

impl File {
    fn of(text: &str) -> File {
        File(pack(text).unwrap_or_else(|fault| panic!("{fault}\n{text}")).tables.encode())
    }

    fn word(&self, k: usize) -> u32 {
        self.0[4 * k..4 * k + 4].iter().rev().fold(0, |word, byte| word << 8 | u32::from(*byte))
    }

    /// The records of a body, wherever the contents say that it lies.
    fn body(&self, (body, words): (usize, usize)) -> Vec<Vec<u32>> {
        let (offset, length) = (self.word(2 + 2 * body) as usize / 4, self.word(3 + 2 * body) as usize / 4);
        (0..length / words).map(|record| (0..words).map(|f| self.word(offset + record * words + f)).collect()).collect()
    }

    fn text(&self) -> &str {
        let (offset, length) = (self.word(14) as usize, self.word(15) as usize);
        std::str::from_utf8(&self.0[offset..offset + length]).expect("it was packed from text")
    }
}

/// The nodes of a rule over the variables x, y and z.
fn nodes(rule: &str) -> Vec<Vec<u32>> {
    let file = File::of(&format!("variables x y z\n{rule}"));
    file.body(NODES)
}

fn padded(record: &[u32], words: usize) -> Vec<u32> {
    let mut record = record.to_vec();
    record.resize(words, 0);
    record
}

/// The last node of a rule.
fn last(rule: &str, expected: &[u32]) {
    assert_eq!(nodes(rule).pop(), Some(padded(expected, 8)), "{rule}");
}

#[test]
fn conditions_have_their_kinds_and_operands() {
    last("rule r = A() and B()", &[1, 0, 1]);
    last("rule r = A() or B()", &[2, 0, 1]);
    last("rule r = not A()", &[3, 0]);
    last("rule r = formerly within 7m A()", &[4, 7, 0, 1, 0]);
    last("rule r = previous within 7m A()", &[5, 7, 0, 1, 0]);
    last("rule r = A() since within 7m B()", &[6, 0, 1, 7, 0, 1]);
    last("rule r = A()", &[7, 0, 0, 0, 1, 0, 0]);
    last("rule r = 5 == 6", &[8, 4, 0, 1]);
    last("rule r = exists y A(f: y)", &[9, 1, 1]);
    assert_eq!(nodes("rule r = exists z tp z"), [padded(&[10, 2], 8), padded(&[9, 2, 0], 8)]);
}

#[test]
fn left_stands_before_right() {
    let text = "rule a = A() rule b = B()";
    last(&format!("{text} rule r = @b and @a"), &[1, 1, 0]);
    last(&format!("{text} rule r = @b or @a"), &[2, 1, 0]);
    last(&format!("{text} rule r = @b since within 7m @a"), &[6, 1, 0, 7, 0, 1]);
    last("term a = 5 term b = 6 rule r = @b < @a", &[8, 1, 1, 0]);
    last("term a = 5 term b = 6 term r = @b - @a", &[26, 1, 1, 0]);
}

#[test]
fn units_and_amounts() {
    for (written, words) in [
        ("0s", [0, 0, 0]),
        ("10s", [10, 0, 0]),
        ("5m", [5, 0, 1]),
        ("3h", [3, 0, 2]),
        ("2d", [2, 0, 3]),
        ("-1s", [NONE, NONE, 0]),
        ("-5h", [NONE - 4, NONE, 2]),
        ("4294967298d", [2, 1, 3]),
    ] {
        let [low, high, unit] = words;
        last(&format!("rule r = formerly within {written} A()"), &[4, low, high, unit, 0]);
        last(&format!("rule r = previous within {written} A()"), &[5, low, high, unit, 0]);
        last(&format!("rule r = A() since within {written} B()"), &[6, 0, 1, low, high, unit]);
    }
}

#[test]
fn operators() {
    for (sign, number) in [("<=", 0), ("<", 1), (">=", 2), (">", 3), ("==", 4), ("!=", 5)] {
        last(&format!("rule r = 5 {sign} 6"), &[8, number, 0, 1]);
    }
    for (sign, number) in [("+", 0), ("-", 1), ("*", 2)] {
        last(&format!("term t = 5 {sign} 6"), &[26, number, 0, 1]);
    }
    // Products bind tighter than sums; each groups from the left.
    let words = |operands: &[u32]| padded(operands, 8);
    let sums = nodes("term t = 5 - 6 * 7 + 8");
    assert_eq!(sums[3..], [words(&[26, 2, 1, 2]), words(&[26, 1, 0, 3]), words(&[20, 3]), words(&[26, 0, 4, 5])]);
    assert_eq!(nodes("term t = 5 - 6 - 7")[2..], [words(&[26, 1, 0, 1]), words(&[20, 2]), words(&[26, 1, 2, 3])]);
    let mixed = nodes("rule r = A() or B() and C() since within 1s D()");
    assert_eq!(mixed[4..], [words(&[6, 2, 3, 1, 0, 0]), words(&[1, 1, 4]), words(&[2, 0, 5])]);
    let grouped = nodes("rule r = A() and B() and C()");
    assert_eq!(grouped[2..], [words(&[1, 0, 1]), words(&[7, 0, 0, 2, 3, 0, 0]), words(&[1, 2, 3])]);
}

#[test]
fn terms_have_their_kinds_and_operands() {
    last("term t = 5", &[20, 0]);
    last("term t = context.a.b", &[21, 0, 2]);
    last("term t = principal", &[22, 0, 0, 0]);
    last("term t = resource", &[22, 1, 0, 0]);
    last("term t = principal.a", &[22, 0, 0, 1]);
    last("term t = resource.a.b", &[22, 1, 0, 2]);
    assert_eq!(nodes("rule r = exists z A(f: z)")[0], padded(&[23, 2], 8));
    last("term t = *", &[24]);
    last("number n = count where A() term t = @n", &[25, 1]);
    last("number n = sum y for z, y where A(f: y, g: z)", &[30, 1, 8, 2, 2]);
    last("number n = count for z, y where A(f: y, g: z)", &[31, 8, 2, 2]);
    let binders = File::of("variables x y z number n = count for z, y where A(f: y, g: z)").body(LISTS);
    assert_eq!(binders[8..], [[2], [1]]);
}

#[test]
fn a_predicate_names_its_action_and_arguments() {
    let file = File::of("rule r = N::M::A/k(f.g: *, h: 1)");
    assert_eq!(file.text(), "AMNfghk");
    assert_eq!(file.body(LISTS).concat(), [2, 1, 3, 4, 5, 2, 2, 0, 4, 1, 1]);
    assert_eq!(file.body(NODES)[2], [7, 0, 2, 0, 6, 5, 2, 0]);
    let usual = File::of("rule r = A()");
    assert_eq!((usual.text(), usual.body(NODES)[0][4]), ("Arequest", 1));
}

#[test]
fn values_have_their_kinds() {
    let text = r#"value a = {z: 7, a: [true, null]} value b = -2 value c = 4294967303 value d = decimal "1.5"
        value e = N::User::"ann" value f = false value g = []"#;
    let file = File::of(text);
    assert_eq!(file.text(), "1.5N::Useraannz");
    let expected: [[u32; 4]; 11] = [
        [0, 0, 0, 0],
        [1, 0, 0, 0],
        [1, 1, 0, 0],
        [2, NONE - 1, NONE, 0],
        [2, 7, 0, 0],
        [2, 7, 1, 0],
        [3, 0, 0, 0],
        [5, 1, 3, 0],
        [6, 0, 0, 0],
        [6, 0, 2, 0],
        [7, 2, 2, 0],
    ];
    assert_eq!(file.body(VALUES), expected);
    assert_eq!(file.body(MEMBERS), [[NONE, 2], [NONE, 0], [2, 9], [4, 4]]);
    assert_eq!(File::of("value s = \"x\"").body(VALUES), [[4, 0, 0, 0]]);
    assert_eq!(file.body(STRINGS), [[0, 3], [3, 7], [10, 1], [11, 3], [14, 1]]);
}

#[test]
fn a_point_has_its_fields_in_order() {
    let text = r#"point 4294967301 N::M::A/k
        logged {l: 1} context {c: 2} principal P::"p" resource Q::"q"
        entity T::"i" {u: 3} entity S::"j" {} entity S::"i" {}
        point -1 B"#;
    let file = File::of(text);
    let values: [[u32; 4]; 9] = [
        [2, 1, 0, 0],
        [2, 2, 0, 0],
        [2, 3, 0, 0],
        [5, 4, 13, 0],
        [5, 5, 14, 0],
        [7, 0, 0, 0],
        [7, 0, 1, 0],
        [7, 1, 1, 0],
        [7, 2, 1, 0],
    ];
    assert_eq!(file.text(), "ABMNPQSTcijklpqrequestu");
    assert_eq!(file.body(VALUES), values);
    let points = [[5, 1, 0, 2, 0, 11, 7, 6, 3, 4, 2, 3], [NONE, NONE, 11, 0, 1, 15, 5, 5, NONE, NONE, 11, 0]];
    assert_eq!(file.body(POINTS), points);
    assert_eq!(file.body(LISTS).concat(), [3, 2, 6, 9, 5, 6, 10, 5, 7, 9, 8]);
    assert_eq!(file.body(MEMBERS), [[8, 1], [12, 0], [16, 2]]);
}

/// A whole file: the contents, then the bodies without gaps.
#[test]
fn the_whole_file() {
    let file = File::of("variables v w\npoint 7 A\nrule r = exists v A(a: v)");
    #[rustfmt::skip]
    let words = [
        1, 2, 64, 24, 88, 16, 104, 0, 104, 48, 152, 96, 248, 16, 264, 9, // edition, V, seven pairs
        0, 1, 1, 1, 2, 7, // strings: A, a, request
        7, 0, 0, 0, // the empty object
        7, 0, 0, 0, 0, 2, 0, 0, NONE, NONE, 0, 0, // the point
        23, 0, 0, 0, 0, 0, 0, 0, // v
        7, 0, 0, 0, 2, 1, 1, 0, // A(a: v)
        9, 0, 1, 0, 0, 0, 0, 0, // exists v
        1, 0, 1, 0, // the path a; then the argument's path and term
    ];
    let mut bytes: Vec<u8> = words.iter().flat_map(|word| word.to_le_bytes()).collect();
    bytes.extend(b"Aarequest");
    assert_eq!(file.0, bytes);
}

/// Every construct in the form that `text` writes: it comes back letter for letter.
#[test]
fn the_text_comes_back() {
    let text = include_str!("every.case");
    let packed = pack(text).unwrap_or_else(|fault| panic!("{fault}"));
    assert_eq!(unpack(&packed.tables).expect("it has a text"), text);
}

/// Every number of a log is shifted by what stands before it: 2 strings of 3 bytes, 1 value, 4 members, 5 list words.
#[test]
fn a_log_stands_behind_the_tables_of_a_text() {
    let rules = Unsorted {
        tables: Tables {
            variables: 1,
            strings: vec![[0, 1], [1, 2]],
            values: vec![[4, 1, 0, 0]],
            members: vec![[NONE, 0]; 4],
            nodes: vec![[24, 0, 0, 0, 0, 0, 0, 0]],
            lists: vec![1, 0, 0, 1, 0],
            text: b"abb".to_vec(),
            ..Tables::default()
        },
        marks: vec![1, 0, 0, 1, 1],
    };
    let point = [7, 0, 0, 1, 1, 2, 7, 6, 5, 2, 1, 1];
    let log = Tables {
        strings: vec![[0, 1], [1, 1], [2, 0]],
        values: vec![
            [0, 0, 0, 0],
            [1, 1, 0, 0],
            [2, 9, 8, 0],
            [3, 0, 0, 0],
            [4, 1, 0, 0],
            [5, 0, 2, 0],
            [6, 1, 2, 0],
            [7, 0, 1, 0],
        ],
        members: vec![[1, 6], [NONE, 3], [NONE, 4]],
        points: vec![point, [7, 0, 0, 0, 1, 2, 7, 7, NONE, NONE, 4, 0]],
        lists: vec![2, 0, 1, 7],
        text: b"cd".to_vec(),
        ..Tables::default()
    };
    let log = Log::of(&log.encode(), &[1, 1, 1, 0]).expect("it has tables");
    let expected = Unsorted {
        tables: Tables {
            strings: vec![[0, 1], [1, 2], [3, 1], [4, 1], [5, 0]],
            values: vec![
                [4, 1, 0, 0],
                [0, 0, 0, 0],
                [1, 1, 0, 0],
                [2, 9, 8, 0],
                [3, 2, 0, 0],
                [4, 3, 0, 0],
                [5, 2, 4, 0],
                [6, 5, 2, 0],
                [7, 4, 1, 0],
            ],
            members: [vec![[NONE, 0]; 4], vec![[3, 7], [NONE, 4], [NONE, 5]]].concat(),
            points: vec![[7, 0, 5, 1, 3, 4, 8, 7, 6, 3, 6, 1], [7, 0, 5, 0, 3, 4, 8, 8, NONE, NONE, 9, 0]],
            lists: vec![1, 0, 0, 1, 0, 4, 2, 3, 8],
            text: b"abbcd".to_vec(),
            ..rules.tables.clone()
        },
        marks: vec![1, 0, 0, 1, 1, 1, 1, 1, 0],
    };
    assert_eq!(log.joined(rules), Some(expected));
}
