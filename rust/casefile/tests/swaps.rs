//! Slips put into the packer one by one: each must fail tests/bytes.rs. It builds the crate once for each, so it is
//! asked for: `cargo test -p casefile --test swaps -- --ignored`.

use std::path::{Path, PathBuf};
use std::process::Command;

/// File under src/, a text that stands there once, and what takes its place.
const SWAPS: [(&str, &str, &str); 85] = [
    // A log's numbers behind a text's.
    ("log/mod.rs", "[start + byte, *length]", "[*start, *length]"),
    ("log/mod.rs", "3 | 4 => [kind, a + self.string", "3 | 4 => [kind, a + self.value"),
    ("log/mod.rs", "b + self.string, c]", "b, c]"),
    ("log/mod.rs", "6 | 7 => [kind, a + self.member", "6 | 7 => [kind, a + self.list"),
    ("log/mod.rs", "value + self.value]", "value]"),
    ("log/mod.rs", "point.namespace.first += self.list", "point.namespace.first += self.member"),
    ("log/mod.rs", "point.entities.first += self.list", "point.entities.first += self.value"),
    ("log/mod.rs", "point.action += self.string", "point.action += self.value"),
    ("log/mod.rs", "point.kind += self.string", "point.kind += self.list"),
    (
        "log/mod.rs",
        "values.chain(&mut point.principal).chain(&mut point.resource);",
        "values.chain(&mut point.principal);",
    ),
    (
        "log/mod.rs",
        "if mark == 0 { shift.value } else { shift.string }",
        "if mark == 0 { shift.string } else { shift.value }",
    ),
    // Units, operators and roots.
    ("text/mod.rs", r#"["s", "m", "h", "d"]"#, r#"["m", "s", "h", "d"]"#),
    ("text/mod.rs", r#"["s", "m", "h", "d"]"#, r#"["s", "h", "m", "d"]"#),
    ("text/mod.rs", r#"["s", "m", "h", "d"]"#, r#"["s", "m", "d", "h"]"#),
    ("text/mod.rs", r#"["<=", "<", ">=""#, r#"["<", "<=", ">=""#),
    ("text/mod.rs", r#""<", ">=", ">""#, r#"">=", "<", ">""#),
    ("text/mod.rs", r#"">=", ">", "==""#, r#"">", ">=", "==""#),
    ("text/mod.rs", r#"">", "==", "!=""#, r#""==", ">", "!=""#),
    ("text/mod.rs", r#""==", "!="]"#, r#""!=", "=="]"#),
    ("text/mod.rs", r#"["+", "-", "*"]"#, r#"["-", "+", "*"]"#),
    ("text/mod.rs", r#"["principal", "resource"]"#, r#"["resource", "principal"]"#),
    ("text/mod.rs", r#"USUAL_KIND: &str = "request""#, r#"USUAL_KIND: &str = "response""#),
    ("text/terms.rs", "PlainNode::Arithmetic(2, left, right)", "PlainNode::Arithmetic(1, left, right)"),
    // Kinds of values, and their words.
    ("records.rs", "Value::Null => [0; 4]", "Value::Null => [1, 0, 0, 0]"),
    ("records.rs", "[1, b as u32, 0, 0]", "[1, !b as u32, 0, 0]"),
    ("records.rs", "[2, low(n), high(n), 0]", "[2, high(n), low(n), 0]"),
    ("records.rs", "Value::Decimal(text) => [3,", "Value::Decimal(text) => [4,"),
    ("records.rs", "Value::String(text) => [4,", "Value::String(text) => [3,"),
    ("records.rs", "[5, ty, id, 0]", "[5, id, ty, 0]"),
    ("records.rs", "Value::Array(run) => [6,", "Value::Array(run) => [7,"),
    ("records.rs", "Value::Object(run) => [7,", "Value::Object(run) => [6,"),
    (
        "records.rs",
        "Value::Object(run) => [7, run.first, run.count, 0]",
        "Value::Object(run) => [7, run.count, run.first, 0]",
    ),
    // Kinds of nodes.
    ("records.rs", "Node::And { left, right } => (1,", "Node::And { left, right } => (2,"),
    ("records.rs", "Node::Or { left, right } => (2,", "Node::Or { left, right } => (1,"),
    ("records.rs", "Node::Not { inner } => (3,", "Node::Not { inner } => (10,"),
    ("records.rs", "Node::Formerly { within, body } => (4,", "Node::Formerly { within, body } => (5,"),
    ("records.rs", "Node::Previous { within, body } => (5,", "Node::Previous { within, body } => (4,"),
    ("records.rs", "Node::Since { left, right, within } => (6,", "Node::Since { left, right, within } => (4,"),
    ("records.rs", "Node::Comparison { op, left, right } => (8,", "Node::Comparison { op, left, right } => (26,"),
    ("records.rs", "Node::Exists { variable, body } => (9,", "Node::Exists { variable, body } => (10,"),
    ("records.rs", "Node::Tp { variable } => (10,", "Node::Tp { variable } => (3,"),
    ("records.rs", "Node::Literal { value } => (20,", "Node::Literal { value } => (23,"),
    ("records.rs", "Node::Context { path } => (21,", "Node::Context { path } => (22,"),
    ("records.rs", "Node::Scope { root, path } => (22,", "Node::Scope { root, path } => (21,"),
    ("records.rs", "Node::Variable { variable } => (23,", "Node::Variable { variable } => (20,"),
    ("records.rs", "Node::Wildcard => (24,", "Node::Wildcard => (23,"),
    ("records.rs", "Node::Aggregate { aggregate } => (25,", "Node::Aggregate { aggregate } => (24,"),
    ("records.rs", "Node::Arithmetic { op, left, right } => (26,", "Node::Arithmetic { op, left, right } => (8,"),
    ("records.rs", "Node::Sum { variable, binders, body } => (30,", "Node::Sum { variable, binders, body } => (31,"),
    ("records.rs", "Node::Count { binders, body } => (31,", "Node::Count { binders, body } => (30,"),
    // Order of a node's words.
    ("records.rs", "(1, vec![left, right])", "(1, vec![right, left])"),
    ("records.rs", "(2, vec![left, right])", "(2, vec![right, left])"),
    ("records.rs", "[low(w.amount), high(w.amount), w.unit]", "[high(w.amount), low(w.amount), w.unit]"),
    ("records.rs", "[low(w.amount), high(w.amount), w.unit]", "[w.unit, low(w.amount), high(w.amount)]"),
    ("records.rs", "[&[left, right], &window(within)[..]].concat()", "[&[right, left], &window(within)[..]].concat()"),
    ("records.rs", "[&[left, right], &window(within)[..]].concat()", "[&window(within)[..], &[left, right]].concat()"),
    ("records.rs", "namespace.count, action, kind, arguments.first", "namespace.count, kind, action, arguments.first"),
    ("records.rs", "vec![namespace.first, namespace.count, action", "vec![namespace.count, namespace.first, action"),
    ("records.rs", "(8, vec![op, left, right])", "(8, vec![op, right, left])"),
    ("records.rs", "(9, vec![variable, body])", "(9, vec![body, variable])"),
    ("records.rs", "(21, vec![path.first, path.count])", "(21, vec![path.count, path.first])"),
    ("records.rs", "(22, vec![root, path.first, path.count])", "(22, vec![path.first, path.count, root])"),
    ("records.rs", "(26, vec![op, left, right])", "(26, vec![op, right, left])"),
    (
        "records.rs",
        "(30, vec![variable, binders.first, binders.count, body])",
        "(30, vec![body, binders.first, binders.count, variable])",
    ),
    ("records.rs", "(31, vec![binders.first, binders.count, body])", "(31, vec![body, binders.first, binders.count])"),
    // Order of a point's words.
    ("records.rs", "low(self.time),\n            high(self.time),", "high(self.time),\n            low(self.time),"),
    ("records.rs", "self.action,\n            self.kind,", "self.kind,\n            self.action,"),
    ("records.rs", "self.logged,\n            self.context,", "self.context,\n            self.logged,"),
    (
        "records.rs",
        "optional(self.principal),\n            optional(self.resource),",
        "optional(self.resource),\n            optional(self.principal),",
    ),
    (
        "records.rs",
        "self.entities.first,\n            self.entities.count,",
        "self.entities.count,\n            self.entities.first,",
    ),
    // Order of strings, members, entities, arguments and bodies.
    ("unsorted.rs", "tables.string(a).cmp(tables.string(b))", "tables.string(b).cmp(tables.string(a))"),
    ("builder.rs", "ListWord::String(number) => (number, 1)", "ListWord::String(number) => (number, 0)"),
    ("builder.rs", "ListWord::Number(number) => (number, 0)", "ListWord::Number(number) => (number, 1)"),
    ("builder.rs", "self.members.push([name, *value]);", "self.members.push([*value, name]);"),
    ("builder.rs", "        entities.sort();\n", ""),
    ("builder.rs", "[path.first, path.count, term]", "[term, path.first, path.count]"),
    (
        "tables.rs",
        "            bytes_of(&self.points),\n            bytes_of(&self.nodes),",
        "            bytes_of(&self.nodes),\n            bytes_of(&self.points),",
    ),
    (
        "tables.rs",
        "push_word(&mut file, EDITION);\n        push_word(&mut file, self.variables);",
        "push_word(&mut file, self.variables);\n        push_word(&mut file, EDITION);",
    ),
    (
        "tables.rs",
        "push_word(&mut file, offset as u32);\n            push_word(&mut file, body.len() as u32);",
        "push_word(&mut file, body.len() as u32);\n            push_word(&mut file, offset as u32);",
    ),
    // What the parser makes of words and signs.
    (
        "text/conditions.rs",
        "self.add(PlainNode::Or(left, right), place)",
        "self.add(PlainNode::And(left, right), place)",
    ),
    (
        "text/conditions.rs",
        "self.add(PlainNode::And(left, right), place)",
        "self.add(PlainNode::And(right, left), place)",
    ),
    ("text/conditions.rs", "PlainNode::Since(left, right, within)", "PlainNode::Since(right, left, within)"),
    ("text/conditions.rs", "PlainNode::Formerly(within, body)", "PlainNode::Previous(within, body)"),
    (
        "text/conditions.rs",
        "PlainNode::Comparison(op as u32, left, right)",
        "PlainNode::Comparison(op as u32, right, left)",
    ),
    ("text/terms.rs", "PlainNode::Arithmetic(op as u32, left, right)", "PlainNode::Arithmetic(op as u32, right, left)"),
];

#[test]
#[ignore = "builds the crate once for each swap"]
fn each_swap_is_caught() {
    let copy = Copy::new();
    assert!(copy.passes(), "the tests pass before anything is swapped");
    let mut missed = Vec::new();
    for (file, old, new) in SWAPS {
        let path = copy.folder.join("src").join(file);
        let text = std::fs::read_to_string(&path).expect("the copy can be read");
        assert_eq!(text.matches(old).count(), 1, "{file}: {old}");
        std::fs::write(&path, text.replace(old, new)).expect("the copy can be written");
        if copy.passes() {
            missed.push(format!("{file}: {old}"));
        }
        std::fs::write(&path, text).expect("the copy can be written");
    }
    assert!(missed.is_empty(), "{missed:#?}");
}

/// The crate once more, in a workspace of its own.
struct Copy {
    folder: PathBuf,
}

impl Copy {
    fn new() -> Copy {
        let folder = PathBuf::from(env!("CARGO_TARGET_TMPDIR")).join("swaps");
        let _ = std::fs::remove_dir_all(&folder);
        let from = Path::new(env!("CARGO_MANIFEST_DIR"));
        for part in ["src", "src/lint", "src/log", "src/text", "tests"] {
            std::fs::create_dir_all(folder.join(part)).expect("the folder for tests can be written");
            for entry in std::fs::read_dir(from.join(part)).expect("the crate can be read").flatten() {
                let name = format!("{part}/{}", entry.file_name().to_string_lossy());
                if entry.path().is_file() && !name.ends_with("swaps.rs") {
                    std::fs::copy(entry.path(), folder.join(&name)).expect("the crate can be copied");
                }
            }
        }
        let manifest = "[package]\nname = \"casefile\"\nversion = \"0.0.0\"\nedition = \"2021\"\n[workspace]\n";
        std::fs::write(folder.join("Cargo.toml"), manifest).expect("the copy can be written");
        Copy { folder }
    }

    /// Whether tests/bytes.rs passes. A copy that does not compile shows nothing.
    fn passes(&self) -> bool {
        let output = Command::new(env!("CARGO"))
            .args(["test", "--offline", "--quiet", "--test", "bytes"])
            .current_dir(&self.folder)
            .env("CARGO_TARGET_DIR", self.folder.join("target"))
            .output()
            .expect("cargo can be run");
        let said = String::from_utf8_lossy(&output.stdout).into_owned();
        assert!(said.contains("test result:"), "{said}{}", String::from_utf8_lossy(&output.stderr));
        output.status.success()
    }
}
