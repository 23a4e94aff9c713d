//! Copies the Rust's ast, value and eval into the build, unchanged but for lines appended at
//! their ends, and eval once more with a counter at each visit. Nothing of it is committed.

use std::path::{Path, PathBuf};

/// Where the folder is if DOGWOOD_SRC does not say, seen from the repository's root.
const DEFAULT_FOLDER: &str = "../shared/docs";

/// Name of the copy, and path in Dogwood's repository.
const AST: (&str, &str) = ("ast", "dogwood-language/src/extension/temporal/ast.rs");
const VALUE: (&str, &str) = ("value", "dogwood-language/src/interpreter/value.rs");
const EVAL: (&str, &str) = ("eval", "dogwood-language/src/interpreter/eval.rs");

const VALUE_ACCESSORS: &str = "
use crate::cedar_policy;
pub fn decimal_reading(text: &str) -> Option<i64> { cedar_decimal_value(text) }
pub fn uid(ty: &str, id: &str) -> String { entity_uid_string(ty, id) }
pub fn event(ts: i64, scope: Scope, data: EventData) -> Event { Event::from_parts(ts, scope, data) }
";

const EVAL_ACCESSORS: &str = "
pub fn projected_rows(
    trace: &Trace, i: usize, env: &Env, cond: &Condition, binders: &[TypedBinder],
) -> Vec<Vec<(String, Value)>> {
    project_dedup(&match_occurrences(trace, i, env, cond), binders)
}
";

fn main() {
    println!("cargo:rerun-if-env-changed=DOGWOOD_SRC");
    let folder = folder();
    let eval = read(&folder, EVAL.1);
    write("ast", &read(&folder, AST.1));
    write("value", &(read(&folder, VALUE.1) + VALUE_ACCESSORS));
    write("eval", &(eval.clone() + EVAL_ACCESSORS));
    write("counted", &(with_counters(&eval) + EVAL_ACCESSORS));
}

fn folder() -> PathBuf {
    let root = Path::new(env!("CARGO_MANIFEST_DIR")).join("../..");
    match std::env::var_os("DOGWOOD_SRC") {
        Some(folder) => root.join(folder),
        None => root.join(DEFAULT_FOLDER),
    }
}

/// A file of the folder: under its path in the repository, or flat, as `src--a--b.rs.txt`.
fn read(folder: &Path, path: &str) -> String {
    let flat = format!("src--{}.txt", path.replace('/', "--"));
    for name in [path, &flat] {
        let file = folder.join(name);
        if let Ok(text) = std::fs::read_to_string(&file) {
            println!("cargo:rerun-if-changed={}", file.display());
            return text;
        }
    }
    eprintln!("error: the Rust that judges is not at hand: the folder {} holds neither", folder.display());
    eprintln!("         {path}");
    eprintln!("       nor {flat}");
    eprintln!("       Set DOGWOOD_SRC to the folder that holds Dogwood's source (relative to the");
    eprintln!("       repository's root, or absolute). The crates model and generate need none.");
    std::process::exit(1);
}

/// Writes a module and the line that declares it; a file of its own keeps its inner comments legal.
fn write(name: &str, text: &str) {
    let out = PathBuf::from(std::env::var_os("OUT_DIR").expect("cargo sets OUT_DIR"));
    let file = out.join(format!("{name}.rs"));
    std::fs::write(&file, text).expect("OUT_DIR is writable");
    let declaration = format!("#[path = {:?}]\npub mod {name};\n", file.display().to_string());
    std::fs::write(out.join(format!("{name}_declared.rs")), declaration).expect("OUT_DIR is writable");
}

/// A visit of a condition or aggregate is an entry of one of three functions,
/// or a predicate tried by `eval_and`.
fn with_counters(eval: &str) -> String {
    let mut text = eval.to_string();
    for function in ["eval_condition", "eval_agg_expr", "match_occurrences"] {
        let body = after(&text, &format!("fn {function}("), "{\n");
        text.insert_str(body, "    crate::visits::visit();\n");
    }
    let tried = after(&text, "fn eval_and(", "match match_predicate(");
    let call = tried - "match_predicate(".len();
    text.replace_range(call..tried, "({ crate::visits::visit(); match_predicate })(");
    text
}

/// The place after the first `then` that follows the one occurrence of `start`.
fn after(text: &str, start: &str, then: &str) -> usize {
    assert_eq!(text.matches(start).count(), 1, "`{start}` should occur once in eval.rs");
    let from = text.find(start).expect("it occurs");
    let length = text[from..].find(then).unwrap_or_else(|| panic!("no `{then}` after `{start}` in eval.rs"));
    from + length + then.len()
}
