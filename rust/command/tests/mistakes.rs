//! Forty mistakes, each told with what is wrong, where, and what to do, and with status 2. The table of them in
//! docs/notes/12-maintainers-hands.md is what they give.

use std::os::unix::fs::PermissionsExt;
use std::os::unix::process::CommandExt;
use std::path::{Path, PathBuf};
use std::process::{Command, Output, Stdio};

/// What was done wrong, the text of `my.case`, and the call.
struct Mistake(&'static str, &'static [u8], &'static [&'static str]);

const CHECK: &[&str] = &["check", "my.case"];
const STRICT: &[&str] = &["ask", "my.case", "--strict"];
const SOUND: &[u8] = b"variables b\npoint 100 Review logged {board: \"b1\", n: 3}\nrule ok = Review(n: 3)\n\
                       rule seen(b) = Review(board: b)\nnumber boards = count for b where formerly within 1h @seen\n";

const MISTAKES: [Mistake; 40] = [
    Mistake("a keyword misspelt", b"point 1 A\nrul r = A()", CHECK),
    Mistake("a variable misspelt", b"variables board\nrule r = exists board Review(b: bord)", CHECK),
    Mistake("a name misspelt", b"rule ready = A()\nrule r = not @raedy", CHECK),
    Mistake("a free variable", b"variables b\nrule r = formerly within 1h Review(board: b) and Flash(board: b)", CHECK),
    Mistake(
        "asked before it is bound",
        b"variables b\nrule r = exists b (not Flash(board: b) and Review(board: b))",
        CHECK,
    ),
    Mistake("bound on one side of `or`", b"variables b\nrule r = exists b (Flash(board: b) or Review())", CHECK),
    Mistake("a parameter left unbound", SOUND, &["ask", "my.case", "--rule", "seen"]),
    Mistake("an action misspelt, --strict", b"point 1 Review\nrule r = not Reveiw()", STRICT),
    Mistake("a field misspelt, --strict", b"point 1 A logged {board: 1}\nrule r = not A(bord: 1)", STRICT),
    Mistake("a value of another type, --strict", b"point 1 A logged {n: 3}\nrule r = not A(n: \"3\")", STRICT),
    Mistake("an ordering of text, --strict", b"point 1 A\nrule r = not 3 < \"4\"", STRICT),
    Mistake("a time ahead, --strict", b"point 9 A\npoint 5 B\nrule r = formerly within 1h A()", STRICT),
    Mistake(
        "an action that the schema lacks",
        b"point 1 A\nrule r = B()",
        &["check", "my.case", "--schema", "my.schema"],
    ),
    Mistake("a quotation mark forgotten", b"point 1 A logged {board: \"b1}", CHECK),
    Mistake("single quotation marks", b"point 1 A logged {board: 'b1'}", CHECK),
    Mistake("`&&` for `and`", b"rule r = A() && B()", CHECK),
    Mistake("a window without a unit", b"rule r = formerly within 60 A()", CHECK),
    Mistake("a date that there is not", b"point 2026-02-30T10:00:00Z A", CHECK),
    Mistake("a name given twice", b"rule r = A()\nrule r = B()", CHECK),
    Mistake("a part given twice", b"point 1 A logged {n: 1} logged {n: 2}", CHECK),
    Mistake("Windows' line ends", b"point 1 A\r\nrule r = A()\r\n", CHECK),
    Mistake("a byte order mark", b"\xef\xbb\xbfrule r = A()", CHECK),
    Mistake("Latin-1", b"point 1 A logged {by: \"Ren\xe9\"}", CHECK),
    Mistake("UTF-16", b"\xff\xfer\0u\0l\0e\0", CHECK),
    Mistake("a NUL byte", b"point 1 A\nrule r = A\0()", CHECK),
    Mistake("an empty file", b"", CHECK),
    Mistake("a directory for a file", SOUND, &["check", "."]),
    Mistake("a file that is not there", SOUND, &["check", "yours.case"]),
    Mistake("no permission to read", SOUND, &["check", "secret.case"]),
    Mistake("a reader that has gone away", SOUND, &["text", "long.case"]),
    Mistake("a full disk", SOUND, &["ask", "my.case", "--rule", "ok"]),
    Mistake("the output is the input", SOUND, &["pack", "my.case", "./my.case"]),
    Mistake("a folder that is not there", SOUND, &["pack", "my.case", "out/my.bin"]),
    Mistake("a case cut short", b"\x01\0\0\0\x02\0\0\0", CHECK),
    Mistake("a rule that is not there", SOUND, &["ask", "my.case", "--rule", "sene"]),
    Mistake("a name for a number", SOUND, &["ask", "my.case", "--node", "seen"]),
    Mistake("a point that is not there", SOUND, &["ask", "my.case", "--rule", "ok", "--point", "1"]),
    Mistake("an option given twice", SOUND, &["ask", "my.case", "--point", "0", "--point", "0"]),
    Mistake("an option misspelt", SOUND, &["ask", "my.case", "--roole", "ok"]),
    Mistake("a value that no point has", SOUND, &["ask", "my.case", "--rule", "seen", "--bind", "b=b7"]),
];

/// A folder with the files of a mistake.
fn folder(k: usize, text: &[u8]) -> PathBuf {
    let folder = PathBuf::from(env!("CARGO_TARGET_TMPDIR")).join("mistakes").join(k.to_string());
    let _ = std::fs::remove_dir_all(&folder);
    std::fs::create_dir_all(&folder).expect("the folder for tests can be written");
    let write = |name: &str, bytes: &[u8]| std::fs::write(folder.join(name), bytes).expect("it can be written");
    write("my.case", text);
    write("my.schema", b"action A {}\n");
    write("long.case", "point 1 A logged {n: 1}\n".repeat(9_000).as_bytes());
    write("secret.case", text);
    let nobody = std::fs::Permissions::from_mode(0o000);
    std::fs::set_permissions(folder.join("secret.case"), nobody).expect("the file is ours");
    folder
}

fn run(what: &str, call: &[&str], folder: &Path) -> Output {
    let mut command = Command::new(env!("CARGO_BIN_EXE_galivodern"));
    command.args(call).current_dir(folder).stdin(Stdio::null()).stderr(Stdio::piped()).stdout(Stdio::piped());
    if what == "no permission to read" && std::fs::metadata("/proc/self").is_ok_and(|own| is_root(&own)) {
        // Whoever runs the tests as root reads everything; nobody does not.
        command.uid(65_534);
    }
    if what == "a full disk" {
        command.stdout(std::fs::OpenOptions::new().write(true).open("/dev/full").expect("Linux has it"));
    }
    let mut child = command.spawn().expect("the command starts");
    if what == "a reader that has gone away" {
        drop(child.stdout.take());
    }
    child.wait_with_output().expect("the command ends")
}

fn is_root(own: &std::fs::Metadata) -> bool {
    std::os::unix::fs::MetadataExt::uid(own) == 0
}

#[test]
fn forty_mistakes_are_told() {
    let note = include_str!("../../../docs/notes/12-maintainers-hands.md");
    let mut rows = String::new();
    let mut missing = 0;
    for (k, Mistake(what, text, call)) in MISTAKES.iter().enumerate() {
        let output = run(what, call, &folder(k, text));
        let error = String::from_utf8_lossy(&output.stderr);
        assert_eq!(output.status.code(), Some(2), "{what}: {error}");
        let first = error.lines().next().unwrap_or_default();
        let told = first.strip_prefix("galivodern: ").unwrap_or_else(|| panic!("{what}: {error}"));
        let row = format!("| {what} | {} |\n", told.replace('|', "\\|"));
        missing += usize::from(!note.contains(&row));
        rows.push_str(&row);
        // JSON says the same, unless nothing can be written.
        if !["a full disk", "a reader that has gone away", "no permission to read"].contains(what) {
            let json: Vec<&str> = call.iter().copied().chain(["--json"]).collect();
            let output = run(what, &json, &folder(k, text));
            let said = String::from_utf8_lossy(&output.stdout);
            assert_eq!(output.status.code(), Some(2), "{what}: {said}");
            assert!(said.starts_with("{\"error\":\"") && said.ends_with("}\n"), "{what}: {said}");
            assert_eq!(String::from_utf8_lossy(&output.stderr), "", "{what}");
        }
    }
    assert_eq!(missing, 0, "the note's table is to be:\n{rows}");
}
