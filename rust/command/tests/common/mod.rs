//! Runs the command as a user does.

#![allow(dead_code)]

use std::ffi::OsStr;
use std::io::Write;
use std::path::PathBuf;
use std::process::{Command, Stdio};

/// A log with rules of every sort.
pub const TEXT: &str = r#"
variables b n
point 100 Review logged {board: "b1", n: 3}
  principal User::"ann"
point 105 Review logged {board: "b2", n: 3, volts: decimal "1.5", pins: [1, "a"], rail: {low: null}}
point 110 Flash logged {board: "b1", n: 4}
loose rule reviewed = Flash(board: b) and formerly within 1h Review(board: b, n: n)
number boards = count for b where formerly within 1h Review(board: b)
rule volts(n, b) = formerly within 1h Review(volts: n, pins: b)
rule rail(b) = formerly within 1h Review(rail: b)
rule seen(b, n) = formerly within 1h Review(board: b, n: n)
"#;

/// Status, standard output, standard error.
pub type Said = (i32, String, String);

pub fn run_with<A: AsRef<OsStr>>(arguments: &[A], input: &[u8]) -> Said {
    let mut child = Command::new(env!("CARGO_BIN_EXE_galivodern"))
        .args(arguments)
        .stdin(Stdio::piped())
        .stdout(Stdio::piped())
        .stderr(Stdio::piped())
        .spawn()
        .expect("the command starts");
    // A command that wants no input may be gone before it is written.
    let _ = child.stdin.take().expect("it is piped").write_all(input);
    let output = child.wait_with_output().expect("the command ends");
    let text = |bytes: Vec<u8>| String::from_utf8(bytes).expect("the command writes text");
    (output.status.code().expect("it ends by itself"), text(output.stdout), text(output.stderr))
}

pub fn run<A: AsRef<OsStr>>(arguments: &[A]) -> Said {
    run_with(arguments, b"")
}

/// A file of this test alone.
pub fn file(name: &str, bytes: &[u8]) -> String {
    let path = PathBuf::from(env!("CARGO_TARGET_TMPDIR")).join(name);
    std::fs::write(&path, bytes).expect("the folder for tests can be written");
    path.to_str().expect("its name is text").to_string()
}

pub fn answered(arguments: &[&str], status: i32, output: &str) {
    assert_eq!(run(arguments), (status, output.to_string(), String::new()), "{arguments:?}");
}

/// Status 2, nothing on standard output, these words on standard error.
pub fn refused<A: AsRef<OsStr> + std::fmt::Debug>(arguments: &[A], words: &str) {
    let (status, output, error) = run(arguments);
    assert_eq!((status, output.as_str()), (2, ""), "{arguments:?}: {error}");
    assert!(error.contains(words), "{arguments:?}: {error}");
}
