//! No gate opens by a slip: free variables, names, options, and files half written.

mod common;

use std::ffi::OsString;
use std::os::unix::ffi::OsStringExt;
use std::os::unix::fs::PermissionsExt;
use std::path::{Path, PathBuf};
use std::process::Command;

use common::{answered, file, refused, run, run_with, TEXT};

/// A folder of this test alone, empty.
fn folder(name: &str) -> PathBuf {
    let folder = PathBuf::from(env!("CARGO_TARGET_TMPDIR")).join(name);
    let _ = std::fs::remove_dir_all(&folder);
    std::fs::create_dir_all(&folder).expect("the folder for tests can be written");
    folder
}

fn names_in(folder: &Path) -> Vec<String> {
    let entries = std::fs::read_dir(folder).expect("the folder can be read").flatten();
    let mut names: Vec<String> = entries.map(|entry| entry.file_name().to_string_lossy().into_owned()).collect();
    names.sort();
    names
}

const TWO_BOARDS: &str = r#"variables b
point 100 Review logged {board: "b2"}
point 110 Flash logged {board: "b1"}
"#;

/// Another board was reviewed: with b free document 01 says yes.
#[test]
fn a_rule_with_a_free_variable_opens_nothing() {
    let body = "formerly within 1h Review(board: b) and Flash(board: b)";
    let text = |rule: &str| format!("{TWO_BOARDS}{rule}");
    let (status, _, error) = run_with(&["ask", "-"], text(&format!("rule r = {body}")).as_bytes());
    assert_eq!(status, 2);
    let fault = "standard input:4:43: nothing binds `b` in `r`: write `exists b (..)` around all that speaks of it, or \
                 make it a parameter, `r(b)`\n  4 | rule r = formerly within 1h Review(board: b) and Flash(board: b)\n    \
                 |                                           ^\n";
    assert!(error.ends_with(fault), "{error}");
    assert_eq!(run_with(&["ask", "-"], text(&format!("loose rule r = {body}")).as_bytes()).0, 0);
    assert_eq!(run_with(&["ask", "-"], text(&format!("rule r = exists b ({body})")).as_bytes()).0, 1);
    let declared = text(&format!("rule r(b) = {body}"));
    let (status, _, error) = run_with(&["ask", "-"], declared.as_bytes());
    assert_eq!(status, 2);
    assert!(error.contains("r is asked with b unbound: bind what it is about, --bind b=.., or list"), "{error}");
    assert_eq!(run_with(&["ask", "-", "--bind", "b=b1"], declared.as_bytes()).0, 1);
    assert_eq!(run_with(&["ask", "-", "--loose"], declared.as_bytes()).0, 0);
    assert_eq!(run_with(&["rows", "-"], declared.as_bytes()).0, 1);
    let (status, _, error) = run_with(&["bench", "-"], declared.as_bytes());
    assert_eq!(status, 2);
    assert!(error.contains("r is asked with b unbound"), "{error}");
}

/// The same holds of a packed case, with its names and without.
#[test]
fn a_packed_rule_is_asked_with_its_parameters_bound() {
    let folder = folder("packed-parameters");
    let (text, case) = (folder.join("r.case"), folder.join("r.bin"));
    std::fs::write(&text, format!("{TWO_BOARDS}rule r(b) = Flash(board: b)")).expect("it can be written");
    let (text, case) = (text.to_str().expect("it is text"), case.to_str().expect("it is text"));
    assert_eq!(run(&["pack", text, case]).0, 0);
    refused(&["ask", case], "r is asked with b unbound");
    answered(&["ask", case, "--bind", "b=b1"], 0, "yes (1 step, 0 rows held)\n");
    std::fs::remove_file(format!("{case}.names")).expect("the names are there");
    refused(&["ask", case], "node 1 is asked with x0 unbound");
    answered(&["ask", case, "--bind", "x0=b1"], 0, "yes (1 step, 0 rows held)\n");
}

#[test]
fn rows_are_refused_where_nothing_binds_what_they_list() {
    let text = format!("{TWO_BOARDS}rule r(b) = not Review(board: b)");
    let (status, _, error) = run_with(&["rows", "-"], text.as_bytes());
    assert_eq!(status, 2);
    assert!(error.contains("r cannot list `b`: `b` is asked for here before anything binds it"), "{error}");
    assert_eq!(run_with(&["rows", "-", "--bind", "b=b1"], text.as_bytes()).0, 0);
}

#[test]
fn names_survive_packing() {
    let folder = folder("names");
    let case = folder.join("t.bin").to_str().expect("it is text").to_string();
    let text = file("names.case", TEXT.as_bytes());
    assert_eq!(run(&["pack", &text, &case]).0, 0);
    let of_text = run(&["ask", &text, "--rule", "reviewed"]);
    assert_eq!(run(&["ask", &case, "--rule", "reviewed"]), of_text);
    let bound = ["ask", &case, "--rule", "seen", "--bind", "b=b2", "--bind", "n=3"];
    answered(&bound, 0, "yes (3 steps, 0 rows held)\n");
    let listed = "; did you mean `seen`? The case has: reviewed, boards, volts, rail, seen";
    refused(&["ask", &case, "--rule", "sene"], &format!("there is no rule `sene`{listed}"));
    refused(&["ask", &text, "--rule", "r4"], "there is no rule `r4`");
    refused(
        &["ask", &case, "--rule", "10"],
        "there is no rule `10`; the case has: reviewed, boards, volts, rail, seen",
    );
    refused(
        &["ask", &case, "--node", "r4"],
        "`--node` takes a number, not `r4`; a rule is asked by its name with --rule",
    );
    refused(&["ask", &case, "--node", "seen"], "`--node` takes a number, not `seen`");
    refused(
        &["ask", &case, "--node", "22"],
        "refused 8: the case has no such node, or it is none that this call is about",
    );
    refused(&["ask", &case, "--node", "22"], ": nodes 0 to 21 exist");
    refused(&["ask", &case, "--node", "4", "--rule", "seen"], "`--rule` and `--node` are two ways");
    // The text of the packed case has its names, and packs to the same.
    let again = folder.join("again.bin").to_str().expect("it is text").to_string();
    let printed = run(&["text", &case]).1;
    for line in ["variables b n\n", "\nloose rule reviewed = ", "\nnumber boards = ", "\nrule seen(b, n) = formerly"] {
        assert!(printed.contains(line), "{line}: {printed}");
    }
    assert_eq!(run_with(&["pack", "-", &again], printed.as_bytes()).0, 0);
    assert_eq!(std::fs::read(&again).expect("it was packed"), std::fs::read(&case).expect("it was packed"));
    // The names are bound to the case's bytes.
    let other = file("names-other.case", TEXT.replace("105", "106").as_bytes());
    let bytes = Command::new(env!("CARGO_BIN_EXE_galivodern")).args(["pack", &other, "-"]).output().expect("it packs");
    std::fs::write(&case, bytes.stdout).expect("it can be written");
    refused(&["ask", &case, "--rule", "seen"], "t.bin.names: these names belong to another case: pack the text again");
    std::fs::write(format!("{case}.names"), "nonsense").expect("it can be written");
    refused(&["check", &case], "t.bin.names: these are no names of a case");
    std::fs::remove_file(format!("{case}.names")).expect("it is there");
    refused(&["ask", &case, "--rule", "seen"], "the case has no names: ask a node by its number with --node");
}

/// The last rule is asked where none is named, also where it is another name of an earlier one.
#[test]
fn the_last_rule_is_asked_where_none_is_named() {
    let text = "point 1 A\nrule yes = A()\nrule no = B()\nrule gate = @yes\nterm t = 3\n";
    assert_eq!(run_with(&["ask", "-"], text.as_bytes()).0, 0);
    assert!(run_with(&["ask", "-", "--json"], text.as_bytes()).1.contains("\"node\":0,\"rule\":\"gate\""));
    let (status, _, error) = run_with(&["bench", "-"], text.replace("term t = 3\n", "").as_bytes());
    assert_eq!(status, 2);
    assert!(
        error.contains("the last rule, gate, is another name of node 0, and `bench` asks the last node, no"),
        "{error}"
    );
    // A node is loose if all its names are.
    let text = "variables b\npoint 1 A logged {n: 1}\nrule strict(b) = A(n: b)\nloose rule wide = @strict\n";
    assert_eq!(run_with(&["ask", "-"], text.as_bytes()).0, 0);
    assert_eq!(run_with(&["ask", "-", "--rule", "strict"], text.as_bytes()).0, 2);
    assert_eq!(run_with(&["ask", "-", "--node", "1"], text.as_bytes()).0, 2);
}

#[test]
fn repeated_and_unknown_options_are_errors() {
    let text = file("options.case", TEXT.as_bytes());
    refused(&["ask", &text, "--rule", "boards", "--rule", "boards"], "`--rule` is given twice");
    refused(&["ask", &text, "--point", "0", "--point=1"], "`--point` is given twice");
    refused(&["ask", &text, "--strict", "--strict"], "`--strict` is given twice");
    refused(&["ask", &text, "--pint", "1"], "`ask` has no option `--pint`; did you mean `--point`?");
    refused(&["check", &text, "--point", "1"], "`check` has no option `--point`");
    refused(&["ask", &text, "--point"], "a value is missing after `--point`: --point P");
    refused(&["ask", &text, "--steps", "many"], "`--steps` takes a number, not `many`");
    refused(&["ask", &text, "--quiet=yes"], "`--quiet` takes no value");
    refused(&["ask", &text, "--point", "3"], "refused 7: the case has no such point: points 0 to 2 exist");
    refused(&["ask", &text, "--point", "-1"], "`--point` takes a number, not `-1`");
    refused(&["ask", &text, &text], "`ask` takes one file, not 2");
    refused(&["pack", &text], "`pack` takes a text and the case file to write");
    refused::<&str>(&[], "no command is given");
    refused(&["chekc"], "there is no command `chekc`; did you mean `check`?");
}

#[test]
fn files_are_written_whole_or_not_at_all() {
    let folder = folder("whole");
    let path = |name: &str| folder.join(name).to_str().expect("it is text").to_string();
    let (text, case) = (path("t.case"), path("t.bin"));
    std::fs::write(&text, TEXT).expect("it can be written");
    assert_eq!(run(&["pack", &text, &case]).0, 0);
    assert_eq!(names_in(&folder), ["t.bin", "t.bin.names", "t.case"]);
    // An output that is the input.
    refused(&["pack", &text, &text], "this is the file that is read");
    std::fs::hard_link(&text, path("same.case")).expect("it can be linked");
    refused(&["pack", &text, &path("same.case")], "this is the file that is read");
    refused(&["text", &case, "-o", &case], "this is the file that is read");
    let names = path("u.names");
    std::fs::write(&names, TEXT).expect("it can be written");
    refused(&["pack", &names, &path("u")], "this is the file that is read");
    assert_eq!(std::fs::read_to_string(&names).expect("it is there"), TEXT);
    // What was there before stays where the new file cannot be written.
    let before = std::fs::read(&case).expect("it was packed");
    refused(&["pack", &text, &path("nowhere/t.bin")], "its folder does not exist: make it first");
    refused(&["pack", &text, folder.to_str().expect("it is text")], "this is a directory: name a file in it");
    let faulty = file("faulty.case", b"rule r = A(");
    refused(&["pack", &faulty, &case], "faulty.case:1:12: ");
    assert_eq!(std::fs::read(&case).expect("it is there"), before);
    // A link stays a link, and a file keeps its mode.
    std::os::unix::fs::symlink(&case, path("link.bin")).expect("it can be linked");
    std::fs::set_permissions(&case, std::fs::Permissions::from_mode(0o640)).expect("it is ours");
    assert_eq!(run(&["pack", &text, &path("link.bin")]).0, 0);
    assert!(std::fs::symlink_metadata(path("link.bin")).is_ok_and(|there| there.is_symlink()));
    assert_eq!(std::fs::metadata(&case).expect("it is there").permissions().mode() & 0o777, 0o640);
    assert!(names_in(&folder).iter().all(|name| !name.ends_with(".tmp")), "{:?}", names_in(&folder));
    // `rt ci` refuses a link below the checkout, so none is left behind.
    std::fs::remove_file(path("link.bin")).expect("it is ours");
}

/// The new file takes the place of the old one at once: one that is read meanwhile stays as it is.
#[test]
fn a_file_that_is_replaced_is_not_written_into() {
    let folder = folder("replaced");
    let (text, case) = (file("replaced.case", TEXT.as_bytes()), folder.join("t.bin"));
    std::fs::write(&case, b"old").expect("it can be written");
    std::fs::hard_link(&case, folder.join("old.bin")).expect("it can be linked");
    assert_eq!(run(&["pack", &text, case.to_str().expect("it is text")]).0, 0);
    assert_eq!(std::fs::read(folder.join("old.bin")).expect("it is there"), b"old");
}

#[test]
fn a_name_that_is_no_utf8_works() {
    let folder = folder("bytes");
    let text = folder.join(OsString::from_vec(b"caf\xe9.case".to_vec()));
    let case = folder.join(OsString::from_vec(b"caf\xe9.bin".to_vec()));
    std::fs::write(&text, TEXT).expect("it can be written");
    let arguments = |words: &[&str], files: &[&Path]| -> Vec<OsString> {
        words.iter().map(OsString::from).chain(files.iter().map(OsString::from)).collect()
    };
    assert_eq!(run(&arguments(&["pack"], &[&text, &case])).0, 0);
    assert_eq!(run(&arguments(&["ask", "--rule", "boards"], &[&case])).1, "2 (5 steps, 2 rows held)\n");
    let (status, json, _) = run(&arguments(&["ask", "--rule", "boards", "--json"], &[&text]));
    assert_eq!(status, 0);
    assert!(json.contains("caf\u{fffd}.case"), "{json}");
    let mut wrong = arguments(&["ask", "--rule"], &[]);
    wrong.extend([OsString::from_vec(b"\xff".to_vec()), text.into()]);
    refused(&wrong, "`--rule` takes text");
}

/// Standard output that takes no more is an error, whoever closed it.
#[test]
fn standard_output_that_fails_is_an_error() {
    let text = file("output.case", TEXT.as_bytes());
    let full = std::fs::OpenOptions::new().write(true).open("/dev/full").expect("Linux has it");
    let ask = |arguments: &[&str], output: std::process::Stdio| {
        let command = Command::new(env!("CARGO_BIN_EXE_galivodern")).args(arguments).stdout(output).output();
        let output = command.expect("the command runs");
        (output.status.code(), String::from_utf8_lossy(&output.stderr).into_owned())
    };
    let (status, error) = ask(&["ask", &text, "--rule", "boards"], full.into());
    assert_eq!(status, Some(2));
    assert!(error.contains("standard output: the disk is full"), "{error}");
    // More than a pipe holds: the command is still writing when its reader goes.
    let long = file("output-long.case", "point 1 A logged {n: 1}\n".repeat(9_000).as_bytes());
    let mut child = Command::new(env!("CARGO_BIN_EXE_galivodern"))
        .args(["text", &long])
        .stdout(std::process::Stdio::piped())
        .stderr(std::process::Stdio::piped())
        .spawn()
        .expect("the command starts");
    drop(child.stdout.take());
    let output = child.wait_with_output().expect("the command ends");
    assert_eq!(output.status.code(), Some(2));
    let error = String::from_utf8_lossy(&output.stderr);
    assert!(error.contains("standard output: its reader has gone away"), "{error}");
}
