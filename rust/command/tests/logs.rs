//! JSON logs by the command: `import`, `export`, and rules asked of a log in one go.

mod common;

use std::path::{Path, PathBuf};

use common::{answered, file, refused, run, run_with};

const RULES: &str =
    "rule release_ok = Flash(board: \"b7\") and\n  not Finding(board: \"b7\") since within 1h Review(board: \"b7\")\n";

fn event(time: i64, action: &str, logged: &str) -> String {
    let start = format!("{{\"time\":{time},\"namespace\":[],\"action\":\"{action}\",\"kind\":\"request\"");
    format!("{start},\"logged\":{logged},\"context\":{{}},\"entities\":[]}}")
}

/// A log of a bench: each board is reviewed, now and then something is found, and each is flashed.
fn bench_log(events: usize) -> String {
    let line = |k: usize| {
        let action = ["Review", "Finding", "Flash"][if k % 10 == 1 { 1 } else { k % 3 / 2 * 2 }];
        event(10 * k as i64, action, &format!("{{\"board\":\"b{}\",\"volts\":{k}}}", k % 8))
    };
    (0..events).map(|k| line(k) + "\n").collect()
}

/// A folder of this test alone, empty.
fn folder(name: &str) -> PathBuf {
    let folder = PathBuf::from(env!("CARGO_TARGET_TMPDIR")).join(name);
    let _ = std::fs::remove_dir_all(&folder);
    std::fs::create_dir_all(&folder).expect("the folder for tests can be written");
    folder
}

fn is_empty(folder: &Path) -> bool {
    std::fs::read_dir(folder).expect("the folder can be read").next().is_none()
}

#[test]
fn a_thousand_lines_and_a_rule_of_two_lines_give_a_verdict_in_one_command() {
    let (rules, log) = (file("two-lines.case", RULES.as_bytes()), bench_log(1_000));
    let named = file("thousand.jsonl", log.as_bytes());
    // Line 984 is a Flash of b7, eight events behind its review.
    answered(
        &["ask", &rules, "--log", &named, "--rule", "release_ok", "--point", "983"],
        0,
        "yes (28 steps, 0 rows held)\n",
    );
    let last = run(&["ask", &rules, "--log", &named, "--rule", "release_ok"]);
    assert_eq!(last, (1, "no (2 steps, 0 rows held)\n".to_string(), String::new()));
    assert_eq!(run_with(&["ask", &rules, "--log", "-", "--rule", "release_ok"], log.as_bytes()), last);
    assert_eq!(run_with(&["ask", "-", "--log", &named, "--rule", "release_ok"], RULES.as_bytes()), last);
    let (status, output, _) = run(&["why", &rules, "--log", &named, "--point", "983"]);
    assert!(status == 0 && output.contains("carried the yes"), "{output}");
    let (status, output, _) = run(&["bench", &rules, "--log", &named]);
    assert_eq!((status, output.lines().count()), (0, 1_001));
    let (status, output, _) = run(&["check", &rules, "--log", &named]);
    assert!(status == 0 && output.starts_with(&format!("{rules} with {named}: a sound case of")), "{output}");
    let rows = file("rows.case", b"variables b\nrule seen(b) = formerly within 1m Review(board: b)\n");
    let (status, output, _) = run(&["rows", &rows, "--log", &named]);
    assert!(status == 0 && output.starts_with("b\n\"b1\"\n"), "{output}");
}

#[test]
fn outcomes_in_json_name_the_log() {
    let (rules, log) = (file("json-rules.case", RULES.as_bytes()), file("json.jsonl", bench_log(10).as_bytes()));
    for command in ["ask", "why", "bench", "check"] {
        let (_, output, _) = run(&[command, &rules, "--log", &log, "--json"]);
        let start = format!("{{\"file\":\"{rules}\",\"log\":\"{log}\",");
        assert!(output.starts_with(&start), "{command}: {output}");
    }
}

#[test]
fn a_fault_is_shown_with_its_line_and_a_caret() {
    let rules = file("caret.case", RULES.as_bytes());
    let shown = |log: &str, words: &str| {
        let log = file("caret.jsonl", log.as_bytes());
        refused(&["ask", &rules, "--log", &log], &format!("galivodern: {log}:{words}\n"));
        refused(&["import", &log, "-o", "/dev/null"], &format!("galivodern: {log}:{words}\n"));
    };
    let good = event(1, "A", "{}");
    shown(&format!("{good}\n{{\"time\":1.5}}\n"), "2:9: refused 22: 1.5 is no integer within 64 bits; a decimal is written {\"__extn\":{\"fn\":\"decimal\",\"arg\":\"1.50\"}}\n  2 | {\"time\":1.5}\n    |         ^");
    shown("\n", "1:1: refused 20: a blank line: each line is an event, so take it out\n  1 | \n    | ^");
    shown(
        "\u{feff}{}",
        "1:1: refused 20: a byte order mark: save the log as UTF-8 without one\n  1 | \u{feff}{}\n    | ^",
    );
    shown(
        "{\"tme\":1}\r\n",
        "1:2: refused 23: an event has no field \"tme\"; did you mean `time`?\n  1 | {\"tme\":1}\n    |  ^",
    );
    shown("{\"kind\":\"ä\\ud800\"}", "1:11: refused 20: half of a surrogate pair stands alone: a character above U+FFFF is written as two, \\uD83D\\uDE00\n  1 | {\"kind\":\"ä\\ud800\"}\n    |           ^");
    shown(&format!("{{\"principal\":{}0", "[".repeat(32)), "1:46: refused 24: values nest to at most 32 levels: logged, context, principal and resource are at level 1\n  1 | {\"principal\":[[[[[[[[[[[[[[[[[[[[[[[[[[[[[[[[0\n    |                                              ^");
}

#[test]
fn a_name_that_stands_twice_is_shown_at_both_places() {
    let near = file("near.jsonl", event(1, "A", "{\"board\":1,\"b\":2,\"board\":3}").as_bytes());
    let cut = "..A\",\"kind\":\"request\",\"logged\":{\"board\":1,\"b\":2,\"board\":3},\"context\":{},\"entit..";
    let (first, second) = (cut.find("\"board\"").expect("one"), cut.rfind("\"board\"").expect("two"));
    let marks = format!("{}^{}^", " ".repeat(first), " ".repeat(second - first - 1));
    let words = format!("galivodern: {near}:1:82: refused 21: the name \"board\" stands twice in one object: leave one out (the first is at column 66)\n  1 | {cut}\n    | {marks}\n");
    refused(&["import", &near, "-o", "-"], &words);
    let far = event(1, "A", &format!("{{\"board\":1,\"b\":\"{}\",\"board\":3}}", "x".repeat(300)));
    let far = file("far.jsonl", far.as_bytes());
    let (status, output, error) = run(&["import", &far, "-o", "-"]);
    assert_eq!((status, output.as_str(), error.lines().count()), (2, "", 5), "{error}");
    assert_eq!(error.matches('^').count(), 2, "{error}");
    let (_, output, _) = run(&["import", &far, "-o", "-", "--json"]);
    assert!(
        output.contains(
            "\"refused\":21,\"line\":1,\"column\":383,\"byte\":382,\"first\":{\"line\":1,\"column\":66,\"byte\":65}"
        ),
        "{output}"
    );
}

#[test]
fn nothing_is_written_where_something_is_refused() {
    let folder = folder("nothing-written");
    let case = folder.join("trace.case");
    let case = case.to_str().expect("a name");
    for log in [event(1, "A", "{}") + "\n{\"time\":", event(1, "A", "{\"a\":1,\"a\":2}")] {
        assert_eq!(run_with(&["import", "-", "-o", case], log.as_bytes()).0, 2);
        assert!(is_empty(&folder), "{log}");
    }
    let many: String = (0..8_193).map(|k| event(k, "A", "{}") + "\n").collect();
    let (status, _, error) = run_with(&["import", "-", "-o", case], many.as_bytes());
    let words = "galivodern: standard input: refused 2: the log has 8,193 events; 8,192 fit: a case holds 16,384 values, and one more would make 16,386\n";
    assert_eq!((status, error.as_str()), (2, words));
    let ambiguous = file("ambiguous.case", b"point 1 A\npoint 2 A logged {a: {\"__entity\": 1}}\n");
    let lines = folder.join("log.jsonl");
    let (status, _, error) = run(&["export", &ambiguous, "-o", lines.to_str().expect("a name")]);
    assert_eq!(status, 2);
    assert!(
        error.contains("refused 25: an object whose only member")
            && error.contains(": point 1 has one with __entity alone; give it a second member"),
        "{error}"
    );
    assert!(is_empty(&folder));
    // The log is not written over.
    let log = file("kept.jsonl", event(1, "A", "{}").as_bytes());
    refused(
        &["import", &log, "-o", &log],
        &format!("galivodern: {log}: this is the file that is read, {log}: name another one to write\n"),
    );
}

#[test]
fn what_no_case_holds_is_told_with_its_line() {
    let twice = event(1, "A", "{}").replace("\"entities\":[]", "\"entities\":[[\"T\",\"i\",{}],[\"T\",\"i\",{}]]");
    let log = file("twice.jsonl", format!("{}\n{twice}\n", event(1, "A", "{}")).as_bytes());
    let (status, _, error) = run(&["import", &log, "-o", "-"]);
    assert_eq!(status, 2);
    assert!(
        error.starts_with(&format!(
            "galivodern: {log}:2: refused 5: the entity T::\"i\" stands here twice: leave one out\n  2 | {{\"time\""
        )),
        "{error}"
    );
    let (_, output, _) = run(&["check", &file("no-rules.case", b"# none\n"), "--log", &log, "--json"]);
    assert!(
        output.starts_with(&format!("{{\"error\":\"log\",\"file\":\"{log}\",\"refused\":5,\"line\":2,\"why\":")),
        "{output}"
    );
}

#[test]
fn rules_and_log_are_two_files() {
    let (rules, log) = (file("both.case", RULES.as_bytes()), file("both.jsonl", bench_log(3).as_bytes()));
    let (status, _, error) = run(&["ask", "-", "--log", "-"]);
    assert!(status == 2 && error.contains("cannot both come from standard input"), "{error}");
    let with_points = file("points.case", format!("{RULES}point 5 Flash\n").as_bytes());
    let words = format!("galivodern: {with_points}:3:1: the points come from the log: take this one out, or leave the log out\n  3 | point 5 Flash\n    | ^\n");
    refused(&["ask", &with_points, "--log", &log], &words);
    let packed = folder("two-files").join("packed.case");
    let packed = packed.to_str().expect("a name");
    assert_eq!(run(&["pack", &rules, packed]).0, 0);
    let (status, _, error) = run(&["ask", packed, "--log", &log]);
    assert!(status == 2 && error.contains("with --log the rules are a text"), "{error}");
    let (status, _, error) = run(&["import", &log]);
    assert!(status == 2 && error.contains("name it with -o"), "{error}");
    let (status, _, error) = run_with(&["ask", &rules, "--log", "-"], b"");
    assert!(status == 2 && error.contains("refused 7: the case has no such point: the log is empty"), "{error}");
    refused(
        &["ask", &rules, "--log", "no-such.jsonl"],
        "galivodern: no-such.jsonl: there is no such file: look at its name and at the folder that you are in\n",
    );
}

#[test]
fn warnings_lead_to_the_log() {
    let rules = file("warn.case", b"rule r = formerly within 1h Flsh(board: \"b1\")\n");
    let log = file(
        "warn.jsonl",
        format!(
            "{}\n{}\n{}\n",
            event(9, "Flash", "{\"board\":\"b1\"}"),
            event(5, "Flash", "{\"board\":\"b1\"}"),
            event(6, "Flash", "{}")
        )
        .as_bytes(),
    );
    let (status, output, error) = run(&["ask", &rules, "--log", &log]);
    assert_eq!((status, output.as_str()), (1, "no (3 steps, 0 rows held)\n"));
    assert!(
        error.contains(&format!("{rules}:1:29: warning: no point of the log has action `Flsh`; did you mean `Flash`?")),
        "{error}"
    );
    assert!(error.contains(&format!("{log}:1: warning: point 0, at 9, is ahead of point 2")), "{error}");
    assert_eq!(run(&["ask", &rules, "--log", &log, "--strict"]).0, 2);
    let (status, _, error) = run(&["check", &rules, "--log", &log]);
    assert!(status == 0 && error.contains(&format!("{log}:2: warning: the time falls here, from 9 to 5")), "{error}");
    let (_, output, _) = run(&["check", &rules, "--log", &log, "--json"]);
    assert!(
        output.contains(&format!("{{\"file\":\"{log}\",\"line\":2,\"column\":1,\"message\":\"the time falls")),
        "{output}"
    );
    let schema = file("warn.schema", b"action Flash {board: String}\n");
    let rules = file("schema.case", b"rule r = formerly within 1h Flash(board: \"b1\")\n");
    assert_eq!(run(&["check", &rules, "--log", &log, "--schema", &schema]).0, 0);
    let schema = file("narrow.schema", b"action Flash {board: Int}\n");
    let rules = file("narrow.case", b"rule r = formerly within 1h Flash()\n");
    let (status, _, error) = run(&["check", &rules, "--log", &log, "--schema", &schema]);
    assert!(
        status == 2
            && error.contains(&format!("{log}:1: `Flash/request`: `board` is Int in the schema, and String here")),
        "{error}"
    );
}

#[test]
fn import_and_export_are_each_others_way_back() {
    let log = bench_log(100);
    let case = folder("there-and-back").join("trace.case");
    let case = case.to_str().expect("a name");
    let (status, output, _) = run_with(&["import", "-", "-o", case], log.as_bytes());
    assert_eq!(
        (status, output.as_str()),
        (
            0,
            format!(
                "{case}: a case of {} bytes with the 100 points of standard input: 400 values, 14 strings\n",
                std::fs::metadata(case).expect("it is there").len()
            )
            .as_str()
        )
    );
    answered(&["export", case], 0, &log);
    let lines = format!("{case}.jsonl");
    answered(&["export", case, "-o", &lines], 0, "");
    assert_eq!(std::fs::read_to_string(&lines).expect("it is there"), log);
    let (_, output, _) = run(&["export", case, "--json"]);
    assert!(
        output.starts_with(&format!("{{\"file\":\"{case}\",\"points\":100,\"text\":\"{{\\\"time\\\":0")),
        "{output}"
    );
    let (_, output, _) = run(&["import", &lines, "-o", case, "--json"]);
    assert!(output.starts_with(&format!("{{\"file\":\"{case}\",\"log\":\"{lines}\",\"bytes\":")), "{output}");
    answered(&["import", &lines, "-o", case, "--quiet"], 0, "");
    let example = Path::new(env!("CARGO_MANIFEST_DIR")).join("../../examples/headline.case");
    let (status, output, _) = run(&["export", example.to_str().expect("a name")]);
    assert_eq!((status, output.lines().count()), (0, 10));
}

#[test]
fn the_example_log_is_asked_as_the_readme_says() {
    let folder = Path::new(env!("CARGO_MANIFEST_DIR")).join("../../examples");
    let name = |name: &str| folder.join(name).to_str().expect("a name").to_string();
    let (rules, log) = (name("bench-log.rules"), name("bench-log.jsonl"));
    let (status, output, error) = run(&["ask", &rules, "--log", &log, "--rule", "release_ok", "--strict"]);
    assert_eq!((status, error.as_str()), (0, ""), "{output}");
    assert!(output.starts_with("yes ("), "{output}");
}
