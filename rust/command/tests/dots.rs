//! Names with dots: read, looked up, printed so that they can be read again, and warned of where none is there.

mod common;

use common::{file, run, run_with};

const EXAMPLES: &str = concat!(env!("CARGO_MANIFEST_DIR"), "/../../examples/dots.case");

#[test]
fn a_path_finds_what_was_written_last() {
    let ask = |rule: &str, point: &str| run(&["ask", EXAMPLES, "--rule", rule, "--point", point]).1;
    for (rule, point) in [("E13", "0"), ("back", "1"), ("longest", "1"), ("uart_0", "3"), ("uart_0", "4")] {
        assert_eq!(ask(rule, point), "yes (1 step, 0 rows held)\n", "{rule} at {point}");
    }
    assert_eq!(ask("logged_joined", "0"), "no (1 step, 0 rows held)\n");
}

/// The text of the packed case packs to the same bytes, with each name where it was.
#[test]
fn the_text_reads_back() {
    let (packed, text, again) = (file("dots.bin", &[]), file("dots-again.case", &[]), file("dots-again.bin", &[]));
    assert_eq!(run(&["pack", EXAMPLES, &packed]).0, 0);
    let (status, written, error) = run(&["text", &packed]);
    assert_eq!(status, 0, "{error}");
    for line in [
        "  context {\"\": {q: 1}, \".q\": 2, e: 4, \"e.\": 3, uart: {\"0\": 5}, \"uart.1\": 6}\n",
        "  entity User::\"ann\" {\"id.a\": 4, \"type.\": 5}\n",
        "rule empty_first = context.\"\".q == 2\n",
        "rule empty_last = context.e.\"\" == 3\n",
        "rule uart_0 = context.uart.0 == 5\n",
        "rule logged_plain = Plug(uart.0: 8)\n",
    ] {
        assert!(written.contains(line), "{line}{written}");
    }
    std::fs::write(&text, &written).expect("the folder for tests can be written");
    assert_eq!(run(&["pack", &text, &again]).0, 0);
    let bytes = |name: &str| std::fs::read(name).expect("it was packed");
    assert_eq!(bytes(&packed), bytes(&again));
}

const LOG: &str = r#"variables x
point 100 Plug logged {"uart.0": {".": 1, "e.": "a\"b"}, "0": 7, "a b": 8}
  context {"uart.0": {"0": 3}, uart: {"1": 4}}
  principal User::"ann" entity User::"ann" {"dept.line": "motor"}
point 110 Plug logged {}
"#;

/// What is printed for a person stands in the log's own writing.
#[test]
fn names_are_printed_as_they_are_read() {
    let rule =
        "rule r = formerly within 1h (Plug() and context.uart.0.0 == 3)\nrule all(x) = x == context.\"uart\".0\n";
    let text = file("dots-why.case", format!("{LOG}{rule}").as_bytes());
    let (status, output, error) = run(&["why", &text, "--rule", "r", "--point", "0"]);
    assert_eq!((status, error.as_str()), (0, ""), "{output}");
    assert!(output.contains("context.uart.0.0 == 3"), "{output}");
    assert!(output.contains(r#""0": 7, "a b": 8, "uart.0": {".": 1, "e.": "a\"b"}"#), "{output}");
    let (status, output, _) = run(&["rows", &text, "--rule", "all", "--point", "0"]);
    assert_eq!((status, output.lines().nth(1)), (0, Some("{\"0\": 3}")), "{output}");
    let (status, ..) = run(&["ask", &text, "--rule", "all", "--point", "0", "--bind", "x={\"0\": 3}"]);
    assert_eq!(status, 0);
}

/// The warnings of a rule.
fn warned(rule: &str) -> Vec<String> {
    let (status, output, error) = run_with(&["check", "-"], format!("{LOG}{rule}\n").as_bytes());
    assert_eq!(status, 0, "{output}{error}");
    let lines = error.lines().filter_map(|line| line.strip_prefix("galivodern: standard input:"));
    lines.map(str::to_string).collect()
}

#[test]
fn what_no_chain_of_names_leads_to_is_warned_of() {
    for sound in [
        "rule r = context.uart.0.0 == 3 and context.uart.1 == 4",
        "rule r = not context.uart.0 == context.uart",
        "rule r = principal.dept.line == \"motor\"",
    ] {
        assert_eq!(warned(sound), Vec::<String>::new(), "{sound}");
    }
    assert_eq!(
        warned("rule r = context.uart.0.1 == 3"),
        ["6:10: warning: no point of the log has `context.uart.0.1`; there are: 0"]
    );
    assert_eq!(
        warned("rule r = context.uart.2 == 3"),
        ["6:10: warning: no point of the log has `context.uart.2`; there are: 1"]
    );
    assert_eq!(
        warned("rule r = context.uart.0 == 3"),
        ["6:10: warning: this never holds: the left side is Object, the right side is Int; make them one type"]
    );
    assert_eq!(
        warned("rule r = principal.dept == \"motor\""),
        ["6:10: warning: no point of the log has entity with the attribute `dept`; there are: dept.line"]
    );
    assert_eq!(
        warned("rule r = Plug(uart.0: *)"),
        ["6:15: warning: no point of the log has field `uart` in `Plug`; one whose own name holds a dot is reached by no path"]
    );
}

#[test]
fn a_path_with_a_dot_in_a_name_is_told_how_to_be_written() {
    let (status, _, error) = run_with(&["check", "-"], format!("{LOG}rule r = context.\"uart.0\" == 3\n").as_bytes());
    assert_eq!(status, 2);
    assert!(error.contains("a name in a path holds no dot: write uart.0, which finds \"uart.0\""), "{error}");
}
