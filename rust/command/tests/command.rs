//! What each command answers.

mod common;

use common::{answered, file, refused, run, run_with, TEXT};

#[test]
fn ask_says_yes_no_or_a_number() {
    let text = file("ask.case", TEXT.as_bytes());
    answered(&["ask", &text, "--bind", "b=b1", "--bind", "n=3"], 0, "yes (4 steps, 0 rows held)\n");
    answered(&["ask", "--point=2", "--rule", "reviewed", &text], 0, "yes (6 steps, 0 rows held)\n");
    answered(&["ask", &text, "--rule", "reviewed", "--point", "0"], 1, "no (2 steps, 0 rows held)\n");
    answered(&["ask", &text, "--rule", "boards"], 0, "2 (5 steps, 2 rows held)\n");
    answered(&["ask", &text, "--rule", "boards", "--quiet"], 0, "");
    let json = format!(
        "{{\"file\":\"{text}\",\"point\":0,\"time\":100,\"date\":\"1970-01-01T00:01:40Z\",\"node\":6,\"rule\":\"reviewed\",\
         \"answer\":false,\"steps\":2,\"held\":0,\"warnings\":[]}}\n"
    );
    answered(&["ask", &text, "--rule", "reviewed", "--point", "0", "--json"], 1, &json);
}

#[test]
fn bindings_are_looked_up_in_the_case() {
    let text = file("bind.case", TEXT.as_bytes());
    let ask = |rule: &str, bind: &str| run(&["ask", &text, "--loose", "--rule", rule, "--bind", bind]).0;
    assert_eq!((ask("seen", "b=b2"), ask("seen", "b=\"b2\""), ask("seen", "0=b2"), ask("seen", "n=3")), (0, 0, 0, 0));
    assert_eq!((ask("seen", "n=4"), ask("seen", "b=ann")), (1, 1));
    assert_eq!((ask("volts", "n=decimal \"1.5\""), ask("volts", "b=[1, \"a\"]")), (0, 0));
    assert_eq!((ask("rail", "b={low: null}"), ask("rail", "b=null")), (0, 1));
    assert_eq!((ask("seen", "b=value:9999"), ask("seen", "b=string:9999")), (2, 2));
    refused(&["ask", &text, "--bind", "b=nowhere"], "there is no value nowhere in the case");
    refused(&["ask", &text, "--bind", "q=3"], "there is no variable `q`; the case has b, n");
    refused(&["ask", &text, "--bind", "7=3"], "there is no variable `7`; the case has b, n");
    refused(&["ask", &text, "--bind", "x0=3"], "there is no variable `x0`; the case has b, n");
    refused(&["ask", &text, "--bind", "b"], "has no `=`");
    refused(&["ask", &text, "--bind", "b=b1", "--bind", "b=b2"], "`b` is bound twice");
}

#[test]
fn rows_are_listed() {
    let text = file("rows.case", TEXT.as_bytes());
    answered(&["rows", &text], 0, "b     n\n\"b1\"  3\n\"b2\"  3\n2 rows (4 steps, 2 rows held)\n");
    answered(&["rows", &text, "--for", "n"], 0, "n\n3\n1 row (4 steps, 2 rows held)\n");
    answered(&["rows", &text, "--for="], 0, "1 row (4 steps, 2 rows held)\n");
    answered(&["rows", &text, "--point", "0", "--rule", "rail"], 1, "b\n0 rows (2 steps, 0 rows held)\n");
    let (status, output, _) = run(&["rows", &text, "--rule", "volts", "--json", "--for", "b,n"]);
    assert_eq!(status, 0);
    assert!(output.contains(r#""rows":[{"b":[1, "a"],"n":{"decimal":"1.5"}}]"#), "{output}");
    answered(
        &["rows", &text, "--rule", "rail", "--for", "b,n"],
        0,
        "b              n\n{\"low\": null}  -\n1 row (4 steps, 1 row held)\n",
    );
    refused(&["rows", &text, "--for", "9"], "there is no variable `9`; the case has b, n");
    refused(&["rows", &text, "--rule", "boards"], "refused 8");
}

#[test]
fn bench_writes_document_01s_table() {
    let sample = concat!(env!("CARGO_MANIFEST_DIR"), "/../../examples/sample.case");
    let table = "point verdict steps held\n0 yes 2 0\n1 yes 3 0\n2 yes 3 0\n3 yes 5 0\n";
    answered(&["bench", sample], 0, table);
    let packed = file("bench.bin", &[]);
    run(&["pack", sample, &packed]);
    answered(&["bench", &packed], 0, table);
    let bytes = std::fs::read(&packed).expect("it was packed");
    assert_eq!(run_with(&["bench", "-"], &bytes).1, table);
    let (status, output, error) = run_with(&["bench", "-"], b"point 1 A term t = 3");
    assert_eq!((status, output.as_str()), (2, "refused 8\n"));
    assert!(error.contains("standard input: refused 8: "), "{error}");
    let (status, output, error) = run_with(&["bench", "-"], &vec![0; 65_537]);
    assert_eq!((status, output.as_str()), (2, "refused 2\n"));
    assert!(error.contains("larger than allowed"), "{error}");
    assert_eq!(run_with(&["bench", "-"], &vec![0; 65_536]).1, "refused 1\n");
    let starved = "variables x point 1 A rule r = ".to_string() + &"formerly within 1h ".repeat(20) + "A()";
    let json = run_with(&["bench", "-", "--json"], starved.as_bytes()).1;
    assert!(json.ends_with("\"points\":[{\"point\":0,\"time\":1,\"date\":\"1970-01-01T00:00:01Z\",\"answer\":true,\"steps\":21,\"held\":0}]}\n"), "{json}");
}

#[test]
fn bench_writes_a_number_in_the_verdicts_place() {
    let sum = concat!(env!("CARGO_MANIFEST_DIR"), "/../../examples/sum.case");
    answered(&["bench", sum], 0, "point verdict steps held\n0 3 3 1\n1 3 4 1\n2 6 4 2\n3 6 6 2\n");
    let least = b"variables x point 1 A number n = sum x for x where (x == -9223372036854775807 or x == -9)";
    assert_eq!(run_with(&["bench", "-"], least).1, "point verdict steps held\n0 -9223372036854775808 4 2\n");
    let json = run_with(&["bench", "-", "--json"], least).1;
    assert!(json.contains("\"answer\":-9223372036854775808,\"steps\":"), "{json}");
}

#[test]
fn a_point_that_runs_out_of_steps_is_told_in_the_table() {
    let points = "point 1 A\n".repeat(60);
    let rule = "rule r = ".to_string() + &"formerly within 1h ".repeat(5) + "B()";
    let (status, output, _) = run_with(&["bench", "-"], format!("{points}{rule}").as_bytes());
    assert_eq!(status, 0);
    assert_eq!(output.lines().last(), Some("59 refused 11 1000000 0"));
}

#[test]
fn check_pack_and_text_go_there_and_back() {
    let text = file("pack.case", TEXT.as_bytes());
    let case = file("pack.bin", &[]);
    let (status, listed, _) = run(&["pack", &text, &case]);
    assert_eq!((status, listed.as_str()), (0, "6 reviewed\n10 boards\n14 volts\n17 rail\n21 seen\n"));
    let (status, said, _) = run(&["check", &case]);
    assert_eq!(status, 0);
    assert!(said.contains("a sound case of") && said.contains("3 points, 22 nodes, 2 variables"), "{said}");
    let (status, unpacked, _) = run(&["text", &case]);
    assert_eq!(status, 0);
    let again = file("pack-again.bin", &[]);
    assert_eq!(run_with(&["pack", "-", &again], unpacked.as_bytes()).0, 0);
    assert_eq!(std::fs::read(&again).expect("it was packed"), std::fs::read(&case).expect("it was packed"));
    answered(&["ask", &case, "--node", "6"], 0, "yes (6 steps, 0 rows held)\n");
    answered(&["ask", &case, "--rule", "boards"], 0, "2 (5 steps, 2 rows held)\n");
    answered(&["text", &case, "-o", &again], 0, "");
    assert_eq!(std::fs::read_to_string(&again).expect("it was written"), unpacked);
    let (status, json, _) = run(&["pack", &text, &case, "--json"]);
    assert_eq!(status, 0);
    assert!(json.contains("\"nodes\":{\"reviewed\":6,"), "{json}");
    assert!(run(&["check", &case, "--json"]).1.contains("\"passes\":true"));
}

#[test]
fn errors_name_file_number_and_words() {
    let text = file("errors.case", TEXT.as_bytes());
    refused(
        &["ask", &text, "--rule", "boards", "--steps", "1"],
        "errors.case: refused 11: the answer takes more steps than allowed (1 step",
    );
    refused(&["ask", &text, "--rule", "boards", "--room", "1"], "errors.case: refused 12: the answer takes more rows");
    refused(&["ask", &text, "--rule", "boards", "--room", "16385"], "refused 10: ");
    let json = format!(
        "{{\"error\":\"refused\",\"file\":\"{text}\",\"point\":2,\"time\":110,\"date\":\"1970-01-01T00:01:50Z\",\"node\":10,\
         \"rule\":\"boards\",\"refused\":11,\"why\":\"the answer takes more steps than allowed; \
         allow more with --steps, up to 1000000000\",\"steps\":1,\"held\":0}}\n"
    );
    assert_eq!(run(&["ask", &text, "--rule", "boards", "--steps", "1", "--json"]), (2, json, String::new()));
    let damaged = file("damaged.bin", &[1, 0, 0, 0, 9]);
    refused(&["check", &damaged], "damaged.bin: refused 1: no case file: ");
    refused(&["check", &file("fault.case", b"point 1 A\nrule r = A(")], "fault.case:2:12: ");
    refused(&["pack", &damaged, &damaged], "this is a case file already, or damaged");
    refused(&["check", "/nowhere/at/all"], "/nowhere/at/all: there is no such file");
}

#[test]
fn help_is_there_for_every_command() {
    let (status, overview, _) = run(&["--help"]);
    assert_eq!(status, 0);
    for command in ["check", "ask", "why", "rows", "bench", "pack", "text", "completions", "man"] {
        assert!(overview.contains(&format!("galivodern {command} ")), "{command}");
        let (status, help, _) = run(&["help", command]);
        assert_eq!((status, help.starts_with(&format!("usage: galivodern {command} "))), (0, true));
        assert_eq!(run(&[command, "--help"]).1, help);
    }
}

/// The case that the help shows gives what the help says.
#[test]
fn the_first_case_of_the_help_works() {
    let overview = run(&["help"]).1;
    let lines = overview.lines().skip_while(|line| !line.ends_with("<<'END'")).skip(1);
    let case: String = lines.take_while(|line| line.trim() != "END").map(|line| format!("{line}\n")).collect();
    assert_eq!(
        run_with(&["ask", "-"], case.as_bytes()),
        (0, "yes (6 steps, 2 rows held)\n".to_string(), String::new())
    );
}
