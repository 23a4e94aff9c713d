//! `why`: the parts that decided, their timelines, the picture, and all that is refused.

mod common;

use common::{answered, file, refused, run, run_with};

/// The README's case.
const HEADLINE: &str = r#"
point 0    Review  logged {board: "b1"}
point 1200 Build   logged {board: "b1"}  context {board: "b1"}
point 1800 Finding logged {board: "b1", what: "duplicate"}
point 2400 Build   logged {board: "b1"}  context {board: "b1"}
rule ready =
  not Finding(board: context.board, what: "duplicate")
  since within 1h Review(board: context.board)
"#;

/// Document 01's bench: times that fall, and rules of every sort over it.
const BENCH: &str = r#"
variables b n
point 100 Review logged {board: "b1", n: 3}
point 110 Flash logged {board: "b1", n: 4}
point 105 Review logged {board: "b2", n: 3}
point 120 Flash logged {board: "b1", n: 7}
rule reviewed = formerly within 1h Review()
rule recent = formerly within 10s Review()
rule before = previous within 1m Flash()
rule failing = Review(board: "b1") since within 1h Review()
rule both = @reviewed and not @recent
rule left_no = @recent and @reviewed
rule right_no = @reviewed and @recent
rule either = @recent or @reviewed
rule neither = @recent or @before
rule plain = Flash(n: 7)
loose rule lending = Flash(board: b) and formerly within 1h Review(board: b)
loose rule lending_no = Flash(board: b) and formerly within 10s Review(board: b)
rule found = exists b (Flash(board: b) and formerly within 1h Review(board: b))
rule not_found = exists b (Flash(board: b) and formerly within 10s Review(board: b))
rule first_found = exists n formerly within 1h Review(n: n)
loose rule first_board = exists b formerly within 1h Review(board: b)
rule apart = exists n (formerly within 1h Review(n: n) and Flash(n: n))
rule seen(b) = formerly within 1h Review(board: b)
number reviews = count where @reviewed
"#;

fn why(text: &str, arguments: &[&str]) -> (i32, String) {
    let (status, output, error) = run_with(&[&["why", "-"], arguments].concat(), text.as_bytes());
    assert!(error.is_empty() || status < 2 && error.contains(": warning: "), "{arguments:?}: {error}");
    (status, output)
}

/// Status and words of a rule of the bench at its last point.
fn bench(rule: &str) -> (i32, String) {
    why(BENCH, &["--rule", rule])
}

/// The words without what the proved calls do not decide: the table's heading, and its lines' fields.
fn remarks(output: &str) -> Vec<String> {
    let remark =
        |line: &str| line.split("  ").map(str::trim).filter(|part| !part.is_empty()).last().unwrap_or("").to_string();
    output
        .lines()
        .filter(|line| line.trim_start().starts_with(['*', '!', 'x', '|', '.', ':', '-']))
        .map(remark)
        .collect()
}

#[test]
fn a_no_of_since_shows_what_failed() {
    let expected = r#"no: ready at point 3, time 2400

(not Finding(board: context.board, what: "duplicate")) since within 1h Review(board:
context.board)
  left is not Finding(board: context.board, what: "duplicate")
  right is Review(board: context.board)
  within 1h: from -1200 to 2400; 4 of the 4 points up to point 3 lie in it
    point  time              event    logged                          what it did
  !     0     0  40m before  Review   board: "b1"                     right held here, but left failed at 2
  |     1  1200  20m before  Build    board: "b1"                     left held
  x     2  1800  10m before  Finding  board: "b1", what: "duplicate"  left failed here
  |     3  2400              Build    board: "b1"                     right did not hold (asked here)
"#;
    assert_eq!(why(HEADLINE, &[]), (1, expected.to_string()));
}

#[test]
fn a_yes_of_since_shows_what_carried_it() {
    let expected = r#"yes: ready at point 1, time 1200

(not Finding(board: context.board, what: "duplicate")) since within 1h Review(board:
context.board)
  left is not Finding(board: context.board, what: "duplicate")
  right is Review(board: context.board)
  within 1h: from -2400 to 1200; 2 of the 2 points up to point 1 lie in it
    point  time              event   logged       what it did
  *     0     0  20m before  Review  board: "b1"  right held here: carried the yes
  |     1  1200              Build   board: "b1"  left held (asked here)
"#;
    assert_eq!(why(HEADLINE, &["--point", "1"]), (0, expected.to_string()));
}

#[test]
fn windows_edges_are_marked() {
    let expected = r#"no: recent at point 3, time 120

formerly within 10s Review()
  within 10s: from 110 to 120; 2 of the 4 points up to point 3 lie in it
    point  time              event   logged             what it did
  .     0   100  20s before  Review  board: "b1", n: 3  too old
  -- the window begins at 110, 10s back --
  |     1   110  10s before  Flash   board: "b1", n: 4  did not hold
  -- more than 10s back --
  .     2   105  15s before  Review  board: "b2", n: 3  too old
  -- in the window again --
  |     3   120              Flash   board: "b1", n: 7  did not hold (asked here)
"#;
    assert_eq!(bench("recent"), (1, expected.to_string()));
    // Seen from point 2, point 1 is stamped later.
    let (status, output) = why(BENCH, &["--rule", "reviewed", "--point", "2"]);
    assert_eq!(status, 0);
    let expected = ["not asked", "-- stamped later than point 2 --", "stamped later", "-- in the window again --"];
    assert_eq!(remarks(&output)[..4], expected.map(str::to_string));
    assert_eq!(remarks(&output)[4], "carried the yes (asked here)");
    let (status, output) = why("point 1 A\nrule r = formerly within -5s A()", &[]);
    assert_eq!((status, remarks(&output)), (1, vec!["asked here".to_string()]));
    assert!(output.contains("\n  within -5s: no point lies in a negative window\n"), "{output}");
}

/// Whether a point lies in a window is told to the second, and to the ends of what 64 bits hold.
#[test]
fn windows_edges_are_exact() {
    // No point lies in a negative window, and none is said to lie so far back.
    let (_, output) = why("point 10 A\npoint 5 B\nrule r = formerly within -5s A()", &[]);
    assert_eq!(remarks(&output), ["stamped later", "asked here"]);
    // A day, an hour, a minute and a second: one second decides.
    let day = "point 0 A\npoint 90061 B\npoint 90062 B\nrule r = formerly within 90061s A()";
    let (status, output) = why(day, &["--point", "1"]);
    assert_eq!(
        (status, output.contains("  1d 1h 1m 1s before  A              carried the yes\n")),
        (0, true),
        "{output}"
    );
    let (status, output) = why(day, &[]);
    assert_eq!((status, output.contains("  1d 1h 1m 2s before  A              too old\n")), (1, true), "{output}");
    assert!(output.contains("\n  -- the window begins at 1, 1d 1h 1m 1s back --\n"), "{output}");
    // A window that reaches back from a date begins with one, before 1970, too.
    let dates = "point -900000000 A\npoint 2026-03-01T14:05:00Z B\nrule r = formerly within 30000d A()";
    let (_, output) = why(dates, &[]);
    assert!(
        output.contains("  within 30000d: from 1944-01-11T14:05:00Z to 2026-03-01T14:05:00Z; 1 of the 2"),
        "{output}"
    );
    let (_, output) = why(&dates.replace("30000d", "20000d"), &[]);
    assert!(output.contains("\n  -- the window begins at 1971-05-29T14:05:00Z, 20000d back --\n"), "{output}");
    // A window that saturates holds every earlier time, those too that lie further back than it is long.
    let ends = "point -5 A\npoint 9223372036854775807 B\nrule all = formerly within 9223372036854775807d A()\n\
                rule most = formerly within 9223372036854775806s A()";
    let (status, output) = why(ends, &["--rule", "all"]);
    assert_eq!(status, 0);
    assert!(output.contains(": from the beginning of time to 9223372036854775807; 2 of\n"), "{output}");
    assert!(output.contains("  106751991167300d 15h 30m 12s before  "), "{output}");
    let (_, json) = why(ends, &["--rule", "all", "--json"]);
    assert!(json.contains(r#""from":-9223372036854775808,"to":9223372036854775807,"inside":2"#), "{json}");
    let dashed = "stroke=\"#667080\" stroke-dasharray=\"3 2\"";
    assert!(!picture(ends, &["--rule", "all"]).contains(dashed), "the window's beginning is not in the picture");
    assert!(picture(ends, &["--rule", "most"]).contains(dashed), "here it is");
    assert!(why(ends, &["--rule", "most"]).1.contains(": from 1 to 9223372036854775807; 1 of the 2 points up to\n"));
}

#[test]
fn previous_shows_the_point_before() {
    let expected = r#"no: before at point 3, time 120

previous within 1m Flash()
  within 1m: from 60 to 120
    point  time              event   logged             what it did
  : 0 to 1: 2 points, not asked
  |     2   105  15s before  Review  board: "b2", n: 3  did not hold
  |     3   120              Flash   board: "b1", n: 7  asked here
"#;
    assert_eq!(bench("before"), (1, expected.to_string()));
    let (status, output) = why(BENCH, &["--rule", "before", "--point", "0"]);
    assert_eq!((status, remarks(&output)), (1, vec!["asked here".to_string()]));
    let (status, output) = why(BENCH, &["--rule", "before", "--point", "2"]);
    let expected = [": 0: 1 point, not asked", "stamped later", "-- in the window --", "asked here"];
    assert_eq!((status, remarks(&output)), (1, expected.map(str::to_string).to_vec()));
    let json = why(BENCH, &["--rule", "before", "--json"]).1;
    assert!(json.contains(r#""window":{"seconds":60,"from":60,"to":120},"#), "it counts no points: {json}");
    let yes = why("point 1 A\npoint 2 B\nrule r = previous within 1s A()", &[]);
    assert_eq!((yes.0, remarks(&yes.1)), (0, ["carried the yes", "asked here"].map(str::to_string).to_vec()));
}

#[test]
fn every_anchor_is_shown_with_its_failure() {
    let (status, output) = bench("failing");
    assert_eq!(status, 1);
    let expected = [
        "right held here, but left failed at 1",
        "left failed here",
        "right held here, but left failed at 3",
        "left failed here (asked here)",
    ];
    assert_eq!(remarks(&output), expected);
    let (_, json) = why(BENCH, &["--rule", "failing", "--json"]);
    assert!(json.contains(r#""listed":[2,3,0,1]"#), "{json}");
}

/// A point at which left failed may itself be an anchor in vain.
#[test]
fn an_anchor_may_fail_an_earlier_one() {
    let (status, output) = why("point 1 A\npoint 2 A\npoint 3 B\nrule r = C() since within 1h A()", &[]);
    assert_eq!(status, 1);
    let expected = [
        "right held here, but left failed at 1",
        "left failed here; right held here, but left failed at 2",
        "left failed here (asked here)",
    ];
    assert_eq!(remarks(&output), expected);
}

/// Names and values are shown as a case's text has them: none is taken for another, none reaches the terminal raw.
#[test]
fn names_and_values_are_shown_as_they_are() {
    let text = r#"
point 0 "a\nb\u{1b}[31m"/"k\u{9b}1m" logged {"n: 3, board": "b  1\u{a0}\u{a0}\u{7}", board: "b2"}
rule r = formerly within 1h "a\nb\u{1b}[31m"/"k\u{9b}1m"("n: 3, board": "b  1\u{a0}\u{a0}\u{7}")
"#;
    let (status, output) = why(text, &[]);
    assert_eq!(status, 0);
    assert!(output.chars().all(|c| c == '\n' || !c.is_control()), "{output:?}");
    let event = r#"  "a\nb\u{1b}[31m"/"k\u{9b}1m"  "#;
    let logged = r#"  board: "b2", "n: 3, board": "b  1\u{a0}\u{a0}\u{7}"  "#;
    assert!(output.contains(event) && output.contains(logged), "{output}");
    assert!(output.contains("\"b  1\u{a0}\u{a0}\\u{7}\")\n"), "the rule has its own blanks: {output}");
    let svg = picture(text, &[]);
    assert!(svg.chars().all(|c| c == '\n' || !c.is_control()), "{svg:?}");
    assert!(svg.contains("&quot;b  1\u{a0}\u{a0}\\u{7}&quot;)</text>"), "{svg}");
    let (_, json) = why(text, &["--json"]);
    assert!(json.contains("\"event\":\"a\\nb\\u001b[31m/k\u{9b}1m\""), "{json}");
}

// ---- the walk

/// The parts that are shown: depth, verdict and text of each, in order.
fn parts(output: &str) -> Vec<String> {
    let parts = output.lines().skip(1).filter(|line| {
        let line = line.trim_start();
        line.starts_with("yes: ") || line.starts_with("no: ")
    });
    parts.map(str::to_string).collect()
}

#[test]
fn the_walk_goes_to_the_parts_that_decided() {
    let (status, output) = bench("both");
    assert_eq!(status, 0);
    assert_eq!(
        parts(&output),
        ["  yes: formerly within 1h Review()", "  yes: not @recent", "    no: formerly within 10s Review()"]
    );
    assert!(output.contains("\n  all of its parts hold:\n"), "{output}");
    assert!(output.contains("\n    what it denies does not hold:\n"), "{output}");
    let (status, output) = bench("left_no");
    assert_eq!((status, parts(&output)), (1, vec!["  no: formerly within 10s Review()".to_string()]));
    assert!(output.contains("\n  its left side does not hold:\n"), "{output}");
    let (status, output) = bench("right_no");
    assert_eq!((status, parts(&output)), (1, vec!["  no: formerly within 10s Review()".to_string()]));
    assert!(output.contains("\n  its left side holds, its right side does not:\n"), "{output}");
    let (status, output) = bench("either");
    assert_eq!((status, parts(&output)), (0, vec!["  yes: formerly within 1h Review()".to_string()]));
    assert!(output.contains("\n  its left side does not hold, its right side does:\n"), "{output}");
    let (status, output) = why(&BENCH.replace("@recent or @reviewed", "@reviewed or @recent"), &["--rule", "either"]);
    assert_eq!((status, parts(&output)), (0, vec!["  yes: formerly within 1h Review()".to_string()]));
    assert!(output.contains("\n  its left side holds:\n"), "{output}");
    let (status, output) = bench("neither");
    assert_eq!(status, 1);
    assert_eq!(parts(&output), ["  no: formerly within 10s Review()", "  no: previous within 1m Flash()"]);
    assert!(output.contains("\n  none of its parts holds:\n"), "{output}");
    let (status, output) = why(&BENCH.replace("not @recent", "not @reviewed"), &["--rule", "both"]);
    assert_eq!(status, 1);
    assert!(output.contains("\n    what it denies holds:\n"), "{output}");
}

#[test]
fn what_is_asked_of_the_point_itself_is_told_so() {
    let expected =
        "yes: plain at point 3, time 120\n\nFlash(n: 7)\n  nothing past decided it: it is asked of point 3 itself\n";
    assert_eq!(bench("plain"), (0, expected.to_string()));
    let (status, output) = why(BENCH, &["--rule", "plain", "--point", "0"]);
    assert_eq!((status, output.starts_with("no: plain at point 0, time 100\n")), (1, true));
    assert_eq!(why("point 1 A\nrule r = 1 < 2", &[]).0, 0);
    // What a variable stands for may be past.
    let past =
        "variables n\npoint 1 A logged {n: 3}\npoint 2 B\nrule r = exists n (formerly within 1h A(n: n) and n < 5)";
    let (status, output) = why(past, &[]);
    assert_eq!(
        (status, output.contains("    yes: n < 5\n      it is asked of point 1 itself\n")),
        (0, true),
        "{output}"
    );
}

/// A comparison of what is counted looks back: the numbers are shown.
#[test]
fn what_is_counted_is_shown_with_its_number() {
    let text = format!(
        "{BENCH}rule most = @reviews + (sum n for b, n where formerly within 1h Flash(board: b, n: n)) > 3 * @reviews\n\
         rule of(b) = (count for n where formerly within 1h Flash(board: b, n: n)) == 2\n\
         rule lazy = context.none + (count for n where formerly within 1h Flash(n: n)) == 2\n"
    );
    let how = |rule: &str, more: &[&str]| {
        let (status, output) = why(&text, &[&["--rule", rule], more].concat());
        assert!(!output.contains("nothing past decided it"), "{output}");
        (
            status,
            output
                .split("\n  it compares what is counted: ")
                .nth(1)
                .map(|how| how.split_whitespace().collect::<Vec<_>>().join(" ")),
        )
    };
    let sum = "sum n for b, n where (formerly within 1h Flash(board: b, n: n)) is 11";
    assert_eq!(how("most", &[]), (0, Some(format!("count where @reviewed is 1; {sum}"))));
    let of = "count for n where (formerly within 1h Flash(board: b, n: n)) is";
    assert_eq!(how("of", &["--bind", "b=b1"]), (0, Some(format!("{of} 2"))));
    assert_eq!(how("of", &["--bind", "b=b2"]), (1, Some(format!("{of} 0"))));
    // `ask` answers where the other side has no value, under limits that the count would not fit.
    let of = "count for n where (formerly within 1h Flash(n: n)) is";
    assert_eq!(how("lazy", &[]), (1, Some(format!("{of} 2"))));
    assert_eq!(how("lazy", &["--room", "0"]), (1, Some(format!("{of} more than the limits allow to tell"))));
}

/// An event on the left of an `and` lends what it binds: the right side is asked under that.
#[test]
fn what_an_event_lends_is_shown() {
    let (status, output) = bench("lending");
    assert_eq!(status, 0);
    assert_eq!(
        parts(&output),
        ["  yes: Flash(board: b)", "  yes: formerly within 1h Review(board: b) with b = \"b1\""]
    );
    assert_eq!(remarks(&output)[0], "carried the yes", "board b1 was reviewed at point 0, b2 later");
    let (status, output) = bench("lending_no");
    assert_eq!(status, 1);
    assert_eq!(parts(&output), ["  no: formerly within 10s Review(board: b) with b = \"b1\""]);
    let (_, json) = why(BENCH, &["--rule", "lending", "--json"]);
    assert!(json.contains(r#""bound":{"b":"b1"}"#), "{json}");
    // `ask` holds no row for it, and `why` answers under the same limits.
    assert_eq!(why(BENCH, &["--rule", "lending", "--room", "0"]).0, 0);
    // Bound at the start, it is not lent.
    let (_, output) = why(BENCH, &["--rule", "lending", "--bind", "b=b1"]);
    assert_eq!(parts(&output)[1], "  yes: formerly within 1h Review(board: b)");
}

#[test]
fn exists_is_shown_with_what_is_found() {
    let (status, output) = bench("found");
    assert_eq!(status, 0);
    assert!(output.contains("\n  it holds with what is found:\n"), "{output}");
    let expected = [
        "  yes: Flash(board: b) and (formerly within 1h Review(board: b)) with b = \"b1\"",
        "    yes: Flash(board: b)",
        "    yes: formerly within 1h Review(board: b)",
    ];
    assert_eq!(parts(&output), expected);
    let (status, output) = bench("first_board");
    assert_eq!(status, 0);
    assert!(output.contains("\n  it holds with the first that is found:\n"), "{output}");
    assert_eq!(bench("first_found").0, 0);
    let unbound = "variables n\npoint 1 A\nloose rule r = exists n (A() or not A(n: n))";
    assert!(why(unbound, &[]).1.contains("\n  it holds with its variable unbound:\n"), "its row has no n");
    let (status, output) = bench("not_found");
    assert_eq!(status, 1);
    assert!(output.contains("\n  there is nothing that makes it hold:\n"), "{output}");
    assert_eq!(parts(&output)[1], "    no: formerly within 10s Review(board: b) with b = \"b1\"");
}

/// With the variable unbound the parts hold, and together they do not: nothing is shown apart that says another thing.
#[test]
fn parts_that_say_another_thing_are_not_shown() {
    let (status, output) = bench("apart");
    assert_eq!((status, parts(&output).len()), (1, 0));
    assert!(
        output.contains("its parts cannot be shown apart: what it asks for is put together from several"),
        "{output}"
    );
    let (_, json) = why(BENCH, &["--rule", "apart", "--json"]);
    assert!(json.contains(r#""answer":false,"how":"its parts cannot be shown apart: "#), "{json}");
}

/// What no value of a variable makes hold is asked with it unbound. Nothing is shown that is not so of every value.
#[test]
fn what_differs_with_the_variable_is_not_shown() {
    let text = r#"
variables b n
point 0 Review logged {board: "b1"}
point 1 Review logged {board: "b2"}
point 2 Finding logged {board: "b1"}
point 3 Finding logged {board: "b2"}
point 4 X logged {n: 3}
point 5 Y logged {n: 4}
rule quiet = exists b (not Finding(board: b) since within 1h Review(board: b))
rule between = exists n (formerly within 1h X(n: n) and (n < 5 or n > 8) and formerly within 1h Y(n: n))
rule unfound = exists b (formerly within 1h Review(board: b) and not formerly within 1h Finding(board: b))
rule held = exists b (Finding(board: b) since within 1h Review(board: b))
rule no_anchor = exists b (not Finding(board: b) since within 1s Review(board: b))
rule left_apart = exists b (not Y() since within 1h Review(board: b))
rule no_right = exists b (formerly within 1h Review(board: b) and formerly within 1s Finding(board: b))
rule lent = exists n (Y(n: n) and not formerly within 1h Y(n: n))
rule inner_lent = exists n (formerly within 1h (Y(n: n) and n > 4))
loose rule deeper = exists b exists n (formerly within 1h X(n: n) and not formerly within 1h Finding(board: b) and n < 2)
"#;
    let ask = |rule: &str| why(text, &["--rule", rule]);
    // Of b2 left fails at 3 and not at 2; 3 is less than 5; the review of b1 has a finding of its own.
    for (rule, variable) in [("quiet", "b"), ("between", "n"), ("unfound", "b"), ("held", "b"), ("deeper", "b")] {
        let (status, output) = ask(rule);
        assert_eq!(status, 1, "{rule}");
        let joined = output.split_whitespace().collect::<Vec<_>>().join(" ");
        let why = "its parts cannot be shown apart: they differ with what is bound; `--node ";
        let hint = format!(" --bind {variable}=..` shows them for one {variable}");
        assert!(joined.contains(why) && joined.contains(&hint), "{rule}: {output}");
        assert!(!output.contains("what it did"), "{rule}: {output}");
    }
    // The hint leads to an answer.
    let (_, output) = ask("quiet");
    let node = output.split("--node ").nth(1).and_then(|rest| rest.split(' ').next()).expect("it names a node");
    let (status, output) = why(text, &["--node", node, "--bind", "b=b2"]);
    assert_eq!((status, remarks(&output)[1].as_str()), (1, "right held here, but left failed at 3"));
    // These are so of every value.
    let (_, output) = ask("no_anchor");
    assert_eq!(remarks(&output)[5..], ["right did not hold", "right did not hold (asked here)"]);
    assert_eq!(remarks(&ask("left_apart").1)[0], "right held here, but left failed at 5");
    let (_, output) = ask("no_right");
    assert!(output.contains("\n    its right side does not hold:\n"), "left holds for some boards: {output}");
    assert_eq!(parts(&output)[1], "    no: formerly within 1s Finding(board: b)");
    assert_eq!(parts(&ask("lent").1)[1], "    no: not (formerly within 1h Y(n: n)) with n = 4");
    assert_eq!(remarks(&ask("inner_lent").1)[5], "did not hold (asked here)");
}

/// However deep a part stands, its sentences are still lines.
#[test]
fn deep_parts_are_lines_still() {
    let (status, output) = why(&format!("point 1 A\nrule r = {}formerly within 0s A()", "not ".repeat(60)), &[]);
    assert_eq!(status, 0);
    assert!(output.contains(" within 0s: from 1 to 1; 1 of the 1\n"), "{output}");
}

/// A rule may share its parts so often that they cannot all be shown.
#[test]
fn a_rule_with_many_parts_is_cut_short() {
    let mut text = "point 1 A\nrule r0 = formerly within 1h A()\n".to_string();
    for k in 1..=40 {
        text.push_str(&format!("rule r{k} = @r{} and @r{}\n", k - 1, k - 1));
    }
    let (status, output) = why(&text, &["--rule", "r12", "--steps", "1000000000"]);
    assert_eq!(status, 0);
    assert!(output.contains("its parts cannot be shown apart: it has more parts than are shown"), "{output}");
    assert!(output.len() < 200_000, "{}", output.len());
    // Where there is nothing to leave out, nothing is said to be left out.
    let events = text.replace("formerly within 1h A()", "A()");
    let (_, output) = why(&events, &["--rule", "r10"]);
    assert!(output.contains(": it has more parts than are shown"), "{output}");
    assert!(!output
        .lines()
        .zip(output.lines().skip(1))
        .any(|(part, how)| part.ends_with(": A()") && how.contains("more parts")));
    // The whole of it takes more steps than anyone has: that is told, not cut.
    let (status, _, error) = run_with(&["why", "-", "--rule", "r40"], text.as_bytes());
    assert_eq!(status, 2);
    assert!(error.contains("refused 11: the answer takes more steps than allowed"), "{error}");
}

/// Every rule of the examples at every point: `why` has the verdict of `ask`.
#[test]
fn why_says_what_ask_says() {
    let mut asked = 0;
    for name in ["bench", "headline", "sample", "steps"] {
        let case = format!("{}/../../examples/{name}.case", env!("CARGO_MANIFEST_DIR"));
        let checked = run(&["check", &case, "--json", "--quiet"]).1;
        let rules = checked.split("\"rules\":{").nth(1).and_then(|rest| rest.split('}').next()).expect("it has rules");
        for rule in rules.split(',').filter_map(|rule| rule.split('"').nth(1)) {
            for point in ["0", "1", "2", "3"] {
                let arguments = [&case, "--rule", rule, "--point", point, "--loose", "--quiet"];
                let ask = run(&[&["ask"], &arguments[..]].concat());
                let why = run(&[&["why"], &arguments[..]].concat());
                if !why.2.contains("refused 8") {
                    assert_eq!(why.0, ask.0, "{name} {rule} at {point}: {}", why.2);
                    asked += 1;
                }
            }
        }
    }
    assert!(asked > 80, "{asked}");
}

// ---- JSON

#[test]
fn json_tells_the_same() {
    let case = file("why-json.case", HEADLINE.as_bytes());
    let expected = format!(
        "{}\"file\":\"{case}\",\"point\":1,\"time\":1200,\"date\":\"1970-01-01T00:20:00Z\",\"node\":6,\"rule\":\"ready\",\
         \"answer\":true,\"why\":{}\"node\":6,\"rule\":\"(not Finding(board: context.board, what: \\\"duplicate\\\")) since \
         within 1h Review(board: context.board)\",\"answer\":true,\"kind\":\"since\",\"window\":{}\"seconds\":3600,\
         \"from\":-2400,\"to\":1200,\"inside\":2}},\"listed\":[0,1],\"timeline\":[{}\"point\":0,\"time\":0,\
         \"date\":\"1970-01-01T00:00:00Z\",\"event\":\"Review\",\"logged\":{}\"board\":\"b1\"}},\"seen\":\"inside\",\
         \"did\":\"carried\",\"says\":\"right held here: carried the yes\"}},{}\"point\":1,\"time\":1200,\
         \"date\":\"1970-01-01T00:20:00Z\",\"event\":\"Build\",\"logged\":{}\"board\":\"b1\"}},\"seen\":\"inside\",\
         \"did\":\"left held\",\"says\":\"left held (asked here)\"}}]}},\"warnings\":[]}}\n",
        "{", "{", "{", "{", "{", "{", "{"
    );
    answered(&["why", &case, "--point", "1", "--json"], 0, &expected);
    let (status, json) = why(HEADLINE, &["--json"]);
    assert_eq!(status, 1);
    assert!(
        json.contains(r#""did":"held in vain","failed_at":2,"says":"right held here, but left failed at 2""#),
        "{json}"
    );
}

// ---- long logs

/// A log of so many points, a review among the first and builds after it.
fn long(points: usize) -> String {
    let mut text = String::new();
    for k in 0..points {
        let event = if k == 5 { "Review" } else { "Build" };
        text.push_str(&format!("point {} {event} logged {{board: \"b1\", n: {k}}}\n", 1_760_000_000 + 10 * k));
    }
    text + "rule reviewed = formerly within 30d Review()\n\
            rule recent = Build() since within 1h Review()\n\
            rule vain = Review() since within 1h Build(n: 3990) or Nothing() since within 10h Review()\n"
}

#[test]
fn long_stretches_are_folded() {
    let (status, output) = why(&long(4_000), &["--rule", "reviewed"]);
    assert_eq!(status, 0);
    let expected = [
        ": 0 to 4: 5 points, each: not asked",
        "carried the yes",
        ": 6 to 3998: 3993 points, each: did not hold",
        "did not hold (asked here)",
    ];
    assert_eq!(remarks(&output), expected);
    let (status, output) = why(&long(4_000), &["--rule", "recent"]);
    assert_eq!(status, 1);
    assert!(output.contains("\n  -- the window begins at 2025-10-09T18:59:50Z, 1h back --\n"), "{output}");
    assert!(output.contains("\n  : 0 to 3638: 3639 points, each: too old\n"), "{output}");
    // Twelve points and fewer are all shown.
    assert_eq!(remarks(&why(&long(12), &["--rule", "reviewed"]).1).len(), 12);
    assert_eq!(remarks(&why(&long(13), &["--rule", "reviewed"]).1).len(), 4);
}

#[test]
fn no_timeline_is_longer_than_can_be_read() {
    let mut text = String::new();
    for k in 0..4_000 {
        let event = if k % 2 == 0 { "A" } else { "B" };
        text.push_str(&format!("point {k} {event}\n"));
    }
    text.push_str("point 4000 C\nrule r = D() since within 1h A()\n");
    let (status, output) = why(&text, &[]);
    assert_eq!(status, 1);
    assert!(output.lines().count() < 50, "{output}");
    assert!(output.contains("points; at 1785 right held, but left failed later; at 1785 left failed\n"), "{output}");
}

/// A stretch of many sorts tells of every point in it that has a part in the verdict.
#[test]
fn a_folded_stretch_hides_nothing_that_decided() {
    let mut text = String::new();
    for k in 0..80 {
        let (time, event) = (
            if k % 2 == 0 { 100_000 + k } else { 10 },
            ["N", "R", "F"][[2, 20].binary_search(&k).map_or(0, |at| at + 1)],
        );
        text.push_str(&format!("point {time} {event}\n"));
    }
    text.push_str("point 100100 N\nrule no = not F() since within 1h R()\nrule yes = not G() since within 1h R()\n");
    text.push_str("rule never = formerly within 1h G()\n");
    let (status, output) = why(&text, &["--rule", "no"]);
    assert_eq!((status, remarks(&output)[4].as_str()), (1, "right held here, but left failed at 20"));
    assert!(output.contains("\n  : 8 to 56: 49 points; at 1 left failed; at 12 left held\n"), "{output}");
    let (status, output) = why(&text, &["--rule", "yes"]);
    assert_eq!((status, output.contains("\n  : 8 to 56: 49 points; at 49 left held\n")), (0, true), "{output}");
    let (status, output) = why(&text, &["--rule", "never"]);
    assert_eq!((status, output.contains(": 8 to 56: 49 points, none of which decided it\n")), (1, true), "{output}");
}

// ---- the picture

/// A text of a picture: where it begins and ends, its base line, and itself.
#[derive(Debug)]
struct Placed {
    from: f64,
    to: f64,
    y: f64,
    text: String,
}

fn attribute(element: &str, name: &str) -> Option<String> {
    element.split(&format!(" {name}=\"")).nth(1).and_then(|rest| rest.split('"').next()).map(str::to_string)
}

fn number(element: &str, name: &str) -> f64 {
    let text = attribute(element, name).unwrap_or_else(|| panic!("no {name}: {element}"));
    text.parse().expect("a number")
}

/// The texts of a picture, as wide as a font of even width makes them.
fn texts(svg: &str) -> Vec<Placed> {
    let mut texts = Vec::new();
    for rest in svg.split("<text ").skip(1) {
        let (element, text) = rest.split_once('>').expect("an element ends");
        let element = format!(" {element}");
        let text = text.split("</text>").next().expect("a text ends").to_string();
        let plain = text.replace("&quot;", "\"").replace("&lt;", "<").replace("&gt;", ">").replace("&amp;", "&");
        let size = attribute(&element, "font-size").map_or(13.0, |size| size.parse().expect("a number"));
        let width = 0.602 * size * plain.chars().count() as f64;
        let (x, y) = (number(&element, "x"), number(&element, "y"));
        let from = match attribute(&element, "text-anchor").as_deref() {
            Some("end") => x - width,
            Some("middle") => x - width / 2.0,
            _ => x,
        };
        texts.push(Placed { from, to: from + width, y, text: plain });
    }
    texts
}

/// Nothing overlaps and nothing leaves the picture; it holds no link and no font.
fn sound_picture(svg: &str) {
    assert!(svg.starts_with("<svg xmlns=\"http://www.w3.org/2000/svg\" ") && svg.ends_with("</svg>\n"));
    assert_eq!(svg.matches("http").count(), 1, "only the name of the format looks like a link");
    assert!(!svg.contains("href") && !svg.contains("url(") && !svg.contains("font-face") && !svg.contains("<image"));
    let head = svg.lines().next().expect("there is a first line");
    let (width, height) = (number(head, "width"), number(head, "height"));
    let texts = texts(svg);
    for (k, one) in texts.iter().enumerate() {
        assert!(one.from >= 0.0 && one.to <= width && one.y > 10.0 && one.y < height, "{one:?} leaves {width}");
        for other in &texts[k + 1..] {
            let apart = (one.y - other.y).abs() >= 12.0 || one.to <= other.from || other.to <= one.from;
            assert!(apart, "{one:?} overlaps {other:?}");
        }
    }
}

fn picture(text: &str, arguments: &[&str]) -> String {
    let (_, svg) = why(text, &[arguments, &["--svg", "-"]].concat());
    sound_picture(&svg);
    svg
}

#[test]
fn pictures_are_sound_at_4_points_and_at_4000() {
    for rule in ["reviewed", "recent", "before", "failing", "both", "neither", "plain", "lending", "found", "apart"] {
        picture(BENCH, &["--rule", rule]);
    }
    for points in [4_000, 12, 6] {
        for rule in ["reviewed", "recent", "vain"] {
            picture(&long(points), &["--rule", rule]);
        }
    }
    // All at one time; and as far apart as times can be, with a window that reaches before all time.
    picture("point 5 A\npoint 5 A\nrule r = formerly within 0s A()", &[]);
    let ends = "point -9223372036854775808 A\npoint 9223372036854775807 A\n";
    picture(&format!("{ends}rule r = formerly within 9223372036854775807d B()"), &[]);
    // Texts that XML and long lines would trip over.
    let long = "word<&\\\"> ".repeat(60);
    let text =
        format!("point 1 A logged {{\"<b>&\": \"{long}\"}}\nrule r = formerly within 1h A(\"<b>&\": \"{long}\")");
    let svg = picture(&text, &[]);
    assert!(svg.contains("&lt;b&gt;&amp;") && !svg.contains("<b>"), "{svg}");
}

#[test]
fn a_picture_shows_points_window_and_what_carried_the_yes() {
    let svg = picture(HEADLINE, &["--point", "1"]);
    assert!(svg.contains("<title>yes: ready at point 1</title>"), "{svg}");
    let texts: Vec<String> = texts(&svg).into_iter().map(|placed| placed.text).collect();
    for text in [
        "yes",
        "ready at point 1, time 1200",
        "point 0 carried the yes",
        "Review",
        "20m before",
        "left held (asked here)",
    ] {
        assert!(texts.iter().any(|known| known == text), "{text}: {texts:?}");
    }
    // A green disc on the axis and one in the table; the window's band behind both.
    assert_eq!(svg.matches("fill=\"#1a7f37\"/>").count(), 3, "the badge, and two discs");
    assert!(svg.matches("fill=\"#dbe9fb\"").count() >= 3, "{svg}");
    let no = picture(HEADLINE, &[]);
    assert!(!no.contains("carried the yes") && no.contains("left failed here"), "{no}");
    // The edge of a window is drawn where it lies in the log.
    assert!(picture(BENCH, &["--rule", "recent"]).contains("the window begins at 110, 10s back"));
}

#[test]
fn the_picture_is_written_as_every_file_is() {
    let case = file("why-svg.case", HEADLINE.as_bytes());
    let svg = file("why.svg", b"old");
    let (status, words, error) = run(&["why", &case, "--svg", &svg]);
    assert_eq!((status, error.as_str()), (1, ""));
    assert!(words.starts_with("no: ready at point 3"), "{words}");
    let written = std::fs::read_to_string(&svg).expect("it was written");
    assert_eq!(written.replace(&case, "-"), run(&["why", &case, "--svg", "-"]).1.replace(&case, "-"));
    answered(&["why", &case, "--svg", &svg, "--quiet"], 1, "");
    refused(&["why", &case, "--svg", &case], "this is the file that is read");
    assert_eq!(std::fs::read_to_string(&case).expect("it is there"), HEADLINE);
    // The names of a packed case are read, too.
    let (packed, names) = (format!("{case}.bin"), format!("{case}.bin.names"));
    assert_eq!(run(&["pack", &case, &packed, "--quiet"]).0, 0);
    let written = std::fs::read_to_string(&names).expect("they were written");
    refused(&["why", &packed, "--svg", &names], "this is the file that is read");
    assert_eq!(std::fs::read_to_string(&names).expect("they are there"), written);
    refused(&["why", &case, "--svg", "/nowhere/why.svg"], "/nowhere/why.svg: its folder does not exist: make it first");
    refused(&["why", &case, "--svg", "/tmp"], "this is a directory: name a file in it");
    let message =
        "`--svg -` writes the picture to standard output, in place of the words: leave --json and --quiet out";
    refused(&["why", &case, "--svg", "-", "--quiet"], message);
    let (status, json, _) = run(&["why", &case, "--svg", "-", "--json"]);
    assert_eq!(
        (status, json.starts_with(&format!("{{\"error\":\"usage\",\"message\":\"{message}"))),
        (2, true),
        "{json}"
    );
}

// ---- what is refused

#[test]
fn refusals_say_what_to_do() {
    let case = file("why-refused.case", BENCH.as_bytes());
    refused(
        &["why", &case, "--rule", "reviews"],
        "refused 8: the case has no such node, or it is none that this call is about: ",
    );
    refused(
        &["why", &case, "--rule", "reviews"],
        "`why` shows what decided a yes or no: a count or sum is asked with `ask`",
    );
    let term = file("why-term.case", b"point 1 A\nterm t = 3\nrule r = A(n: @t)\n");
    refused(&["why", &term, "--node", "0"], "refused 8");
    refused(
        &["why", &case, "--rule", "reviewed", "--steps", "0"],
        "refused 11: the answer takes more steps than allowed (0 steps spent, at most 0 rows held); allow more with --steps",
    );
    refused(&["why", &case, "--rule", "first_found", "--room", "0"], "refused 12: ");
    refused(
        &["why", &case, "--rule", "reviewed", "--point", "4"],
        "refused 7: the case has no such point: points 0 to 3 exist",
    );
    refused(&["why", &case, "--rule", "seen"], "seen is asked with b unbound");
    refused(&["why", &case, "--rule", "reviewed", "--node", "1"], "two ways to say what is asked");
    refused(&["why", &case, "--rule", "reviewed", "--rule", "both"], "`--rule` is given twice: leave one out");
    refused(&["why", &case, "--svg", "a", "--svg", "b"], "`--svg` is given twice: leave one out");
    refused(&["why", &case, "--svgg", "a"], "`why` has no option `--svgg`");
    refused(&["why"], "`why` takes one file, not 0");
    let (status, output, _) = run(&["why", &case, "--rule", "seen", "--bind", "b=b2"]);
    assert_eq!((status, output.starts_with("yes: seen at point 3")), (0, true));
    // A yes is of the board that is bound: words, JSON and picture name it.
    assert!(output.contains("\nformerly within 1h Review(board: b) with b = \"b2\"\n"), "{output}");
    let json = run(&["why", &case, "--rule", "seen", "--bind", "b=b2", "--json"]).1;
    assert!(json.contains(r#""answer":true,"bound":{"b":"b2"},"kind":"formerly""#), "{json}");
    let svg = run(&["why", &case, "--rule", "seen", "--bind", "b=b2", "--svg", "-"]).1;
    assert!(svg.contains("Review(board: b) with b = &quot;b2&quot;</text>"), "{svg}");
    // Each question has the limits for itself: `ask` takes more steps than `why`.
    assert_eq!(run(&["ask", &case, "--rule", "reviewed", "--point", "1", "--steps", "1"]).0, 2);
    assert_eq!(run(&["why", &case, "--rule", "reviewed", "--point", "1", "--steps", "1"]).0, 0);
}

#[test]
fn warnings_are_told_and_strict_makes_them_errors() {
    let case = file("why-strict.case", b"point 1 A\nrule r = formerly within 1h Reveiw()\n");
    let (status, output, error) = run(&["why", &case]);
    assert_eq!((status, output.starts_with("no: r at point 0")), (1, true));
    assert!(error.contains("warning: no point of the log has action `Reveiw`"), "{error}");
    let (status, _, error) = run(&["why", &case, "--strict"]);
    assert_eq!(status, 2);
    assert!(error.contains("1 warning is an error here (--strict)"), "{error}");
    assert!(run(&["why", &case, "--json"]).1.contains("\"warnings\":[{"));
}

/// What README shows is what the command says.
#[test]
fn readme_shows_what_why_says() {
    let root = concat!(env!("CARGO_MANIFEST_DIR"), "/../..");
    let readme = std::fs::read_to_string(format!("{root}/README.md")).expect("it is there");
    let shown = readme.split("galivodern why ../examples/headline.case --point 4 --svg why.svg\n\n").nth(1);
    let shown: Vec<&str> = shown.expect("README shows it").lines().take_while(|line| !line.is_empty()).collect();
    let said = run(&["why", &format!("{root}/examples/headline.case"), "--point", "4"]).1;
    let said: Vec<&str> = said.lines().collect();
    let same = |(shown, said): (&&str, &&str)| shown.trim_start() == said.trim_start();
    assert!(shown.len() == 7 && shown.iter().rev().zip(said.iter().rev()).all(same), "{shown:#?}\n{said:#?}");
}

/// A packed case without its names is asked by its node.
#[test]
fn a_packed_case_is_shown_with_made_up_names() {
    let packed = file("why.bin", &[]);
    run_with(&["pack", "-", &packed], BENCH.as_bytes());
    std::fs::remove_file(format!("{packed}.names")).expect("`pack` wrote it");
    let text = run(&["text", &packed]).1;
    let node = text.lines().find(|line| line.contains("= formerly within 10s")).expect("it is a rule of its own");
    let node = node.split_whitespace().nth(1).and_then(|name| name.strip_prefix('r')).expect("r and its number");
    let (status, output, _) = run(&["why", &packed, "--node", node]);
    assert_eq!(status, 1);
    assert!(output.starts_with(&format!("no: node {node} at point 3, time 120\n")), "{output}");
}
