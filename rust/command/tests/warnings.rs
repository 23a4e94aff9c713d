//! Names never seen, comparisons that never hold, times that fall: warned of with place, errors when asked to be.

mod common;

use common::{file, run, run_with};

const LOG: &str = r#"variables b n
point 100 Review logged {board: "b1", n: 3, input: {user: "ann"}} context {line: "motor"}
  principal User::"ann" entity User::"ann" {dept: "bench"}
point 110 Flash/response logged {board: "b1"}
"#;

/// The warnings of a rule, with their places.
fn warned(rule: &str) -> Vec<String> {
    let (status, output, error) = run_with(&["check", "-"], format!("{LOG}{rule}\n").as_bytes());
    assert_eq!(status, 0, "{error}");
    assert!(output.contains("a sound case"), "{output}");
    let lines = error.lines().filter_map(|line| line.strip_prefix("galivodern: standard input:"));
    lines.map(str::to_string).collect()
}

fn warns(rule: &str, expected: &str) {
    assert_eq!(warned(rule), [expected], "{rule}");
}

#[test]
fn names_that_no_point_has_are_warned_of() {
    warns("rule r = not Reveiw()", "5:14: warning: no point of the log has action `Reveiw`; did you mean `Review`?");
    warns(
        "rule r = not N::Review()",
        "5:14: warning: no point of the log has action `N::Review`; did you mean `Review`?",
    );
    warns(
        "rule r = Flash()",
        "5:10: warning: no point of the log has `Flash` of kind `request`; its kinds are: response",
    );
    warns(
        "rule r = not Review(bord: *)",
        "5:21: warning: no point of the log has field `bord` in `Review`; did you mean `board`?",
    );
    warns(
        "rule r = not Review(n: *, input.usr: *)",
        "5:27: warning: no point of the log has field `input.usr` in `Review`; did you mean `user`?",
    );
    warns(
        "rule r = context.lien == \"motor\"",
        "5:10: warning: no point of the log has `context.lien`; did you mean `line`?",
    );
    warns(
        "rule r = resource == User::\"ann\"",
        "5:10: warning: no point of the log has resource: give the points one, or leave this out",
    );
    warns(
        "rule r = principal.dpt == \"bench\"",
        "5:10: warning: no point of the log has entity with the attribute `dpt`; did you mean `dept`?",
    );
    for sound in [
        "rule r = not Review(board: \"b1\", n: 3, input.user: *)",
        "rule r = Flash/response(board: *) and context.line == \"motor\"",
        "rule r = principal.dept == \"bench\" and principal.id == \"ann\" and principal.type == \"User\"",
    ] {
        assert_eq!(warned(sound), Vec::<String>::new(), "{sound}");
    }
}

#[test]
fn comparisons_that_never_hold_are_warned_of() {
    warns(
        "rule r = not Review(n: \"3\")",
        "5:21: warning: this never matches: `n` of `Review` is Int, and this is String; ask for one that it can be",
    );
    warns(
        "rule r = not Review(n: context.line)",
        "5:21: warning: this never matches: `n` of `Review` is Int, and this is String; ask for one that it can be",
    );
    warns(
        "rule r = 1 == \"1\"",
        "5:10: warning: this never holds: the left side is Int, the right side is String; make them one type",
    );
    warns(
        "rule r = not (exists b (Review(board: b) and b < 3))",
        "5:46: warning: this never holds: an ordering takes integers, and the left side is String; compare it by == or !=",
    );
    warns(
        "rule r = decimal \"1.5\" < 2",
        "5:10: warning: this never holds: an ordering takes integers, and the left side is Decimal; compare it by == or !=",
    );
    warns(
        "rule r = 1 + \"1\" == 2",
        "5:10: warning: this never holds: arithmetic takes integers, and the right side is String; compare it by == or !=",
    );
    warns(
        "rule r = * == 2",
        "5:10: warning: this never holds: `*` stands for any field of an action, and nowhere else",
    );
    warns(
        "rule r = formerly within -5m Review()",
        "5:10: warning: this window's amount is negative, so no point is ever in it: write it without the minus",
    );
    warns(
        "rule r = principal == \"ann\"",
        "5:10: warning: this never holds: the left side is Entity, the right side is String; make them one type",
    );
    for sound in [
        "rule r = exists n (Review(n: n) and n < 4) and (count for b where Review(board: b)) == 1",
        "rule r = exists n (tp n and n >= 0) and exists n (n == 3 + 1 and n > 3) and 1 != \"1\"",
        "rule r(n) = n < 4",
    ] {
        assert_eq!(warned(sound), Vec::<String>::new(), "{sound}");
    }
}

#[test]
fn times_that_fall_or_lie_ahead_are_warned_of() {
    let text = "point 100 A\npoint 120 A\npoint 110 A\npoint 105 A\nrule r = A()\n";
    let error = run_with(&["check", "-"], text.as_bytes()).2;
    assert!(
        error.contains(
            ":3:1: warning: the time falls here, from 120 to 110: a window reaches by time, not by order; sort the points; 1 more fall"
        ),
        "{error}"
    );
    let error = run_with(&["ask", "-"], text.as_bytes()).2;
    assert!(error.contains(":2:1: warning: point 1, at 120, is ahead of point 3, which is asked about, at 105: no window reaches it, so look at its time (2 points are)"), "{error}");
    assert_eq!(run_with(&["ask", "-", "--point", "1"], text.as_bytes()).2, "");
}

/// A question is warned of what it has to do with, and of no other rule.
#[test]
fn a_question_is_warned_of_its_own_rule() {
    let text = format!("{LOG}rule typo = not Reveiw()\nrule sound = Review()\nrule both = @typo and @sound\n");
    let text = file("own.case", text.as_bytes());
    assert_eq!(run(&["ask", &text, "--rule", "sound"]).2, "");
    assert!(run(&["ask", &text, "--rule", "both"])
        .2
        .contains("own.case:5:17: warning: no point of the log has action"));
    assert_eq!(run(&["ask", &text, "--rule", "both", "--quiet"]).2, "");
    assert!(run(&["ask", &text, "--rule", "sound", "--bind", "b=b1"])
        .2
        .contains("sound does not depend on `b`, which is bound"));
}

/// The gate that a typo under `not` opens stays shut with `--strict`.
#[test]
fn strict_makes_warnings_errors() {
    let text = file("strict.case", format!("{LOG}rule typo = not Reveiw()\n").as_bytes());
    let case = file("strict.bin", b"");
    assert_eq!(run(&["ask", &text]).0, 0);
    for arguments in [
        &["ask", &text, "--strict"][..],
        &["check", &text, "--strict"],
        &["rows", &text, "--strict"],
        &["pack", &text, &case, "--strict"],
    ] {
        let (status, output, error) = run(arguments);
        assert_eq!((status, output.as_str()), (2, ""), "{arguments:?}");
        assert!(
            error.contains("did you mean `Review`?") && error.ends_with("1 warning is an error here (--strict)\n"),
            "{error}"
        );
    }
    assert_eq!(std::fs::read(&case).expect("it is there"), b"", "nothing was packed");
    let (status, json, _) = run(&["check", &text, "--json", "--strict"]);
    assert_eq!(status, 2);
    assert!(
        json.contains(r#""error":"strict""#) && json.contains(r#"{"line":5,"column":17,"message":"no point"#),
        "{json}"
    );
    // A packed case has no places, and is warned of by node.
    assert_eq!(run(&["pack", &text, &case, "--quiet"]), (0, String::new(), String::new()));
    assert!(run(&["ask", &case]).2.contains("strict.bin: warning: node 0: no point of the log has action `Reveiw`"));
}

const SCHEMA: &str =
    "action Review {board: String, n: Int, input: {user: String}}\naction Flash/response {board: String}\n\
                      action Ship {to: Any}\ncontext {line: String}\nprincipal Entity\nentity User {dept: String}\n";

#[test]
fn a_schema_makes_them_errors() {
    let schema = file("board.schema", SCHEMA.as_bytes());
    let check = |text: String| run_with(&["check", "-", "--schema", &schema], text.as_bytes());
    assert_eq!(
        check(format!("{LOG}rule r = Ship(to: 3) and Review(input.user: \"x\") and principal.dept == \"d\"")).0,
        0
    );
    let wrong = |rule: &str, expected: &str| {
        let (status, output, error) = check(format!("{LOG}{rule}\n"));
        assert_eq!((status, output.as_str()), (2, ""), "{rule}: {error}");
        assert!(error.contains(expected), "{rule}: {error}");
    };
    wrong("rule r = not Shop()", "standard input:5:14: the schema has no action `Shop`; did you mean `Ship`?");
    wrong("rule r = not Review(m: 3)", "5:21: the schema has no field `m` in `Review`; there are: board, input, n");
    wrong("rule r = not Review(n: \"3\")", "5:21: this never matches: `n` of `Review` is Int, and this is String");
    wrong("rule r = resource == User::\"x\"", "5:10: the schema has no resource");
    wrong("point 120 Flsh", "5:1: the schema has no action `Flsh/request`");
    wrong("point 120 Review logged {n: \"3\"}", "5:1: `Review/request`: `n` is Int in the schema, and String here");
    wrong("point 120 Review logged {input: {usr: 1}}", "5:1: `Review/request`: the schema has no field `input.usr`");
    let bad = file("bad.schema", b"action Review {n: Integer}\n");
    let (status, _, error) = run_with(&["check", "-", "--schema", &bad], LOG.as_bytes());
    assert_eq!(status, 2);
    assert!(error.contains("bad.schema:1:19: there is no type `Integer`; a type is Null, Bool, Int,"), "{error}");
}
