//! The programs in examples/, on the headline rule.

#[allow(dead_code)]
#[path = "../examples/gate.rs"]
mod gate;
#[allow(dead_code)]
#[path = "../examples/history.rs"]
mod history;

const LOG: &str = r#"
    point 0 Review logged {board: "b1"}
    point 3600 Build logged {board: "b1"} context {board: "b1"}
    point 3601 Build logged {board: "b1"} context {board: "b1"}
    rule reviewed = formerly within 1h Review(board: context.board)
"#;

#[test]
fn a_gate_opens_on_a_yes_only() {
    let error = |text: &str, rule| gate::opens(text, rule).expect_err("no verdict").to_string();
    assert!(!gate::opens(LOG, "reviewed").expect("a verdict"));
    let earlier = LOG.replace("point 3601", "point 3600");
    assert!(gate::opens(&earlier, "reviewed").expect("a verdict"));
    assert_eq!(error(LOG, "rewieved"), "there is no rule `rewieved`");
    assert_eq!(error("rule r = 1 == 1", "r"), "the log is empty");
    assert!(error("rule r = 1 ==", "r").starts_with("1:"), "a fault says where it is");
}

#[test]
fn a_history_has_a_line_a_point() {
    let expected = "0 0 Review(board: String(\"b1\")) no\n\
                    1 3600 Build(board: String(\"b1\")) yes\n\
                    2 3601 Build(board: String(\"b1\")) no\n";
    assert_eq!(history::table(LOG, "reviewed").expect("a table"), expected);
}
