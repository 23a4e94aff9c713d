//! Which event carried the yes: the list of each node and answer, and every refusal.

use galivodern::{Bindings, Bound, Carried, Case, Limits, PointNo, Refusal, Refused, RuleNo};

/// Document 01's bench, with the rules of the request's reading.
const TEXT: &str = r#"
    variables x
    point 100 Review logged {board: "b1", n: 3}
    point 110 Flash logged {board: "b1", n: 4}
    point 105 Review logged {board: "b2", n: 3}
    point 120 Flash logged {board: "b2", n: 7}
    rule reviewed = formerly within 1h Review()
    rule reviewed_b1 = formerly within 1h Review(board: "b1")
    rule since_20 = not Review(board: "b1") since within 20s Review(board: "b1")
    rule since_19 = not Review(board: "b1") since within 19s Review(board: "b1")
    rule failing = Review(board: "b1") since within 1h Review()
    rule flashed_since = Flash() since within 1h Review()
    rule flashed = formerly within 1h (exists x Flash(n: x))
    rule before = previous within 1h Review()
    rule both = Flash() and @reviewed
    rule logged(x) = formerly within 1h Review(n: x)
    number reviews = count where @reviewed
"#;

fn case() -> Case {
    Case::from_text(TEXT).expect("the text is well formed")
}

fn asked(rule: &str, point: usize, limits: Limits) -> Result<Carried, Refused> {
    let case = case();
    case.carried(PointNo(point), case.rule(rule).expect("the text names it"), &Bindings::new(), limits)
}

fn listed(rule: &str, point: usize) -> (bool, Vec<usize>) {
    let carried = asked(rule, point, Limits::default()).expect("an answer");
    (carried.verdict, carried.points.iter().map(|point| point.0).collect())
}

#[test]
fn each_answer_lists_what_decided_it() {
    assert_eq!(listed("reviewed", 3), (true, vec![2]));
    assert_eq!(listed("reviewed_b1", 3), (true, vec![0]));
    assert_eq!(listed("since_20", 3), (true, vec![0, 1, 2, 3]));
    assert_eq!(listed("since_19", 3), (false, vec![]));
    assert_eq!(listed("failing", 3), (false, vec![2, 3, 0, 1]));
    assert_eq!(listed("flashed_since", 3), (true, vec![2, 3]));
    assert_eq!(listed("before", 3), (true, vec![2]));
    assert_eq!(listed("before", 0), (false, vec![]));
    // Point 1 is stamped later than point 2.
    assert_eq!(listed("flashed", 2), (false, vec![]));
}

#[test]
fn yes_and_failures_are_told_apart() {
    let yes = asked("since_20", 3, Limits::default()).expect("an answer");
    assert_eq!((yes.by(), yes.failed().len()), (Some(PointNo(0)), 0));
    let no = asked("failing", 3, Limits::default()).expect("an answer");
    assert_eq!(no.by(), None);
    let pairs: Vec<(PointNo, PointNo)> = no.failed().collect();
    assert_eq!(pairs, [(PointNo(2), PointNo(3)), (PointNo(0), PointNo(1))]);
}

/// The limits are those of each question, and a refused one tells its own numbers.
#[test]
fn limits_are_afresh_for_each_question() {
    let case = case();
    let verdict = |steps| {
        let rule = case.rule("reviewed_b1").expect("the text names it");
        case.ask(PointNo(3), rule, &Bindings::new(), Limits { steps, room: 9 }).map(|answer| answer.verdict())
    };
    assert_eq!(verdict(5), Ok(true));
    assert_eq!(verdict(4).expect_err("five are needed").refusal, Refusal::StepsExhausted);
    let carried = asked("reviewed_b1", 3, Limits { steps: 1, room: 9 }).expect("one step a question is enough");
    assert_eq!(carried.by(), Some(PointNo(0)));
    let refused = asked("reviewed_b1", 3, Limits { steps: 0, room: 9 }).expect_err("none is not");
    assert_eq!((refused.refusal, refused.steps, refused.held), (Refusal::StepsExhausted, 0, 0));
    let refused = asked("flashed", 3, Limits { steps: 9, room: 0 }).expect_err("a row is needed");
    assert_eq!((refused.refusal, refused.steps, refused.held), (Refusal::RoomExhausted, 2, 0));
    assert_eq!(asked("before", 0, Limits { steps: 0, room: 0 }).map(|carried| carried.verdict), Ok(false));
}

#[test]
fn other_nodes_points_and_bindings_are_refused() {
    let refusal = |rule: &str, point| asked(rule, point, Limits::default()).expect_err("it is refused").refusal;
    assert_eq!(refusal("both", 3), Refusal::NoSuchNode);
    assert_eq!(refusal("reviews", 3), Refusal::NoSuchNode);
    assert_eq!(refusal("reviewed", 4), Refusal::NoSuchPoint);
    assert_eq!(refusal("reviewed", usize::MAX), Refusal::NoSuchPoint);
    assert_eq!(refusal("logged", 3), Refusal::BadStart);
    assert_eq!(asked("reviewed", 3, Limits { steps: 1, room: 16_385 }).unwrap_err().refusal, Refusal::BadLimits);
    let (case, unbound) = (case(), Bindings::new());
    let nodes = case.contents().nodes as u32;
    let none = case.carried(PointNo(3), RuleNo(nodes), &unbound, Limits::default());
    assert_eq!(none.expect_err("there is no such node").refusal, Refusal::NoSuchNode);
    let (logged, x) = (case.rule("logged").unwrap(), case.variable("x").unwrap());
    let carried = case.carried(PointNo(3), logged, &unbound.with(x, Bound::Int(3)), Limits::default());
    assert_eq!(carried.expect("an answer").by(), Some(PointNo(2)));
    assert_eq!(Refusal::ListTooShort.number(), 15);
    assert_eq!(
        Refused::from(Refusal::ListTooShort).to_string(),
        "the list is too short for the points that made the answer"
    );
}

/// Every point an anchor, and left failing at each: the longest list that there is.
#[test]
fn the_longest_lists_fit() {
    let points: String = (0..2_000).map(|time| format!("point {time} A logged {{n: {time}}}\n")).collect();
    let text = format!("{points}rule no = B() since within 1h A()\nrule yes = A() since within 1h A(n: 0)\n");
    let case = Case::from_text(&text).expect("the text is well formed");
    let ask = |rule: &str| {
        let rule = case.rule(rule).expect("the text names it");
        case.carried(PointNo(1_999), rule, &Bindings::new(), Limits::default()).expect("an answer")
    };
    // The last point has nothing after it, and carries the yes.
    assert_eq!(ask("no").points, [PointNo(1_999)]);
    let yes = ask("yes");
    assert_eq!((yes.verdict, yes.points.len(), yes.by()), (true, 2_000, Some(PointNo(0))));
    let text = format!("{points}point 2000 B\nrule no = C() since within 1h A()\n");
    let case = Case::from_text(&text).expect("the text is well formed");
    let no = case.carried(PointNo(2_000), case.rule("no").unwrap(), &Bindings::new(), Limits::default());
    let no = no.expect("an answer");
    assert_eq!((no.verdict, no.points.len(), no.failed().len()), (false, 4_000, 2_000));
    assert_eq!(no.failed().last(), Some((PointNo(0), PointNo(1))));
}
