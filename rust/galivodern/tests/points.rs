//! Reading a case: names, faults, points with all that they hold, rows in a loop.

use std::error::Error;

use galivodern::{Bindings, Bound, Case, Limits, Point, PointNo, Refusal, RuleNo, Value, VariableNo};

const TEXT: &str = r#"
    variables b n
    point -5 Motor::Line::Review/response
      logged {board: "b1", n: 3}
      context {input: {user: "ann"}, level: 4}
      principal User::"ann"
      resource null
      entity User::"ann" {dept: "bench"}
      entity Board::"b1" {}
    point 110 Flash

    number boards = count for b where formerly within 1h Motor::Line::Review/response(board: b)
    rule flashed = Flash()
"#;

fn case() -> Case {
    Case::from_text(TEXT).expect("the text is well formed")
}

#[test]
fn names_are_those_of_the_text() {
    let case = case();
    let names: Vec<&str> = case.rules().map(|(name, _)| name).collect();
    assert_eq!(names, ["boards", "flashed"]);
    assert_eq!(case.rule("flashed"), case.last_rule());
    assert_eq!(case.rule("flash"), None);
    assert_eq!(case.variable("n"), Some(VariableNo(1)));
    assert_eq!(case.variable("x"), None);
    let unnamed = Case::new(case.bytes()).expect("it passed before");
    assert_eq!((unnamed.rule("flashed"), unnamed.rules().len(), unnamed.variable("n")), (None, 0, None));
    assert_eq!(case.clone().rules().len(), 2);
}

/// What a rule's parameter leaves open is never taken for a yes; its rows are what it finds.
#[test]
fn parameters_are_bound_when_a_rule_is_asked() {
    let text = "variables b t\npoint 1 Review logged {board: \"b1\"}\npoint 2 Flash logged {board: \"b2\"}\n\
                rule ready(b) = formerly within 1h Review(board: b) and formerly within 1h Flash(board: b)\n\
                number reviews(b) = count for t where formerly within 1h (Review(board: b) and tp t)";
    let case = Case::from_text(text).expect("the text is well formed");
    let [ready, reviews] = ["ready", "reviews"].map(|name| case.rule(name).expect("it is named"));
    let (b, limits, unbound) = (case.variable("b").expect("it is declared"), Limits::default(), Bindings::new());
    assert_eq!((case.parameters(ready), case.parameters(RuleNo(0)).len()), (&[b][..], 0));
    let refusal = |point, start: &Bindings| case.ask(point, ready, start, limits).map_err(|refused| refused.refusal);
    assert_eq!(refusal(PointNo(1), &unbound), Err(Refusal::BadStart));
    assert_eq!(refusal(PointNo(2), &unbound), Err(Refusal::NoSuchPoint));
    let other = Bindings::new().with(case.variable("t").expect("it is declared"), Bound::Int(0));
    assert_eq!(refusal(PointNo(1), &other), Err(Refusal::BadStart));
    let number = |start: &Bindings| case.ask(PointNo(1), reviews, start, limits);
    assert_eq!(number(&unbound).map_err(|refused| refused.refusal), Err(Refusal::BadStart));
    let found = case.rows(PointNo(1), ready, &[b], &unbound, limits).expect("an answer").value;
    assert!(found.is_empty());
    let board = (0..).find(|&number| case.value(number) == Some(Value::String("b1"))).expect("it is there");
    let b1 = Bindings::new().with(b, Bound::Value(board));
    assert!(!case.ask(PointNo(1), ready, &b1, limits).expect("an answer").verdict());
    assert_eq!(number(&b1).expect("an answer").number(), 1);
    // A case file has no names, and so no parameters: it is asked as document 01 says.
    let unnamed = Case::new(case.bytes()).expect("it passed before");
    assert!(unnamed.ask(PointNo(1), ready, &unbound, limits).expect("an answer").verdict());
}

#[test]
fn a_fault_says_where_and_what() {
    let asked: Result<Case, Box<dyn Error>> =
        Case::from_text("point 5 Flash\nrule r = Flash(n: y)").map_err(Into::into);
    let message = asked.expect_err("there is no y").to_string();
    assert!(message.starts_with("2:"), "{message}");
    assert!(message.contains("`y`"), "{message}");
    let fault = Case::from_text("point 5 Flash\nrule r = Flash(n: y)").expect_err("there is no y");
    assert_eq!((fault.line, fault.column), (2, 19));
    assert_eq!(fault.to_string(), format!("2:19: {}", fault.message));
}

#[test]
fn a_point_tells_all_that_it_holds() {
    let case = case();
    let point = case.point(PointNo(0)).expect("there are two");
    assert_eq!((point.number(), point.time()), (PointNo(0), -5));
    assert_eq!(point.namespace().collect::<Vec<_>>(), ["Motor", "Line"]);
    assert_eq!((point.action(), point.kind()), ("Review", "response"));
    assert_eq!(point.fields().collect::<Vec<_>>(), [("board", Value::String("b1")), ("n", Value::Int(3))]);
    assert_eq!(point.field("n"), Some(Value::Int(3)));
    assert_eq!(point.field("level"), None);
    let context: Vec<(&str, Value)> = point.context().collect();
    assert_eq!(context[1], ("level", Value::Int(4)));
    let Value::Object(members) = &context[0].1 else { panic!("input is an object") };
    assert_eq!(case.value(members[0].1), Some(Value::String("ann")));
    assert_eq!(point.principal(), Some(Value::Entity { ty: "User", id: "ann" }));
    assert_eq!(point.resource(), Some(Value::Null));
    let entities: Vec<String> = point.entities().map(|entity| format!("{entity:?}")).collect();
    assert_eq!(entities, ["Board::\"b1\"", "User::\"ann\""]);
    let user = point.entities().nth(1).expect("there are two");
    assert_eq!((user.ty, user.id), ("User", "ann"));
    assert_eq!(user.attributes().collect::<Vec<_>>(), [("dept", Value::String("bench"))]);
    assert_eq!(format!("{point:?}"), "Point { number: 0, time: -5, action: \"Review\", kind: \"response\", .. }");
}

#[test]
fn points_come_in_order_from_either_end() {
    let case = case();
    let times = |points: &mut dyn Iterator<Item = Point>| points.map(|point| point.time()).collect::<Vec<_>>();
    assert_eq!(times(&mut case.points()), [-5, 110]);
    assert_eq!(times(&mut case.points().rev()), [110, -5]);
    assert_eq!(case.points().len(), 2);
    let last = case.points().next_back().expect("there are two");
    assert_eq!((last.action(), last.kind(), last.fields().len()), ("Flash", "request", 0));
    assert_eq!((last.principal(), last.resource(), last.entities().len()), (None, None, 0));
    assert!(case.point(PointNo(2)).is_none());
    assert!(case.point(PointNo(usize::MAX)).is_none());
}

#[test]
fn rows_are_looped_over() {
    let text =
        "variables x\npoint 1 A logged {n: 1}\npoint 2 A logged {n: 2}\nrule found(x) = formerly within 1h A(n: x)";
    let case = Case::from_text(text).expect("the text is well formed");
    let (found, x) = (case.rule("found").expect("it is named"), case.variable("x").expect("it is declared"));
    let rows = case.rows(PointNo(1), found, &[x, x], &Bindings::new(), Limits::default()).expect("an answer").value;
    let mut seen = Vec::new();
    for row in &rows {
        seen.extend(row);
    }
    let bound = |n| Some(Bound::Int(n));
    assert_eq!(seen, [bound(1), bound(1), bound(2), bound(2)]);
    let backward: Vec<Option<Bound>> = rows.iter().rev().map(|row| row.get(0).expect("x is bound")).map(Some).collect();
    assert_eq!(backward, [bound(2), bound(1)]);
    assert_eq!((rows.iter().len(), rows.get(0).map(|row| row.iter().len())), (2, Some(2)));
}
