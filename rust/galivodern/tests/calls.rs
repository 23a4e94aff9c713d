//! What each call of the crate promises: every refusal, buffers used again, cases shared.

use std::error::Error;

use galivodern::{
    Answer, Answered, Bindings, Bound, Case, Contents, Limits, PointNo, Refusal, Refused, RuleNo, Sort, Value,
    VariableNo,
};

const TEXT: &str = r#"
    variables b n

    point 100 Review
      logged {board: "b1", n: 3}
      principal User::"ann"
      entity User::"ann" {tags: [1, "red"], dept: {name: "bench"}}
    point 110 Flash
      logged {board: "b1", n: 4}

    loose rule reviewed = formerly within 1h Review(board: b, n: n)
    loose number boards = count for b where @reviewed
    rule owner(b) = b == principal.id
"#;

const B: VariableNo = VariableNo(0);
const N: VariableNo = VariableNo(1);

fn case() -> Case {
    Case::from_text(TEXT).expect("the text is well formed")
}

fn rule(name: &str) -> RuleNo {
    case().rule(name).expect("the text names it")
}

fn refusal<T: std::fmt::Debug>(said: Result<Answered<T>, Refused>) -> Refusal {
    said.expect_err("the call is refused").refusal
}

#[test]
fn a_case_says_what_it_holds() {
    let case = case();
    let Contents { variables, points, nodes, .. } = case.contents();
    assert_eq!((variables, points), (2, 2));
    assert_eq!(case.last_rule(), Some(RuleNo(nodes as u32 - 1)));
    assert_eq!(case.sort(rule("reviewed")), Some(Sort::Condition));
    assert_eq!(case.sort(rule("boards")), Some(Sort::Aggregate));
    assert_eq!(case.sort(RuleNo(0)), Some(Sort::Term));
    assert_eq!(case.sort(RuleNo(nodes as u32)), None);
    let packed = casefile::text::pack(TEXT).expect("the text is well formed").tables.encode();
    assert_eq!(case.clone().into_bytes(), packed);
    let empty = Case::new(casefile::Tables::default().encode()).expect("an empty case passes");
    assert_eq!(empty.last_rule(), None);
    assert_eq!(empty.points().len(), 0);
}

#[test]
fn values_are_read_as_they_were_written() {
    let case = case();
    let values: Vec<Value> = (0..).map_while(|number| case.value(number)).collect();
    assert_eq!(values.len(), case.contents().values);
    assert!(values.contains(&Value::Int(3)));
    assert!(values.contains(&Value::String("b1")));
    assert!(values.contains(&Value::Entity { ty: "User", id: "ann" }));
    let number = |value: &Value| values.iter().position(|known| known == value).expect("it is there") as u32;
    let array = Value::Array(vec![number(&Value::Int(1)), number(&Value::String("red"))]);
    assert!(values.contains(&array));
    let object = Value::Object(vec![("name", number(&Value::String("bench")))]);
    assert!(values.contains(&object));
    assert_eq!(case.string(case.contents().strings as u32), None);
}

#[test]
fn a_part_of_an_entity_is_a_row_too() {
    let case = case();
    let found = case.rows(PointNo(0), rule("owner"), &[B], &Bindings::new(), Limits::default()).expect("an answer");
    let Some(Bound::Part(string)) = found.value.get(0).expect("one row").get(0) else { panic!("an own part") };
    assert_eq!(case.string(string), Some("ann"));
    let ann = Bindings::new().with(B, Bound::Part(string));
    assert!(case.ask(PointNo(0), rule("owner"), &ann, Limits::default()).expect("an answer").verdict());
}

#[test]
fn rows_come_in_order_with_what_is_absent() {
    let case = case();
    let limits = Limits::default();
    let start = Bindings::new().with(N, Bound::Int(3));
    let found = case.rows(PointNo(1), rule("reviewed"), &[N, B, B], &start, limits).expect("an answer").value;
    assert_eq!(found.len(), 1);
    let row: Vec<Option<Bound>> = found.iter().next().expect("one row").iter().collect();
    // n was bound before, so the row does not bind it; the board is asked for twice.
    assert_eq!(row[0], None);
    assert!(matches!(row[1], Some(Bound::Value(_))));
    assert_eq!(row[1], row[2]);
    assert_eq!(found.get(1), None);
    let none = case.rows(PointNo(1), rule("reviewed"), &[], &Bindings::new(), limits).expect("an answer").value;
    assert_eq!((none.len(), none.iter().map(|row| row.iter().len()).sum::<usize>()), (1, 0));
}

#[test]
fn each_refusal_of_a_question_is_given() {
    let case = case();
    let (limits, unbound) = (Limits::default(), Bindings::new());
    let (reviewed, boards) = (rule("reviewed"), rule("boards"));
    let ask = |point, rule, start: &Bindings, limits| case.ask(PointNo(point), rule, start, limits);
    assert_eq!(refusal(ask(2, reviewed, &unbound, limits)), Refusal::NoSuchPoint);
    assert_eq!(refusal(ask(usize::MAX, reviewed, &unbound, limits)), Refusal::NoSuchPoint);
    assert_eq!(refusal(ask(0, RuleNo(u32::MAX), &unbound, limits)), Refusal::NoSuchNode);
    assert_eq!(case.sort(RuleNo(0)), Some(Sort::Term));
    assert_eq!(refusal(ask(0, RuleNo(0), &unbound, limits)), Refusal::NoSuchNode);
    assert_eq!(refusal(case.rows(PointNo(0), boards, &[B], &unbound, limits)), Refusal::NoSuchNode);
    for start in [
        Bindings::new().with(VariableNo(2), Bound::Int(1)),
        Bindings::new().with(VariableNo(u16::MAX), Bound::Int(1)),
        Bindings::new().with(B, Bound::Value(u32::MAX)),
        Bindings::new().with(B, Bound::Part(u32::MAX)),
    ] {
        assert_eq!(refusal(ask(0, reviewed, &start, limits)), Refusal::BadStart);
    }
    for limits in [
        Limits { steps: Limits::MOST_STEPS + 1, room: 0 },
        Limits { steps: u64::MAX, room: 0 },
        Limits { steps: 1, room: Limits::MOST_ROOM + 1 },
        Limits { steps: 1, room: usize::MAX },
    ] {
        assert_eq!(refusal(ask(0, reviewed, &unbound, limits)), Refusal::BadLimits);
        assert_eq!(refusal(case.rows(PointNo(0), reviewed, &[B], &unbound, limits)), Refusal::BadLimits);
    }
    let number = |limits| case.ask(PointNo(1), boards, &unbound, limits);
    let starved = number(Limits { steps: 1, room: 9 }).expect_err("one step is too few");
    assert_eq!((starved.refusal, starved.steps, starved.held), (Refusal::StepsExhausted, 1, 0));
    let cramped = number(Limits { steps: 99, room: 0 }).expect_err("a row is needed");
    assert_eq!((cramped.refusal, cramped.held), (Refusal::RoomExhausted, 0));
    let binders = [B, VariableNo(2)];
    let wrong = case.rows(PointNo(1), reviewed, &binders, &unbound, limits).expect_err("there is no third variable");
    assert_eq!((wrong.refusal, wrong.held), (Refusal::BadOutput, 1));
    assert!(ask(1, reviewed, &unbound, Limits::MOST).expect("the most is allowed").verdict());
}

#[test]
fn an_answer_tells_a_verdict_from_a_number() {
    let case = case();
    let ask = |name: &str| case.ask(PointNo(1), rule(name), &Bindings::new(), Limits::default()).expect("an answer");
    assert_eq!((ask("reviewed").value, ask("boards").value), (Answer::Verdict(true), Answer::Number(1)));
    let read = |reading: fn(Answer) -> i64, name| std::panic::catch_unwind(|| reading(ask(name).value)).ok();
    assert_eq!((read(Answer::number, "boards"), read(Answer::number, "reviewed")), (Some(1), None));
    let verdict = |answer: Answer| i64::from(answer.verdict());
    assert_eq!((read(verdict, "reviewed"), read(verdict, "boards")), (Some(1), None));
}

#[test]
fn an_answer_takes_what_it_says() {
    let case = case();
    let (boards, unbound) = (rule("boards"), Bindings::new());
    let number = |limits| case.ask(PointNo(1), boards, &unbound, limits);
    let answer = number(Limits::default()).expect("an answer");
    let just = Limits { steps: answer.steps, room: answer.held };
    assert_eq!(number(just), Ok(answer));
    let fewer = Limits { steps: answer.steps - 1, ..just };
    assert_eq!(refusal(number(fewer)), Refusal::StepsExhausted);
    let narrower = Limits { room: answer.held - 1, ..just };
    assert_eq!(refusal(number(narrower)), Refusal::RoomExhausted);
}

#[test]
fn refusals_have_numbers_and_words() {
    let words: Vec<String> = Refusal::ALL.iter().map(Refusal::to_string).collect();
    for ((k, refusal), number) in Refusal::ALL.iter().enumerate().zip((1..=15).chain(20..=25)) {
        assert_eq!(refusal.number(), number);
        assert_eq!(words.iter().filter(|other| **other == words[k]).count(), 1);
    }
    let limits = Limits { steps: 1, room: 9 };
    let refused = case().ask(PointNo(1), rule("boards"), &Bindings::new(), limits).expect_err("one step is too few");
    assert_eq!(refused.to_string(), "the answer takes more steps than allowed (1 step spent, at most 0 rows held)");
    assert_eq!(refused.source().map(ToString::to_string), Some(Refusal::StepsExhausted.to_string()));
    let refused = Refused::from(Refusal::NoSuchPoint);
    assert_eq!(refused.to_string(), "the case has no such point");
}

#[test]
fn a_shared_case_answers_each_thread() {
    let case = case();
    let (boards, reviewed, unbound) = (rule("boards"), rule("reviewed"), Bindings::new());
    std::thread::scope(|scope| {
        for thread in 0..4 {
            let (case, unbound) = (&case, &unbound);
            scope.spawn(move || {
                for k in 0..500 {
                    let limits = Limits { steps: 1_000, room: 1 + (7 * k + thread) % 50 };
                    let count = case.ask(PointNo(1), boards, unbound, limits).expect("an answer");
                    assert_eq!((count.number(), count.held), (1, 1));
                    let rows = case.rows(PointNo(1), reviewed, &[B, N], unbound, limits).expect("an answer").value;
                    assert_eq!(rows.get(0).and_then(|row| row.get(1)), Some(Bound::Int(3)));
                }
            });
        }
    });
}

/// 62 nodes one above the other, over a predicate and its term.
#[test]
fn a_rule_of_the_greatest_height_needs_little_stack() {
    let points = "point 1 A logged {n: 1}\n".repeat(2);
    let rule = format!("loose rule tall = {}A(n: x)", "exists x formerly within 1h ".repeat(31));
    let case = Case::from_text(&format!("variables x\n{points}{rule}")).expect("height 64 passes the check");
    let asked = move || case.ask(PointNo(1), case.last_rule()?, &Bindings::new(), Limits::default()).ok();
    let thread = std::thread::Builder::new().stack_size(1 << 20).spawn(asked).expect("a thread");
    assert_eq!(thread.join().expect("no overflow").map(|answer| answer.verdict()), Some(true));
}
