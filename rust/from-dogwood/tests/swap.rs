//! The same program with Dogwood's evaluator and with the proved code, and random questions put to both.

use std::collections::BTreeMap;

use dogwood::error::Span;
use dogwood::extension::temporal::ast::{
    AggExpr, AggExprKind, BinderSlot, CmpOp, Condition, ConditionKind, Interval, NamedArg, Predicate, Term, TimeUnit,
    Type, TypedBinder, WithinSpec,
};
use dogwood::interpreter::value::{Event, Trace, Value};
use dogwood::interpreter::{counted, eval};
use dogwood::visits;
use from_dogwood::{Conversion, Error};
use galivodern::{Refusal, VariableNo};
use generate::calls::random_call;
use generate::cases::random_case;
use generate::{Call, Profile, Random};
use judge::convert::{variable_name, Converter};
use judge::rust::RustCase;

type Env = BTreeMap<String, Value>;

fn condition(kind: ConditionKind) -> Condition {
    Condition { span: Span, kind }
}

fn predicate(action: &str, args: Vec<(&str, Term)>) -> Box<Condition> {
    let args = args.into_iter().map(|(name, value)| NamedArg { name: name.to_string(), value }).collect();
    let (namespace, action, kind) = (Vec::new(), action.to_string(), "request".to_string());
    Box::new(condition(ConditionKind::Predicate(Predicate { span: Span, namespace, action, kind, args })))
}

fn context(name: &str) -> Term {
    Term::ContextField(vec![name.to_string()])
}

fn hour() -> WithinSpec {
    WithinSpec::Concrete(Interval { amount: 1, unit: TimeUnit::Hours })
}

fn event(time: i64, action: &str, board: &str) -> Event {
    let board = || Value::String(board.to_string());
    let built = Event::builder(action, "request").timestamp(time).logged_field("board", board());
    built.request_context_field("board", board()).principal_for("User", "o\"hara").build()
}

fn trace() -> Trace {
    let points = vec![
        event(0, "Review", "b1"),
        event(600, "Finding", "b2"),
        event(1_200, "Build", "b1"),
        event(1_800, "Finding", "b1"),
        event(2_400, "Build", "b1"),
        event(2_401, "Review", "b1"),
        event(6_001, "Build", "b1"),
        event(6_002, "Build", "b1"),
    ];
    Trace { points }
}

/// A review of this board within the hour, and no finding since.
fn headline() -> Condition {
    let inner = predicate("Finding", vec![("board", context("board"))]);
    let left = Box::new(condition(ConditionKind::Not { inner }));
    let right = predicate("Review", vec![("board", context("board"))]);
    condition(ConditionKind::Since { left, within: hour(), right })
}

/// A program of the maintainer's: the verdict at each build. Only what it is given to ask differs.
fn gates(eval_condition: impl Fn(&Trace, usize, &Env, &Condition) -> bool) -> Vec<(i64, bool)> {
    let (trace, rule) = (trace(), headline());
    let mut gates = Vec::new();
    for i in 0..trace.len() {
        if trace.event(i).action == "Build" {
            let env = eval::request_env(&trace, i);
            gates.push((trace.ts(i), eval_condition(&trace, i, &env, &rule)));
        }
    }
    gates
}

#[test]
fn a_program_swaps_one_call() {
    let before = gates(eval::eval_condition);
    let after =
        gates(|trace, i, env, condition| from_dogwood::eval_condition(trace, i, env, condition).expect("a verdict"));
    assert_eq!(before, after);
    assert_eq!(after, [(1_200, true), (2_400, false), (6_001, true), (6_002, false)]);
}

#[test]
fn a_number_swaps_one_call() {
    let slot = || BinderSlot::Name("b".to_string());
    let for_vars = vec![TypedBinder { slot: slot(), ty: Type::Timepoint }];
    let body = predicate("Finding", vec![("board", Term::Var("b".to_string()))]);
    let body = Box::new(condition(ConditionKind::Formerly { within: hour(), body }));
    let count = AggExpr { span: Span, kind: AggExprKind::Count { for_vars, body } };
    let trace = trace();
    for i in 0..trace.len() {
        let env = eval::request_env(&trace, i);
        let theirs = eval::eval_agg_expr(&trace, i, &env, &count);
        assert_eq!(from_dogwood::eval_agg_expr(&trace, i, &env, &count), Ok(theirs));
    }
    let mut conversion = Conversion::up_to(&trace, 0).expect("a trace");
    conversion.aggregate(&count).expect("a number");
    assert_eq!(conversion.variable("b"), Some(VariableNo(0)));
    assert_eq!(conversion.variable("c"), None);
}

/// More visits than this, and a question is left out: the Rust has no limit of its own.
const MOST_VISITS: u64 = 20_000;

/// What the Rust says and what the proved code says; None where the Rust makes too many visits.
fn both(converter: &Converter, trace: &Trace, env: &Env, call: &Call) -> Option<(i64, Result<i64, Error>)> {
    let i = call.point as usize;
    if converter.tables.nodes[call.node as usize][0] >= 30 {
        let aggregate = converter.aggregate(call.node);
        let (theirs, _) = visits::counted(MOST_VISITS, || counted::eval_agg_expr(trace, i, env, &aggregate))?;
        return Some((theirs, from_dogwood::eval_agg_expr(trace, i, env, &aggregate)));
    }
    let rule = converter.condition(call.node);
    let (theirs, _) = visits::counted(MOST_VISITS, || counted::eval_condition(trace, i, env, &rule))?;
    Some((i64::from(theirs), from_dogwood::eval_condition(trace, i, env, &rule).map(i64::from)))
}

#[test]
fn random_questions_are_answered_alike() {
    let mut random = Random::new(22);
    let (mut answered, mut too_large) = (0, 0);
    while answered < 2_000 {
        let profile = random.pick(&[Profile::SMALL, Profile::USUAL, Profile::DOTS]);
        let case = random_case(&mut random, profile);
        let converter = Converter { tables: &case.tables };
        let (trace, rust) = (converter.trace(), RustCase::new(&case.tables));
        for _ in 0..8 {
            let call = random_call(&mut random, &case, MOST_VISITS, 256);
            let mut env = eval::request_env(&trace, call.point as usize);
            for (variable, cells) in call.start.chunks(2).enumerate() {
                env.extend(rust.cell_value(cells).map(|value| (variable_name(variable as u32), value)));
            }
            match both(&converter, &trace, &env, &call) {
                None => {}
                // what a case shares is written out in Dogwood's tree, and may then be too much for one
                Some((_, Err(Error::Case(Refusal::TooLarge)))) => too_large += 1,
                Some((theirs, ours)) => {
                    assert_eq!(ours, Ok(theirs), "{call:?}");
                    answered += 1;
                }
            }
        }
    }
    assert!(too_large < answered / 10, "{too_large} were too large");
}

fn error(rule: &Condition, trace: &Trace) -> Error {
    let last = trace.len() - 1;
    from_dogwood::eval_condition(trace, last, &eval::request_env(trace, last), rule).expect_err("no case holds it")
}

fn equal(left: Term) -> Condition {
    condition(ConditionKind::Comparison { op: CmpOp::Eq, left, right: Term::Integer(1) })
}

#[test]
fn what_a_case_cannot_hold_is_an_error() {
    let trace = trace();
    let array = Term::Array(vec![Term::Integer(1), Term::Var("x".to_string())]);
    assert_eq!(error(&equal(array), &trace), Error::ArrayTerm);
    assert_eq!(error(&equal(Term::ParamRef("p".to_string())), &trace), Error::Unexpanded);
    let sigil = ConditionKind::Tp { var: BinderSlot::BinderRef("t".to_string()) };
    assert_eq!(error(&condition(sigil), &trace), Error::Unexpanded);
    let root = Term::ScopeField(vec!["action".to_string(), "id".to_string()]);
    assert_eq!(error(&equal(root), &trace), Error::NoSuchRoot("action".to_string()));
    let name = "context.board".to_string();
    assert_eq!(error(&equal(Term::Var(name.clone())), &trace), Error::VariableName(name));
    let arguments: Vec<String> = (0..17).map(|k| format!("x{k}")).collect();
    let arguments = arguments.iter().map(|name| (name.as_str(), Term::Var(name.clone()))).collect();
    assert_eq!(error(&predicate("A", arguments), &trace), Error::TooManyVariables);

    let quoted = Event::builder("A", "request").principal_for("U\"", "ann").build();
    let said = error(&equal(context("a")), &Trace { points: vec![quoted] });
    assert_eq!(said, Error::EntityType("U\"".to_string()));
}

/// What is written last under a key stands, however the rule's path is cut into names.
#[test]
fn names_with_dots_are_answered_alike() {
    let nested = Value::Object([("b".to_string(), Value::Int(2))].into());
    let event = Event::builder("A", "request").request_context_field("a", nested);
    let trace = Trace { points: vec![event.request_context_field("a.b", Value::Int(1)).build()] };
    let env = eval::request_env(&trace, 0);
    for (path, yes) in [(&["a.b"][..], true), (&["a", "b"], true), (&["a"], false), (&["b"], false), (&[""], false)] {
        let rule = equal(Term::ContextField(path.iter().map(|name| name.to_string()).collect()));
        assert_eq!(eval::eval_condition(&trace, 0, &env, &rule), yes, "{path:?}");
        assert_eq!(from_dogwood::eval_condition(&trace, 0, &env, &rule), Ok(yes), "{path:?}");
    }
}

#[test]
fn an_environment_is_the_one_of_its_point() {
    let (trace, rule) = (trace(), headline());
    let ask = |i, env: &Env| from_dogwood::eval_condition(&trace, i, env, &rule);
    let beyond = trace.len();
    assert_eq!(ask(beyond, &Env::new()), Err(Error::NoSuchPoint(beyond)));
    assert_eq!(ask(2, &Env::new()), Err(Error::OtherEnvironment));
    assert_eq!(ask(2, &eval::request_env(&trace, 1)), Err(Error::OtherEnvironment));
    let mut more = eval::request_env(&trace, 2);
    more.insert("context.line".to_string(), Value::Null);
    assert_eq!(ask(2, &more), Err(Error::OtherEnvironment));
    assert_eq!(ask(2, &eval::request_env(&trace, 2)), Ok(true));
}
