//! Cases made by method calls: what they hold, what they answer, and what is said where one cannot be made.

use casefile::text::{pack, unpack};
use casefile::Tables;
use galivodern::{
    ArithmeticOp, Bindings, Bound, BuildError, Case, CaseBuilder, CompareOp, ConditionId, Limits, NewPoint, PointNo,
    Predicate, Refusal, VariableNo, Within,
};

/// Everything that a case can have, once.
const EVERYTHING: &str = r#"
variables x y
point 100 Motor::Line::Review logged {board: "b1", n: 3, tags: ["a", null, true]} context {k: decimal "1.50"} principal T::"p" resource 7 entity T::"p" {level: 2} entity T::"a" {}
point -5 Flash/response
loose rule asked = (Motor::Line::Review(board: "b1", n: x, tags: *) and (Flash/response() or not tp y)) since within 20m (formerly within 1h Flash/response())
loose rule compared = previous within 2d (exists x (x == context.k and principal.level <= 2 + y * 3))
loose rule counted = (count for x, y where Flash(n: x)) > (sum x for x where Flash(n: x)) - 1 or resource != principal
"#;

/// The bench of document 01, its strings and boards in another order.
fn bench() -> (CaseBuilder, Vec<ConditionId>) {
    let mut builder = CaseBuilder::new();
    for (time, action, board, n) in
        [(100, "Review", "b1", 3), (110, "Flash", "b1", 4), (105, "Review", "b2", 3), (120, "Flash", "b2", 7)]
    {
        let (n, board) = (builder.int(n), builder.text(board));
        let logged = builder.object(&[("n", n), ("board", board)]);
        builder.point(NewPoint::at(time, action).logged(logged));
    }
    let b1 = builder.text("b1");
    let b1 = builder.literal(b1);
    let review = builder.predicate(Predicate::of("Review").argument(&["board"], b1));
    let never = builder.not(review);
    let rules = vec![
        builder.formerly(Within::hours(1), review),
        builder.since(never, review, Within::seconds(20)),
        builder.since(never, review, Within::seconds(19)),
    ];
    (builder, rules)
}

#[test]
fn the_bench_answers_as_document_01_says() {
    let (builder, rules) = bench();
    let case = builder.build().expect("it is built");
    let ask = |point: usize, rule: ConditionId| {
        let answer = case.ask(PointNo(point), rule.into(), &Bindings::new(), Limits::default()).expect("an answer");
        (answer.verdict(), answer.steps)
    };
    let sample: Vec<(bool, u64)> = (0..4).map(|point| ask(point, rules[0])).collect();
    assert_eq!(sample, [(true, 2), (true, 3), (true, 3), (true, 5)]);
    assert!(ask(3, rules[1]).0 && !ask(3, rules[2]).0);
}

/// A condition on an event that has the variable as its field `n`.
fn flash(builder: &mut CaseBuilder, variable: &str) -> ConditionId {
    let variable = builder.variable(variable);
    let term = builder.value_of(variable);
    builder.predicate(Predicate::of("Flash").argument(&["n"], term))
}

#[test]
fn every_construct_is_the_one_of_the_text() {
    let built = everything().build().unwrap_or_else(|error| panic!("{error}"));
    let packed = pack(EVERYTHING).unwrap_or_else(|fault| panic!("{fault}"));
    let as_text = |tables: &Tables| unpack(tables).expect("a sound case has a text");
    let tables = Tables::decode(built.bytes()).expect("a sound case can be read");
    assert_eq!(as_text(&tables), as_text(&packed.tables));
    assert!(["asked", "compared", "counted"].iter().all(|name| built.rule(name).is_some()));
    assert_eq!(built.variable("y"), Some(VariableNo(1)));
}

fn everything() -> CaseBuilder {
    let mut builder = CaseBuilder::new();
    let (x, y) = (builder.variable("x"), builder.variable("y"));
    let (b1, three, a) = (builder.text("b1"), builder.int(3), builder.text("a"));
    let (null, yes) = (builder.null(), builder.bool(true));
    let tags = builder.array(&[a, null, yes]);
    let logged = builder.object(&[("tags", tags), ("n", three), ("board", b1)]);
    let price = builder.decimal("1.50");
    let context = builder.object(&[("k", price)]);
    let (principal, resource, two) = (builder.entity("T", "p"), builder.int(7), builder.int(2));
    let (level, none) = (builder.object(&[("level", two)]), builder.object(&[]));
    let review = NewPoint::at(100, "Review").namespace(&["Motor", "Line"]).logged(logged).context(context);
    let review = review.principal(principal).resource(resource);
    builder.point(review.entity("T", "p", level).entity("T", "a", none));
    builder.point(NewPoint::at(-5, "Flash").kind("response"));

    let board = builder.literal(b1);
    let (any_x, any) = (builder.value_of(x), builder.wildcard());
    let review = Predicate::of("Review").namespace(&["Motor", "Line"]).argument(&["board"], board);
    let review = builder.predicate(review.argument(&["n"], any_x).argument(&["tags"], any));
    let response = builder.predicate(Predicate::of("Flash").kind("response"));
    let tp = builder.tp(y);
    let not_here = builder.not(tp);
    let either = builder.or(response, not_here);
    let left = builder.and(review, either);
    let again = builder.predicate(Predicate::of("Flash").kind("response"));
    let right = builder.formerly(Within::hours(1), again);
    let asked = builder.since(left, right, Within::minutes(20));
    builder.rule("asked", asked);

    let (this, k) = (builder.value_of(x), builder.context(&["k"]));
    let equal = builder.compare(this, CompareOp::Eq, k);
    let (level, two, three) = (builder.principal(&["level"]), builder.int(2), builder.int(3));
    let (two, y_term, three) = (builder.literal(two), builder.value_of(y), builder.literal(three));
    let times = builder.arithmetic(y_term, ArithmeticOp::Multiply, three);
    let sum = builder.arithmetic(two, ArithmeticOp::Add, times);
    let below = builder.compare(level, CompareOp::Le, sum);
    let both = builder.and(equal, below);
    let exists = builder.exists(x, both);
    let compared = builder.previous(Within::days(2), exists);
    builder.rule("compared", compared);

    let body = flash(&mut builder, "x");
    let count = builder.count(&[x, y], body);
    let count = builder.number_of(count);
    let body = flash(&mut builder, "x");
    let sum = builder.sum(x, &[x], body);
    let sum = builder.number_of(sum);
    let one = builder.int(1);
    let one = builder.literal(one);
    let less = builder.arithmetic(sum, ArithmeticOp::Subtract, one);
    let more = builder.compare(count, CompareOp::Gt, less);
    let (resource, principal) = (builder.resource(&[]), builder.principal(&[]));
    let unlike = builder.compare(resource, CompareOp::NotEq, principal);
    let counted = builder.or(more, unlike);
    builder.rule("counted", counted);
    builder
}

#[test]
fn what_a_rule_leaves_unbound_must_be_bound() {
    let mut builder = CaseBuilder::new();
    let seven = builder.int(7);
    let logged = builder.object(&[("n", seven)]);
    let point = builder.point(NewPoint::at(0, "Flash").logged(logged));
    let body = flash(&mut builder, "x");
    let flashed = builder.rule("flashed", body);
    let x = builder.variable("x").into();
    let sum = {
        let x = builder.variable("x");
        let body = flash(&mut builder, "x");
        builder.sum(x, &[x], body)
    };
    let total = builder.number_rule("total", sum);
    let case = builder.build().expect("it is built");
    assert_eq!(case.parameters(flashed), [x]);
    let refused = case.ask(point, flashed, &Bindings::new(), Limits::default()).expect_err("x is unbound");
    assert_eq!(refused.refusal, Refusal::BadStart);
    let bound = Bindings::new().with(x, Bound::Int(7));
    assert!(case.ask(point, flashed, &bound, Limits::default()).expect("an answer").verdict());
    assert_eq!(case.ask(point, total, &Bindings::new(), Limits::default()).expect("an answer").number(), 7);
}

fn refused(fill: impl FnOnce(&mut CaseBuilder)) -> BuildError {
    let mut builder = CaseBuilder::new();
    fill(&mut builder);
    builder.build().expect_err("it cannot be built")
}

#[test]
fn what_is_wrong_is_said() {
    let twice = refused(|builder| {
        let one = builder.int(1);
        builder.object(&[("b", one), ("a", one), ("b", one)]);
    });
    assert_eq!(twice.to_string(), "an object has the name \"b\" twice");
    let entity = refused(|builder| {
        let none = builder.object(&[]);
        builder.point(NewPoint::at(0, "A").entity("T", "i", none).entity("T", "i", none));
    });
    assert_eq!(entity, BuildError::RepeatedEntity { ty: "T".to_string(), id: "i".to_string() });
    let foreign = refused(|builder| {
        let other = CaseBuilder::new().int(1);
        builder.array(&[other]);
    });
    assert_eq!(foreign, BuildError::Foreign);
    let empty = refused(|builder| {
        builder.context(&[]);
    });
    assert_eq!(empty, BuildError::EmptyPath);
    let dotted = refused(|builder| {
        builder.principal(&["a.b"]);
    });
    assert_eq!(dotted, BuildError::DottedPath { name: "a.b".to_string() });
    let named = refused(|builder| {
        let body = flash(builder, "x");
        builder.rule("r", body);
        builder.rule("r", body);
    });
    assert_eq!(named, BuildError::RepeatedRule { name: "r".to_string() });
}

#[test]
fn what_the_writer_refuses_is_explained() {
    let says = |error: BuildError, refusal: Refusal, words: &str| {
        let BuildError::Refused { refusal: said, why } = &error else { panic!("{error:?}") };
        assert_eq!((*said, why.as_deref()), (refusal, Some(words)), "{error}");
        assert!(error.to_string().ends_with(words), "{error}");
    };
    let many = refused(|builder| {
        (0..17).for_each(|k| _ = builder.variable(&format!("v{k}")));
    });
    says(many, Refusal::TooLarge, "17 variables, and at most 16 are allowed");
    let strings = refused(|builder| {
        (0..16_385).for_each(|k| _ = builder.text(&k.to_string()));
    });
    says(strings, Refusal::TooLarge, "16385 strings, and at most 16384 are allowed");
    let deep = refused(|builder| {
        let mut value = builder.int(1);
        (0..32).for_each(|_| value = builder.array(&[value]));
    });
    says(deep, Refusal::BadValues, "value 32 is more than 32 deep");
    let high = refused(|builder| {
        let mut condition = flash(builder, "x");
        (0..63).for_each(|_| condition = builder.not(condition));
    });
    says(high, Refusal::BadNodes, "a condition is more than 64 high");
    let literal = refused(|builder| {
        let null = builder.null();
        let array = builder.array(&[null]);
        builder.literal(array);
    });
    says(literal, Refusal::BadNodes, "a literal holds Null or an object");
    let quoted = refused(|builder| {
        let none = builder.object(&[]);
        builder.point(NewPoint::at(0, "A").entity("q\"", "i", none));
    });
    says(quoted, Refusal::BadPoints, "the type of an entity of point 0 holds a quotation mark: q\"");
}

#[test]
fn a_builder_without_anything_gives_a_case() {
    let case = CaseBuilder::default().build().expect("contents alone are a case");
    assert_eq!(case.bytes(), Case::from_text("").expect("an empty text is a case").bytes());
}
