//! JSON logs: events as points, faults with their places, points of a log under rules of a text, and back again.

use std::io::{self, Read};
use std::path::{Path, PathBuf};

use galivodern::{Answer, Bindings, Case, JsonLog, Limits, LogError, LogFault, PointNo, Refusal, Value};

const RULES: &str =
    "rule release_ok = Flash(board: \"b7\") and\n  not Finding(board: \"b7\") since within 1h Review(board: \"b7\")\n";

fn event(time: i64, action: &str, logged: &str) -> String {
    let start = format!("{{\"time\":{time},\"namespace\":[],\"action\":\"{action}\",\"kind\":\"request\"");
    format!("{start},\"logged\":{logged},\"context\":{{}},\"entities\":[]}}")
}

/// A log of a bench: each board is reviewed, now and then something is found, and each is flashed.
fn bench_log(events: usize) -> String {
    let line = |k: usize| {
        let action = ["Review", "Finding", "Flash"][if k % 10 == 1 { 1 } else { k % 3 / 2 * 2 }];
        event(10 * k as i64, action, &format!("{{\"board\":\"b{}\",\"volts\":{k}}}", k % 8))
    };
    (0..events).map(|k| line(k) + "\n").collect()
}

fn fault(log: &[u8]) -> LogFault {
    JsonLog::new(log).expect_err("the log has a fault")
}

/// A fault behind a good line: refusal, line, column, byte of the line.
fn is_refused(line: &str, refusal: Refusal, column: usize, byte: usize) {
    let good = event(1, "A", "{}") + "\r\n";
    let said = fault(format!("{good}{line}\n").as_bytes());
    let place = said.place;
    assert_eq!((said.refusal, place.line, place.column), (refusal, 2, column), "{line}: {said}");
    assert_eq!(place.byte, good.len() + byte, "{line}");
    assert_eq!(said.first.is_some(), refusal == Refusal::RepeatedName, "{line}");
}

#[test]
fn each_refusal_has_its_place() {
    let logged = |value: &str| event(1, "A", &format!("{{\"ä\":{value}}}"));
    let before = event(1, "A", "{\"ä\":").find("\"logged\":").expect("it is there") + "\"logged\":{\"ä\":".len();
    is_refused("", Refusal::NotJson, 1, 0);
    is_refused("{", Refusal::NotJson, 2, 1);
    is_refused(&logged("01"), Refusal::NotJson, before + 1, before + 1);
    is_refused(&logged("\"\\ud800x\""), Refusal::NotJson, before + 1, before + 1);
    is_refused(&logged("1.5"), Refusal::BadNumber, before, before);
    is_refused(&logged("9223372036854775808"), Refusal::BadNumber, before, before);
    is_refused(&logged("{\"__entity\":1}"), Refusal::BadField, before + 12, before + 12);
    is_refused("[]", Refusal::BadField, 1, 0);
    is_refused("{\"when\":1}", Refusal::BadField, 2, 1);
    is_refused("{}", Refusal::BadField, 2, 1);
    is_refused(&logged(&("[".repeat(32) + &"]".repeat(32))), Refusal::TooDeep, before + 31, before + 31);
    let twice = event(1, "A", "{\"ä\":1,\"b\":{},\"\\u00e4\":2}");
    let at = twice.find("\"\\u00e4").expect("it is there");
    is_refused(&twice, Refusal::RepeatedName, at, at);
    let said = fault(twice.as_bytes());
    let first = said.first.expect("the first of both");
    assert_eq!((first.line, first.column, first.byte), (1, before - 4, before - 5));
    assert_eq!(
        said.to_string(),
        format!(
            "1:{at}: the name \"\\u00e4\" stands twice in one object: leave one out (the first is at 1:{})",
            before - 4
        )
    );
}

#[test]
fn bytes_that_are_no_utf8_are_placed() {
    let mut line = event(1, "A", "{\"ä\":\"~").into_bytes();
    let at = line.iter().rposition(|&byte| byte == b'~').expect("it is there");
    line[at] = 0xfc;
    let said = fault(&line);
    assert_eq!((said.refusal, said.place.byte, said.place.column), (Refusal::NotJson, at, at));
    assert!(said.why.starts_with("byte 0xfc is no UTF-8"), "{said}");
}

/// What a user is told of a fault names what is wrong.
#[test]
fn faults_are_explained() {
    let explained = [
        ("", "a blank line"),
        ("\u{feff}{}", "a byte order mark"),
        ("{\"time\":1,}", "a `}` cannot follow a comma"),
        ("{'time':1}", "a single quotation mark"),
        ("{\"time\":NaN}", "no NaN"),
        ("{\"time\":01}", "no 0 before"),
        ("{\"time\":1", "the line ends here"),
        ("{\"kind\":\"a\tb\"}", "write it \\u0009"),
        ("{\"kind\":\"\\udc00\"}", "surrogate"),
        ("{\"tme\":1}", "an event has no field \"tme\"; did you mean `time`?"),
        ("{\"time\":\"1\"}", "time is an integer, the seconds, and this is a string"),
        ("{\"time\":1,\"kind\":\"k\"}", "the event has no namespace, no action, no logged, no context, no entities"),
        ("{\"namespace\":[1]}", "a namespace holds strings, and this is a number"),
        ("{\"entities\":[[\"T\",\"i\"]]}", "an item is missing"),
        ("{\"entities\":[[\"T\",\"i\",{},1]]}", "a fourth item"),
        ("{\"entities\":[{}]}", "an entity is [type, id, {attributes}], and this is an object"),
        ("{\"principal\":{\"__entity\":{\"type\":\"T\"}}}", "{\"__entity\":{\"type\":\"..\",\"id\":\"..\"}}"),
        ("{\"principal\":{\"__extn\":{\"fn\":\"ip\",\"arg\":\"\"}}}", "\"ip\" does not belong here"),
        ("{\"time\":1.50}", "1.50 is no integer"),
        (
            "{\"logged\":{\"__entity\":1}}",
            "logged has fields, and an object with this one member is one of Cedar's forms",
        ),
        ("{\"context\":[]}", "context is an object, and this is an array"),
        ("1", "an event is an object, and this is a number"),
    ];
    for (line, words) in explained {
        let said = fault(format!("{line}\n").as_bytes());
        assert!(said.why.contains(words), "{line}: {said}");
    }
    let twice = format!("{0}{0}", event(1, "A", "{}"));
    assert!(fault(twice.as_bytes()).why.contains("one event stands on a line"));
}

#[test]
fn lines_may_end_as_they_like() {
    let (one, two) = (event(1, "A", "{}"), event(2, "B", "{}"));
    for log in [
        format!("{one}\n{two}\n"),
        format!("{one}\n{two}"),
        format!("{one}\r\n{two}\r\n"),
        format!(" {one} \n\t{two}\r"),
    ] {
        let case = JsonLog::new(log.as_bytes()).expect("it is sound").case().expect("it fits");
        let points: Vec<(i64, &str)> = case.points().map(|point| (point.time(), point.action())).collect();
        assert_eq!(points, [(1, "A"), (2, "B")], "{log:?}");
    }
    let empty = JsonLog::new(b"").expect("an empty log has no events");
    assert_eq!((empty.events(), empty.case().expect("a case of nothing").contents().points), (0, 0));
    assert_eq!(fault(format!("{one}\n\n{two}\n").as_bytes()).place.line, 2);
    assert_eq!(fault(format!("{one}\n{two}\n\n").as_bytes()).place.line, 3);
}

#[test]
fn values_are_read_as_they_are_written() {
    let logged = r#"{"z":{"__extn":{"fn":"decimal","arg":"1.50"}},"a":{"__entity":{"id":"i\n","type":"T"}},"n":-9223372036854775808,"s":"\ud83d\ude00","list":[null,true,{"__entity":1,"b":2}]}"#;
    let case = JsonLog::new(event(1, "A", logged).as_bytes()).expect("it is sound").case().expect("it fits");
    let point = case.points().next().expect("there is one");
    assert_eq!(point.field("z"), Some(Value::Decimal("1.50")));
    assert_eq!(point.field("n"), Some(Value::Int(i64::MIN)));
    assert_eq!(point.field("s"), Some(Value::String("😀")));
    let lines = case.json_lines().expect("it can be written");
    let sorted = r#""logged":{"a":{"__entity":{"type":"T","id":"i\u000a"}},"list":[null,true,{"__entity":1,"b":2}],"n":-9223372036854775808,"s":"😀","z":{"__extn":{"fn":"decimal","arg":"1.50"}}}"#;
    assert!(lines.contains(sorted), "{lines}");
}

#[test]
fn a_log_of_a_bench_is_asked_with_a_rule_of_two_lines() {
    let log = bench_log(1_000);
    let case = Case::from_json_lines(RULES, log.as_bytes()).expect("it fits");
    let release_ok = case.rule("release_ok").expect("it is named so");
    assert_eq!(case.contents().points, 1_000);
    let verdicts = (0..1_000).map(|point| {
        case.ask(PointNo(point), release_ok, &Bindings::new(), Limits::default()).expect("it is answered").verdict()
    });
    let by_hand = |point: usize| {
        let is = |k: usize, action: &str| {
            let line = log.lines().nth(k).expect("a line");
            line.contains(&format!("\"{action}\"")) && line.contains("\"b7\"")
        };
        let review = (0..=point).rev().find(|&k| is(k, "Review") && point - k <= 360);
        is(point, "Flash") && review.is_some_and(|review| (review + 1..=point).all(|k| !is(k, "Finding")))
    };
    let verdicts: Vec<bool> = verdicts.collect();
    assert!(verdicts.contains(&true) && verdicts.contains(&false));
    assert_eq!(verdicts, (0..1_000).map(by_hand).collect::<Vec<_>>());
}

#[test]
fn rules_with_points_of_their_own_are_refused() {
    let text = format!("{RULES}point 5 Flash\npoint 6 Flash\n");
    match Case::from_json_lines(&text, event(1, "A", "{}").as_bytes()) {
        Err(LogError::Rules(fault)) => assert_eq!((fault.line, fault.column), (3, 1), "{fault}"),
        other => panic!("{other:?}"),
    }
    match Case::from_json_lines("rule r = Flash(", event(1, "A", "{}").as_bytes()) {
        Err(LogError::Rules(fault)) => assert_eq!(fault.line, 1, "{fault}"),
        other => panic!("{other:?}"),
    }
}

/// What the error says; the writer's number.
fn refused(said: Result<Case, LogError>) -> (Refusal, Option<usize>, String) {
    match said {
        Err(LogError::Refused { refusal, line, why }) => (refusal, line, why.expect("it was found")),
        other => panic!("{other:?}"),
    }
}

#[test]
fn what_does_not_fit_is_told_in_events() {
    let lines = |events: usize, logged: &dyn Fn(usize) -> String| -> String {
        (0..events).map(|k| event(k as i64, "A", &logged(k)) + "\n").collect()
    };
    // Logged and context of each event are a value each.
    let many = lines(8_193, &|_| "{}".to_string());
    let (refusal, line, why) = refused(JsonLog::new(many.as_bytes()).expect("it is sound").case());
    assert_eq!((refusal, line), (Refusal::TooLarge, None));
    assert_eq!(why, "the log has 8,193 events; 8,192 fit: a case holds 16,384 values, and one more would make 16,386");
    let most = &many[..many.trim_end().rfind('\n').expect("two lines") + 1];
    assert_eq!(JsonLog::new(most.as_bytes()).expect("it is sound").case().expect("it fits").contents().values, 16_384);
    // A literal of the rules takes a value, too.
    let (_, _, why) = refused(Case::from_json_lines("rule r = A(b: 7)", most.as_bytes()));
    assert!(why.starts_with("the log has 8,192 events; 8,191 fit"), "{why}");
    let (_, _, why) =
        refused(Case::from_json_lines("", lines(5_000, &|k| format!("{{\"a\":{k},\"b\":1}}")).as_bytes()));
    assert!(why.starts_with("the log has 5,000 events; 4,096 fit: a case holds 16,384 values"), "{why}");
    let strings = lines(3, &|k| {
        let names: Vec<String> = (0..6_000).map(|n| format!("\"{k}-{n}\":\"{k}+{n}\"")).collect();
        format!("{{{}}}", names.join(","))
    });
    let (_, _, why) = refused(Case::from_json_lines("", strings.as_bytes()));
    assert!(
        why.contains("3 events; 1 fit: a case holds 16,384 different strings, and one more would make 24,0"),
        "{why}"
    );
    let long = lines(5, &|k| format!("{{\"s\":\"{}\"}}", k.to_string().repeat(1_000_000)));
    let (_, _, why) = refused(Case::from_json_lines("", long.as_bytes()));
    assert!(why.contains("5 events; 4 fit: a case holds 4,194,304 bytes"), "{why}");
}

#[test]
fn an_entity_that_stands_twice_is_told_with_its_line() {
    let entities =
        |entities: &str| event(1, "A", "{}").replace("\"entities\":[]", &format!("\"entities\":[{entities}]"));
    let log = |line: String| format!("{}\n{line}\n", event(1, "A", "{}"));
    let twice = log(entities(r#"["T","i",{}],["U","i",{}],["T","i",{"a":1}]"#));
    let (refusal, line, why) = refused(Case::from_json_lines("", twice.as_bytes()));
    assert_eq!(
        (refusal, line, why.as_str()),
        (Refusal::BadPoints, Some(2), "the entity T::\"i\" stands here twice: leave one out")
    );
    let quoted = log(entities(r#"["T\"","i",{}]"#));
    let (refusal, line, _) = refused(Case::from_json_lines("", quoted.as_bytes()));
    assert_eq!((refusal, line), (Refusal::BadPoints, Some(2)));
    let sorted = log(entities(r#"["U","i",{}],["T","j",{}],["T","i",{"a":1}]"#));
    let case = Case::from_json_lines("", sorted.as_bytes()).expect("the import sorts them");
    assert!(case.json_lines().expect("it can be written").contains(r#"[["T","i",{"a":1}],["T","j",{}],["U","i",{}]]"#));
}

struct Broken;

impl Read for Broken {
    fn read(&mut self, _: &mut [u8]) -> io::Result<usize> {
        Err(io::Error::other("the bench is off"))
    }
}

#[test]
fn a_reader_that_fails_is_told() {
    let said = Case::from_json_lines("", Broken).expect_err("it cannot be read");
    assert!(matches!(said, LogError::Unread(_)));
    assert_eq!(said.to_string(), "the log cannot be read: the bench is off");
}

#[test]
fn an_object_that_looks_like_a_form_is_not_written() {
    let text = "point 1 A logged {a: [{\"__extn\": 1}]}\n";
    let case = Case::from_text(text).expect("it packs");
    assert_eq!(case.json_lines().unwrap_err(), Refusal::AmbiguousObject);
    let other = Case::from_text("point 1 A logged {a: [{\"__extn\": 1, b: 2}]}\n").expect("it packs");
    let again = JsonLog::read(other.json_lines().expect("it can be written").as_bytes()).expect("it is sound");
    assert_eq!(again.case().expect("it fits").json_lines(), other.json_lines());
}

/// Shared values are written for each place, so a small case may have a text without end.
#[test]
fn a_text_that_is_too_long_is_refused() {
    let mut text = "value v0 = [1, 2]\n".to_string();
    (1..30).for_each(|k| text.push_str(&format!("value v{k} = [@v{0}, @v{0}]\n", k - 1)));
    let deep = format!("{text}point 1 A logged {{a: @v29}}\n");
    assert_eq!(Case::from_text(&deep).expect("it packs").json_lines().unwrap_err(), Refusal::OutputTooShort);
    let shallow = format!("{text}point 1 A logged {{a: @v12}}\n");
    // [1,2] has 5 bytes, and each level twice as many and 3.
    let long = event(1, "A", "{\"a\":}").len() + (5 + 3) * (1 << 12) - 3 + 1;
    assert_eq!(Case::from_text(&shallow).expect("it packs").json_lines().expect("it fits").len(), long);
}

fn examples() -> Vec<(PathBuf, String)> {
    let folder = Path::new(env!("CARGO_MANIFEST_DIR")).join("../../examples");
    let files = std::fs::read_dir(&folder).expect("the examples are there").flatten().map(|entry| entry.path());
    let files = files.filter(|path| path.extension().is_some_and(|extension| extension == "case"));
    files.map(|path| (path.clone(), std::fs::read_to_string(&path).expect("a text"))).collect()
}

/// The text without its points: a point goes on in indented lines.
fn without_points(text: &str) -> String {
    let mut inside = false;
    let kept = text.lines().filter(|line| {
        inside = line.starts_with("point ") || inside && line.starts_with([' ', '\t']);
        !inside
    });
    kept.map(|line| format!("{line}\n")).collect()
}

fn answers(case: &Case) -> Vec<Result<(Answer, u64, usize), u8>> {
    let rules: Vec<_> = case.rules().map(|(_, rule)| rule).collect();
    let asked = (0..case.contents().points).flat_map(|point| rules.iter().map(move |&rule| (point, rule)));
    let answer = |(point, rule)| match case.ask(PointNo(point), rule, &Bindings::new(), Limits::default()) {
        Ok(answer) => Ok((answer.value, answer.steps, answer.held)),
        Err(refused) => Err(refused.refusal.number()),
    };
    asked.map(answer).collect()
}

#[test]
fn an_example_answers_the_same_with_its_points_from_a_log() {
    let mut asked = 0;
    for (path, text) in examples() {
        let case = Case::from_text(&text).unwrap_or_else(|fault| panic!("{path:?}: {fault}"));
        if case.contents().points == 0 {
            continue;
        }
        let lines = case.json_lines().unwrap_or_else(|refusal| panic!("{path:?}: {refusal}"));
        assert_eq!(lines.lines().count(), case.contents().points, "{path:?}");
        let again = Case::from_json_lines(&without_points(&text), lines.as_bytes());
        let again = again.unwrap_or_else(|error| panic!("{path:?}: {error}"));
        assert_eq!(again.json_lines().as_deref(), Ok(lines.as_str()), "{path:?}: the points are others");
        assert_eq!(answers(&again), answers(&case), "{path:?}");
        asked += answers(&case).len();
    }
    assert!(asked > 200, "{asked} questions");
}
