//! The examples of document 01, and the files that break each rule of the check, through the crate.

use galivodern::{Answer, Bindings, Bound, Case, Limits, PointNo, Refusal, RuleNo, VariableNo};
use generate::examples::{examples, Example};
use generate::rules::rule_files;

/// The starting cells as bindings: the examples bind integers only.
fn bindings(start: &[u64]) -> Bindings {
    start.chunks(2).enumerate().fold(Bindings::new(), |bindings, (variable, cells)| match cells {
        [1, bits] => bindings.with(VariableNo(variable as u16), Bound::Int(*bits as i64)),
        _ => bindings,
    })
}

fn bits(answer: Answer) -> u64 {
    match answer {
        Answer::Verdict(yes) => u64::from(yes),
        Answer::Number(number) => number as u64,
    }
}

/// Refusal or 0, answer's bits, steps and rows held.
fn ask(case: &Case, example: &Example) -> (u8, u64, (u64, u64)) {
    let call = &example.call;
    let (point, rule, bindings) = (PointNo(call.point as usize), RuleNo(call.node), bindings(&call.start));
    let limits = Limits { steps: call.limit, room: call.room as usize };
    match case.ask(point, rule, &bindings, limits) {
        Ok(answer) => (0, bits(answer.value), (answer.steps, answer.held as u64)),
        Err(refused) => (refused.refusal.number(), 0, (refused.steps, refused.held as u64)),
    }
}

#[test]
fn examples_are_answered_as_expected() {
    let examples = examples().expect("the examples can be read");
    assert!(examples.expected.len() >= 28);
    for example in &examples.expected {
        let case = Case::new(examples.cases[&example.file].tables.encode()).expect("an example passes the check");
        let (refusal, answer, numbers) = ask(&case, example);
        let expected = example.numbers.unwrap_or(numbers);
        assert_eq!(
            (u32::from(refusal), answer, numbers),
            (example.refusal, example.answer, expected),
            "{}",
            example.line
        );
    }
}

#[test]
fn each_broken_rule_is_refused_by_its_number() {
    let files = rule_files();
    assert!(files.len() > 400);
    for file in files {
        let said = Case::new(file.bytes).err().map_or(0, Refusal::number);
        assert_eq!(u32::from(said), file.expected, "{}", file.rule);
    }
}
