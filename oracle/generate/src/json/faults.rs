//! Lines with one fault, whose refusal and place are known from the making.

use model::json::{Event, Refused};
use model::MOST_DEPTH;

use super::events::{random_event, Manner};
use super::marked;
use super::spelling::{Site, Spelling, What};
use crate::random::Random;

/// A line, and what it is refused with.
pub struct Foretold {
    pub line: Vec<u8>,
    pub refused: Refused,
}

/// Values with a fault that tells itself before the value's end or right behind it.
const BAD: [(u32, &str); 47] = [
    (22, "@1.5"),
    (22, "@-0.0"),
    (22, "@1e2"),
    (22, "@1E+400"),
    (22, "@0e0"),
    (22, "@9223372036854775808"),
    (22, "@-9223372036854775809"),
    (22, "@18446744073709551617"),
    (22, "@1.5x"),
    (20, "0@1"),
    (20, "-0@1"),
    (20, "-@x"),
    (20, "@+1"),
    (20, "@.5"),
    (20, "1.@x"),
    (20, "1e@x"),
    (20, "1e-@x"),
    (20, "1@x"),
    (20, "tru@x"),
    (20, "nul@x"),
    (20, "fals@x"),
    (20, "@NaN"),
    (20, "@Infinity"),
    (20, "-@Infinity"),
    (20, "@'a'"),
    (20, "\"@<01>\""),
    (20, "\"a@<1F>\""),
    (20, "\"@<5C>uD800x\""),
    (20, "\"@<5C>uDC00\""),
    (20, "\"a@<5C>ud800<5C>ud800\""),
    (20, "\"@<5C>uDBFF<5C>u0041\""),
    (20, "\"<5C>@q\""),
    (20, "\"<5C>u12@G4\""),
    (20, "\"@<C0><80>\""),
    (20, "\"@<C1><BF>\""),
    (20, "\"<E0>@<80><80>\""),
    (20, "\"<ED>@<A0><80>\""),
    (20, "\"<F0>@<80><80><80>\""),
    (20, "\"<F4>@<90><80><80>\""),
    (20, "\"@<F5><80><80><80>\""),
    (20, "\"@<80>\""),
    (20, "\"<C3>@\""),
    (20, "\"<E2><82>@(\""),
    (20, "[@,]"),
    (20, "{@,}"),
    (20, "{@a:1}"),
    (20, "{\"a\"@1}"),
];

/// The same, where the value's items are at a level that is allowed.
const BAD_INSIDE: [(u32, &str); 30] = [
    (20, "[1,@]"),
    (20, "[1 @2]"),
    (20, "[1@}"),
    (20, "{\"a\":1@]"),
    (20, "{\"a\":1,@}"),
    (20, "{\"a\":@}"),
    (20, "{\"a\":1 @\"b\":2}"),
    (20, "{\"a\":1,@b:2}"),
    (21, "{~\"a\":1,@\"a\":2}"),
    (21, "{~\"a\":1,@\"<5C>u0061\":2}"),
    (21, "{~\"<5C>u0061\":1,\"b\":2,@\"a\":1.5}"),
    (21, "{~\"a\":1,@\"a\" 2}"),
    (22, "{\"a\":@1.5,\"a\":2}"),
    (21, "{~\"\":1,@\"\":2}"),
    (21, "{~\"__entity\":1,@\"__entity\":2}"),
    (21, "{~\"__extn\":1,\"b\":2,@\"__ext<5C>u006E\":2,\"b\":3}"),
    (23, "{\"__entity\":@1}"),
    (23, "{\"__entity\":@[]}"),
    (20, "{\"__entity\":@x}"),
    (23, "{\"__entity\":{@}}"),
    (23, "{\"__entity\":{\"type\":\"a\"@}}"),
    (23, "{\"__entity\":{\"type\":\"a\",\"id\":@1}}"),
    (23, "{\"__entity\":{\"type\":\"a\",@\"i\":1.5}}"),
    (21, "{\"__entity\":{~\"type\":\"a\",@\"t<5C>u0079pe\":\"b\"}}"),
    (23, "{\"__entit<5C>u0079\":@null}"),
    (23, "{\"__extn\":{\"fn\":@\"ip\",\"arg\":\"1\"}}"),
    (23, "{\"__extn\":{\"fn\":\"decimal\"@}}"),
    (23, "{\"__extn\":{\"fn\":\"decimal\",\"arg\":@1}}"),
    (23, "{\"__extn\":{\"fn\":\"decimal\",\"arg\":\"1\",@\"x\":0}}"),
    (20, "{\"__extn\":{\"fn\":\"decimal\",\"arg\":\"1\"} @x}"),
];

const BAD_ENTITIES: [(u32, &str); 10] = [
    (23, "[@]"),
    (23, "[\"a\"@]"),
    (23, "[\"a\",\"b\" @]"),
    (23, "[\"a\",\"b\",{}@,1]"),
    (23, "[\"a\",\"b\",{} @,]"),
    (20, "[\"a\",@]"),
    (23, "[@{},\"b\",{}]"),
    (23, "[\"a\",@1.5,{}]"),
    (23, "[\"a\",\"b\",@{\"__entity\":{\"type\":\"\",\"id\":\"\"}}]"),
    (20, "[\"a\",\"b\",{}@}"),
];

const REQUIRED: [&str; 7] = ["time", "namespace", "action", "kind", "logged", "context", "entities"];

/// A line with a fault.
pub fn faulty_line(random: &mut Random) -> Foretold {
    loop {
        let event = random_event(random, Manner::NoNearForms);
        if let Some(foretold) = faulty(random, &event) {
            return foretold;
        }
    }
}

fn faulty(random: &mut Random, event: &Event) -> Option<Foretold> {
    let left_out = random.percent(5).then(|| random.pick(&REQUIRED));
    let mut spelling = Spelling::new(random);
    spelling.event(event, left_out);
    if left_out.is_some() {
        let place = spelling.sites.iter().rfind(|site| matches!(site.what, What::Object { .. }))?.end - 1;
        return Some(Foretold { line: spelling.text, refused: Refused { refusal: 23, place, first: None } });
    }
    let chosen = chosen_site(&mut spelling);
    let site = spelling.sites.swap_remove(chosen);
    match &site.what {
        What::Any { level } => {
            let (refusal, value) = bad_value(spelling.random, *level);
            Some(replaced(spelling, &site, refusal, &value))
        }
        What::Due { begins } => {
            let wrong = spelling.random.pick(&["null", "true", "-1", "1.5", "\"a\"", "[]", "{}", "tru", "x", ":"]);
            let refusal = if matches!(wrong, "x" | ":") { 20 } else { 23 };
            let same_sort = begins.contains(&wrong.as_bytes()[0]);
            (!same_sort).then(|| replaced(spelling, &site, refusal, format!("@{wrong}").as_bytes()))
        }
        What::Entity => {
            let (refusal, value) = spelling.random.pick(&BAD_ENTITIES);
            Some(replaced(spelling, &site, refusal, value.as_bytes()))
        }
        What::After if spelling.random.percent(50) && !site.in_form => {
            spelling.text.truncate(site.start);
            let refused = Refused { refusal: 20, place: site.start, first: None };
            Some(Foretold { line: spelling.text, refused })
        }
        What::After => {
            let stray = spelling.random.pick(&["@x", "@:", "@<00>", "@<FF>", " @;"]);
            Some(replaced(spelling, &site, 20, stray.as_bytes()))
        }
        What::Object { names, open } => one_name_more(spelling, names, *open, site.end - 1),
    }
}

/// A site; every second time one that takes any value, if there is one.
fn chosen_site(spelling: &mut Spelling) -> usize {
    let any = |&k: &usize| matches!(spelling.sites[k].what, What::Any { .. });
    let any: Vec<usize> = (0..spelling.sites.len()).filter(any).collect();
    if any.is_empty() || spelling.random.percent(50) {
        return spelling.random.below(spelling.sites.len());
    }
    spelling.random.pick(&any)
}

/// A bad value for this level.
fn bad_value(random: &mut Random, level: u32) -> (u32, Vec<u8>) {
    if random.percent(15) {
        let (mut value, mut closing) = (Vec::new(), Vec::new());
        for _ in level..=MOST_DEPTH {
            let (open, close) = random.pick(&[("[", b']'), ("{\"a\":", b'}'), ("[ ", b']')]);
            value.extend(open.bytes());
            closing.insert(0, close);
        }
        let whole = random.percent(60);
        let inner = if whole { ["@1", "@[]", "@null", "@\"\""] } else { ["@\"", "@{", "@nul", "@{\"__entity\":{}}"] };
        value.extend(random.pick(&inner).bytes());
        value.extend(if whole { closing } else { Vec::new() });
        return (24, value);
    }
    // Forms that are read stand at any level; what is inside other values needs one level more.
    let (refusal, value) =
        if level < MOST_DEPTH && random.percent(45) { random.pick(&BAD_INSIDE) } else { random.pick(&BAD) };
    (refusal, value.into())
}

/// The line with something else in a part's place, all behind it left as it was.
fn replaced(spelling: Spelling, site: &Site, refusal: u32, with: &[u8]) -> Foretold {
    let with = marked(with).expect("the marks are right");
    let mut line = spelling.text;
    line.splice(site.start..site.end, with.bytes);
    let place = site.start + with.place.expect("it has a place");
    let first = with.first.map(|first| site.start + first);
    Foretold { line, refused: Refused { refusal, place, first } }
}

/// An object with a name that it has already, or must not have.
fn one_name_more(mut spelling: Spelling, names: &[(usize, Vec<u8>)], open: bool, close: usize) -> Option<Foretold> {
    let behind = spelling.text.split_off(close);
    let mut refused = Refused { refusal: 23, place: close + 1, first: None };
    let unknown = !open && spelling.random.percent(50);
    if names.is_empty() {
        return None;
    }
    spelling.text.push(b',');
    if unknown {
        let name = spelling.random.pick(&["", "x", "Time", "time ", "types", "__entity", "pri\u{7f}ncipal"]);
        spelling.string(name.as_bytes());
    } else {
        let (first, name) = &names[spelling.random.below(names.len())];
        refused = Refused { refusal: 21, first: Some(*first), ..refused };
        spelling.string(name);
    }
    let after = spelling.random.pick(&[":1", ":1.5", "", " ", ":\"a\""]);
    spelling.text.extend(after.bytes());
    spelling.text.extend(behind);
    Some(Foretold { line: spelling.text, refused })
}
