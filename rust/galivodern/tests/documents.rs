//! The documents hold: their examples are asked, their bytes packed, and what they cite is there.

use std::path::{Path, PathBuf};

use galivodern::{Bindings, Bound, Case, JsonLog, Limits, PointNo, Refused};

fn root() -> PathBuf {
    Path::new(env!("CARGO_MANIFEST_DIR")).join("../..")
}

fn read(name: &str) -> String {
    std::fs::read_to_string(root().join(name)).unwrap_or_else(|error| panic!("{name}: {error}"))
}

/// The blocks of a document: what stands after the fence, and the lines.
fn blocks(document: &str) -> Vec<(String, String)> {
    let mut blocks = Vec::new();
    let mut lines = document.lines();
    while let Some(line) = lines.next() {
        if let Some(info) = line.strip_prefix("```") {
            let body: Vec<&str> = lines.by_ref().take_while(|line| !line.starts_with("```")).collect();
            blocks.push((info.to_string(), body.join("\n")));
        }
    }
    blocks
}

/// The cases that a document shows. One without points of its own is asked of the log before it.
fn cases(document: &str, wanted: &str) -> Vec<String> {
    let (mut log, mut cases) = (String::new(), Vec::new());
    for (info, body) in blocks(document) {
        if info == "case log" {
            log = body;
        } else if info == wanted {
            let alone = body.lines().any(|line| line.starts_with("point "));
            cases.push(if alone { body } else { format!("{log}\n{body}") });
        }
    }
    cases
}

/// Asks `RULE at POINT [with VARIABLE=INTEGER] [limit L] [room R] = ANSWER [STEPS ROWS]`.
fn hold(case: &Case, question: &str) -> bool {
    let (asked, expected) = question.split_once(" = ").unwrap_or_else(|| panic!("no answer: {question}"));
    let words: Vec<&str> = asked.split(' ').collect();
    let rule = case.rule(words[0]).unwrap_or_else(|| panic!("no such rule: {question}"));
    let (mut point, mut limits, mut start) = (None, Limits::default(), Bindings::new());
    for pair in words[1..].chunks(2) {
        let (variable, number) = pair[1].split_once('=').unwrap_or(("", pair[1]));
        let number: i64 = number.parse().expect("a number");
        match pair[0] {
            "at" => point = Some(PointNo(number as usize)),
            "limit" => limits.steps = number as u64,
            "room" => limits.room = number as usize,
            "with" => start = start.with(case.variable(variable).expect("a variable"), Bound::Int(number)),
            other => panic!("`{other}` in {question}"),
        }
    }
    let point = point.expect("a point");
    let (said, steps, held) = match case.ask(point, rule, &start, limits) {
        Ok(answer) => (answer.value.to_string(), answer.steps, answer.held),
        Err(Refused { refusal, steps, held, .. }) => (format!("refused {}", refusal.number()), steps, held),
    };
    expected == said || expected == format!("{said} {steps} {held}")
}

/// Asks every `#?` line of a document; gives their number.
fn asked(name: &str) -> usize {
    let mut asked = 0;
    for text in cases(&read(name), "case") {
        let case = Case::from_text(&text).unwrap_or_else(|fault| panic!("{name}: {fault}\n{text}"));
        let questions: Vec<&str> = text.lines().filter_map(|line| line.strip_prefix("#? ")).collect();
        assert!(!questions.is_empty(), "{name}: nothing is asked of\n{text}");
        for question in &questions {
            assert!(hold(&case, question), "{name}: {question}\n{text}");
        }
        asked += questions.len();
    }
    asked
}

/// The sections of a document, each with its heading.
fn sections(document: &str) -> Vec<&str> {
    document.split("\n## ").skip(1).collect()
}

/// A line `Definition: NAMES in [FILE](PATH); ..`: each name is declared in its file.
fn cites(document: &str, section: &str) {
    let line = section.lines().find_map(|line| line.strip_prefix("Definition: "));
    for part in line.unwrap_or_else(|| panic!("{document}: no definition is named in\n{section}")).split("; ") {
        let (names, link) = part.split_once(" in [").unwrap_or_else(|| panic!("{document}: {part}"));
        let path = link.split_once("](../").and_then(|(_, path)| path.strip_suffix(')')).expect("a link");
        assert!(path.starts_with("crates/meaning/specs/"), "{document}: {path} is no definition");
        let file = read(path);
        for name in names.split(", ").map(|name| name.trim_matches('`')) {
            let declared = file.lines().any(|line| line.contains(&format!("pub {name} :")))
                || ["record", "data"].iter().any(|kind| file.contains(&format!("pub {kind} {name} ")));
            assert!(declared, "{document}: {path} declares no `{name}`");
        }
    }
}

#[test]
fn each_construct_has_an_example_with_its_answer() {
    let document = read("docs/MEANING.md");
    for section in sections(&document) {
        cites("MEANING.md", section);
        assert!(section.contains("```case\n") && section.contains("\n#? "), "no example in\n{section}");
    }
    assert!(asked("docs/MEANING.md") >= 80);
}

/// What a document shows as refused is refused, for the reason that it gives after `#!`.
#[test]
fn what_is_shown_as_refused_is_refused() {
    let refused = cases(&read("docs/MEANING.md"), "case refused");
    assert!(refused.len() >= 2);
    for text in refused {
        let fault = Case::from_text(&text).err().unwrap_or_else(|| panic!("this is taken:\n{text}"));
        let reason = text.lines().find_map(|line| line.strip_prefix("#! ")).expect("a reason");
        assert!(fault.message.starts_with(reason), "{fault}");
    }
}

#[test]
fn each_construct_of_the_text_form_is_explained() {
    let document = read("docs/MEANING.md");
    let headings: Vec<&str> = sections(&document).iter().map(|section| section.lines().next().unwrap_or("")).collect();
    for construct in ["formerly", "previous", "since", "and", "or", "not", "exists", "count", "sum", "tp"] {
        let mut words = headings.iter().flat_map(|heading| heading.split([' ', ',']));
        assert!(words.any(|word| word == construct), "no heading names `{construct}`");
    }
}

/// Each block of JSON-LOGS.md is a sound log, or refused as it says, `jsonl refused NUMBER LINE:COLUMN`.
#[test]
fn logs_are_read_or_refused_as_they_are_shown() {
    let (mut sound, mut numbers) = (0, Vec::new());
    for (info, body) in blocks(&read("docs/JSON-LOGS.md")) {
        let Some(expected) = info.strip_prefix("jsonl") else { continue };
        let said = match JsonLog::new(format!("{body}\n").as_bytes()) {
            Ok(log) => {
                log.case().unwrap_or_else(|error| panic!("{error}\n{body}"));
                sound += 1;
                String::new()
            }
            Err(fault) => {
                numbers.push(fault.refusal.number());
                format!(" refused {} {}:{}", fault.refusal.number(), fault.place.line, fault.place.column)
            }
        };
        assert_eq!(said, expected, "{body}");
    }
    numbers.dedup();
    assert_eq!((sound, numbers), (2, vec![20, 21, 22, 23, 24]));
}

#[test]
fn the_format_is_that_of_its_example() {
    let document = read("docs/FORMAT.md");
    sections(&document).iter().for_each(|section| cites("FORMAT.md", section));
    assert_eq!(asked("docs/FORMAT.md"), 1);
    let mut bytes: Vec<u8> = Vec::new();
    for line in blocks(&document).iter().filter(|(info, _)| info == "hex").flat_map(|(_, body)| body.lines()) {
        let parts: Vec<&str> = line.split("  ").collect();
        assert_eq!(usize::from_str_radix(parts[0], 16), Ok(bytes.len()), "{line}");
        bytes.extend(parts[1].split(' ').map(|byte| u8::from_str_radix(byte, 16).expect("two digits")));
    }
    let packed = Case::from_text(&cases(&document, "case")[0]).expect("it is asked above");
    assert_eq!(bytes, packed.bytes());
    assert!(document.contains(&format!("its {} bytes", bytes.len())));
}

/// What stands before the second heading: all that many will read.
#[test]
fn the_first_screen_shows_a_rule_its_answer_and_a_timeline() {
    let readme = read("README.md");
    let screen = readme.split("\n## ").next().expect("a first screen");
    assert!(screen.lines().count() <= 40, "the first screen is longer than one");
    for shown in ["It is for those who", "rule ready =", "#? ready at 1 = yes", "    seconds    0 ...", "headline.case"]
    {
        assert!(screen.contains(shown), "the first screen has no `{shown}`");
    }
    assert_eq!(asked("README.md"), 2);
    let headline = read("examples/headline.case");
    let rule = |text: &str| {
        let from = text.find("rule ready").expect("the rule");
        text[from..].lines().take_while(|line| !line.starts_with(['#', '`'])).collect::<String>().replace(' ', "")
    };
    assert_eq!(rule(screen), rule(&headline));
}

#[test]
fn it_says_how_to_install_and_remove() {
    let readme = read("README.md");
    let section = sections(&readme).into_iter().find(|section| section.starts_with("Install and remove\n"));
    let section = section.expect("a section on it");
    for command in ["cargo install", "cargo uninstall", "tools/install /", "tools/install --remove"] {
        assert!(section.contains(&format!("`{command}")), "no `{command}`");
    }
}

#[test]
fn what_is_trusted_names_all_that_is_not_proved() {
    let readme = read("README.md");
    let section = sections(&readme).into_iter().find(|section| section.starts_with("What is trusted\n"));
    let section = section.expect("a section on it");
    let trusted =
        ["packer, `rust/casefile`", "wrapper, `rust/galivodern`", "command, `rust/command`", "converter", "LLVM"];
    let words = ["`logic=proved`", "`functions=", "`axioms=", "`target=", "`sum=", "`native=", "`logic-built=trusted`"];
    for named in trusted.iter().chain(&words).chain(&["`libraries-built=trusted`", "`cache=trusted`"]) {
        assert!(section.contains(named), "{named} is not named");
    }
}
