//! Request #112: the examples hold, random logs are read as they were made, every wrong variant is caught.

use generate::Random;
use judge::json::{caught, examples, Report};
use model::{Model, Variant};

#[test]
fn examples_hold() {
    let (asked, differences) = examples::ask(Model::document()).expect("the examples can be read");
    assert!(asked >= 100, "{asked}");
    assert!(differences.is_empty(), "{differences:#?}");
}

#[test]
fn logs_are_read_as_they_were_made() {
    let mut report = Report::new(Model::document());
    report.run(&mut Random::new(3), 2_000, 1);
    assert!(report.differences.is_empty(), "{}", report.differences[0]);
    for what in [
        "good logs, finished, check 0",
        "good logs, finished, check 5",
        "exports that import as the same bytes",
        "imports with buffers, 0",
        "imports with buffers, 10",
        "imports with buffers, 14",
        "faulty logs, 20",
        "faulty logs, 21",
        "faulty logs, 22",
        "faulty logs, 23",
        "faulty logs, 24",
        "exports, 0",
        "exports, 14",
        "exports, 25",
        "random cases, exported",
    ] {
        assert!(report.counts.get(what).is_some_and(|&logs| logs >= 5), "{what}: {:?}", report.counts);
    }
}

#[test]
fn wrong_variants_are_caught() {
    for &variant in Variant::WRONG_JSON {
        let by = caught(variant, 1).expect("the examples can be read");
        assert!(!by.is_empty(), "{variant:?}: {}", variant.says());
    }
}
