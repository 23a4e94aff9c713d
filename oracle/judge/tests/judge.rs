//! The examples hold in the model and in the Rust, the lists are those committed,
//! and a short random run finds no difference.

use generate::Random;
use judge::examples::ask_examples;
use judge::lists::{folder, lists};
use judge::reach;
use judge::run::Report;
use model::{Model, Variant};

#[test]
fn examples_hold_in_both() {
    let (asked, differences) = ask_examples(Model::document()).expect("the examples can be read");
    assert!(asked >= 28);
    assert!(differences.is_empty(), "{differences:#?}");
}

#[test]
fn committed_lists_are_made_again_byte_for_byte() {
    for list in lists().expect("the model agrees with the Rust") {
        let committed = std::fs::read(folder().join(list.name)).expect("the list is committed");
        assert!(committed == list.bytes, "{} differs; `oracle lists` writes it", list.name);
    }
}

#[test]
fn model_and_rust_agree() {
    let mut report = Report::new(Model::document());
    report.run(&mut Random::new(3), 20_000, 1);
    assert!(report.differences.is_empty(), "{}", report.differences[0]);
    // What larger cases come to is met in passing, not only in theory.
    for what in reach::ALL {
        assert!(report.counts.get(what).is_some_and(|&questions| questions >= 5), "{what}: {:?}", report.counts);
    }
}

/// Request #106: the model's list is what single verdicts of the Rust say, and every sort of it is met.
#[test]
fn carried_is_what_single_verdicts_say() {
    let (asked, differences) = judge::carried::examples::ask(Model::document()).expect("the examples can be read");
    assert_eq!((asked, differences), (28, Vec::<String>::new()));
    let mut report = judge::carried::Report::new(Model::document());
    report.run(&mut Random::new(3), 6_000, 200, 1);
    assert!(report.differences.is_empty(), "{}", report.differences[0]);
    for what in [
        "formerly, yes",
        "formerly, no",
        "formerly, refused 11",
        "formerly, refused 15",
        "previous, yes",
        "previous, no",
        "since, yes, 0 tested",
        "since, yes, 1 tested",
        "since, yes, more tested",
        "since, no, 0 failed",
        "since, no, 1 failed",
        "since, no, more failed",
        "since, refused 11",
        "since, refused 12",
        "since, refused 15",
        "with: a list that is exactly filled",
        "with: a list that is one cell short",
        "with: a negative window",
        "with: limit 0",
        "with: previous at point 0",
        "with: starting bindings",
        "with: times that fall",
    ] {
        assert!(report.counts.get(what).is_some_and(|&questions| questions >= 5), "{what}: {:?}", report.counts);
    }
}

/// Every wrong variant of request #106 is caught by an example or by the Rust.
#[test]
fn wrong_variants_of_carried_are_caught() {
    for &variant in Variant::WRONG_CARRIED {
        let by = judge::carried::caught(variant, 1).expect("the examples can be read");
        assert!(!by.is_empty(), "{variant:?}: {}", variant.says());
    }
}

/// Request #101: what the model writes is what the making of its input foretells, and every end is met.
#[test]
fn written_is_what_the_making_foretells() {
    assert_eq!(judge::written::examples::ask(Model::document()), (40, Vec::new()));
    let mut report = judge::written::Report::new(Model::document());
    let mut random = Random::new(3);
    report.huge();
    report.rule_files(&mut random);
    report.run(&mut random, 10_000, 0, 1);
    assert!(report.differences.is_empty(), "{}", report.differences[0]);
    for what in [
        "at an edge, written",
        "damaged, refused 1",
        "damaged, refused 3",
        "damaged, refused 4",
        "damaged, refused 5",
        "damaged, refused 6",
        "damaged, written",
        "read and written, written",
        "scrambled, the case itself",
        "with one fault, refused 1",
        "with one fault, refused 3",
        "with one fault, refused 4",
        "with one fault, refused 5",
        "with one fault, refused 6",
        "with one fault, refused 10",
        "with one fault, refused 14",
    ] {
        assert!(report.counts.get(what).is_some_and(|&inputs| inputs >= 5), "{what}: {:?}", report.counts);
    }
}

/// Every wrong variant of the writer is caught.
#[test]
fn wrong_variants_of_the_writer_are_caught() {
    for &variant in Variant::WRONG_WRITTEN {
        let by = judge::written::caught(variant, 1).expect("the examples can be asked");
        assert!(!by.is_empty(), "{variant:?}: {}", variant.says());
    }
}
