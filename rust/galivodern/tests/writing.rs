//! The proved writer beside the packer's own sorting: the same bytes, whatever the text.

use casefile::text::{pack, pack_with, unpack};
use casefile::Unsorted;
use galivodern::{Case, Refusal};
use generate::cases::random_case;
use generate::unsorted::{scrambled, used_both_ways};
use generate::{Profile, Random};

fn by_the_writer(unsorted: Unsorted) -> Result<Vec<u8>, String> {
    let case = Case::from_unsorted(&unsorted.tables.encode(), &unsorted.marks);
    case.map(Case::into_bytes).map_err(|refusal| refusal.to_string())
}

fn same_bytes(text: &str) {
    let plain = pack(text).unwrap_or_else(|fault| panic!("{fault}\n{text}")).tables;
    let written = pack_with(text, by_the_writer).unwrap_or_else(|faults| panic!("{faults:?}\n{text}")).tables;
    assert_eq!(written, plain, "{text}");
    assert_eq!(Case::from_text(text).expect("it packs").bytes(), plain.encode(), "{text}");
}

#[test]
fn examples_are_packed_to_the_same_bytes() {
    let folder = concat!(env!("CARGO_MANIFEST_DIR"), "/../../examples");
    let files = std::fs::read_dir(folder).expect("the examples are there").map(|file| file.expect("a file").path());
    let cases: Vec<_> = files.filter(|path| path.extension().is_some_and(|ending| ending == "case")).collect();
    assert!(cases.len() >= 6, "{} examples", cases.len());
    for case in cases {
        same_bytes(&std::fs::read_to_string(&case).unwrap_or_else(|error| panic!("{}: {error}", case.display())));
    }
}

#[test]
fn random_texts_are_packed_to_the_same_bytes() {
    let mut random = Random::new(19);
    for _ in 0..200 {
        let profile = if random.percent(50) { Profile::SMALL } else { Profile::USUAL };
        let case = random_case(&mut random, profile);
        same_bytes(&unpack(&case.tables).expect("a checked case has a text"));
    }
}

#[test]
fn a_scrambled_case_is_written_as_it_was() {
    let mut random = Random::new(23);
    for _ in 0..150 {
        let case = random_case(&mut random, Profile::USUAL);
        if used_both_ways(&case.bytes) {
            continue;
        }
        let unsorted = scrambled(&mut random, &case.tables, &case.bytes);
        let written = Case::from_unsorted(&unsorted.tables.encode(), &unsorted.marks).expect("it is written");
        assert_eq!(written.bytes(), case.bytes);
    }
}

#[test]
fn what_is_no_unsorted_case_is_refused() {
    assert_eq!(Case::from_unsorted(&[], &[]).unwrap_err(), Refusal::BadContents);
    let mut unsorted = casefile::Builder::new(17).unsorted();
    let refused = |unsorted: &Unsorted| Case::from_unsorted(&unsorted.tables.encode(), &unsorted.marks).unwrap_err();
    assert_eq!(refused(&unsorted), Refusal::TooLarge);
    unsorted.tables.variables = 0;
    unsorted.tables.strings.push([0, 1]);
    assert_eq!(refused(&unsorted), Refusal::BadStrings);
}
