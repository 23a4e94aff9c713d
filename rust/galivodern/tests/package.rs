//! What stands around the code: the package's own description, and the C header's refusals.

use galivodern::Refusal;

fn read(path: &str) -> String {
    let path = std::path::Path::new(env!("CARGO_MANIFEST_DIR")).join(path);
    std::fs::read_to_string(&path).unwrap_or_else(|error| panic!("{}: {error}", path.display()))
}

#[test]
fn the_package_describes_itself() {
    let manifest = read("Cargo.toml");
    for field in ["description", "readme", "keywords", "categories", "license", "rust-version"] {
        assert!(manifest.lines().any(|line| line.starts_with(field)), "Cargo.toml has no `{field}`");
    }
    let changes = read("CHANGELOG.md");
    let latest = changes.lines().find_map(|line| line.strip_prefix("## ")).expect("a version");
    assert_eq!(latest, env!("CARGO_PKG_VERSION"), "the latest change is of this version");
}

#[test]
fn nothing_public_goes_undocumented_or_unused() {
    let root = read("src/lib.rs");
    for attribute in ["#![deny(missing_docs)]", "#![deny(clippy::must_use_candidate)]"] {
        assert!(root.lines().any(|line| line == attribute), "lib.rs has no {attribute}");
    }
}

/// Those who match an enum, or take an answer apart, are told to leave room for what may come. A window
/// is three and an answer two, and they stay so.
#[test]
fn what_may_grow_is_marked() {
    let mut marked = 0;
    let folder = std::path::Path::new(env!("CARGO_MANIFEST_DIR"));
    let files = ["src", "src/builder"].map(|below| std::fs::read_dir(folder.join(below)).expect("the sources"));
    let files = files.into_iter().flatten().map(|entry| entry.expect("an entry").path());
    for file in files.filter(|path| path.is_file()) {
        let source = std::fs::read_to_string(file).expect("text");
        for item in [
            "pub enum ",
            "pub struct Answer",
            "pub struct Contents",
            "pub struct Refused",
            "pub struct Fault",
            "pub struct Log",
        ] {
            for (before, after) in source.match_indices(&format!("\n{item}")).map(|(at, _)| source.split_at(at)) {
                if after.starts_with("\npub enum Window {") || after.starts_with("\npub enum Answer {") {
                    continue;
                }
                let attributes = before.rsplit("\n\n").next().unwrap_or_default();
                assert!(attributes.contains("#[non_exhaustive]"), "{item} after:\n{attributes}");
                marked += 1;
            }
        }
    }
    assert_eq!(marked, 14);
}

/// The number and the text that the header gives a refusal, by its name there.
fn in_header<'a>(header: &'a str, name: &str) -> (u8, String) {
    let between = |text: &'a str, from: &str, to: &str| {
        let start = text.find(from).unwrap_or_else(|| panic!("no `{from}`")) + from.len();
        let length = text[start..].find(to).unwrap_or_else(|| panic!("no `{to}` after `{from}`"));
        &text[start..start + length]
    };
    let number = between(header, &format!("{name} = "), ",").parse().expect("a number");
    let returned = between(header, &format!("case {name}:"), ";");
    let text: Vec<&str> = returned.split('"').skip(1).step_by(2).collect();
    (number, text.concat())
}

#[test]
fn the_c_header_says_the_same_of_a_refusal() {
    let header = read("../../include/galivodern.h");
    for refusal in Refusal::ALL {
        let (number, text) = in_header(&header, &header_name(*refusal));
        assert_eq!(number, refusal.number());
        let ours = refusal.to_string();
        let alike = text.chars().zip(ours.chars()).take_while(|(a, b)| a == b).count();
        // In C a buffer can be too small besides; only the crate knows a rule's parameters.
        let more = matches!(refusal, Refusal::BadStart | Refusal::BadLimits | Refusal::BadOutput);
        assert!(text == ours || more && alike > 50, "{refusal:?}: {text}");
    }
}

/// `BadContents` is GALIVODERN_BAD_CONTENTS there.
fn header_name(refusal: Refusal) -> String {
    let mut name = String::from("GALIVODERN");
    for c in format!("{refusal:?}").chars() {
        if c.is_uppercase() {
            name.push('_');
        }
        name.push(c.to_ascii_uppercase());
    }
    name
}
