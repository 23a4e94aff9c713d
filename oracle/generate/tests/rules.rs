//! Every rule file is refused, or passes, as it must be.

use generate::rules::{huge_rule_files, rule_files, RuleFile};
use model::Model;

fn all_as_expected(files: &[RuleFile]) {
    let wrong: Vec<String> = files
        .iter()
        .map(|file| (file, Model::document().check(&file.bytes)))
        .filter(|(file, said)| *said != file.expected)
        .map(|(file, said)| format!("{}: {said}, not {}", file.rule, file.expected))
        .collect();
    assert!(wrong.is_empty(), "{wrong:#?}");
}

#[test]
fn rule_files_are_refused_as_they_must_be() {
    let files = rule_files();
    assert!(files.len() >= 150);
    all_as_expected(&files);
}

#[test]
fn huge_rule_files_are_refused_as_they_must_be() {
    all_as_expected(&huge_rule_files());
}
