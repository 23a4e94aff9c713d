//! Every wrong variant of the model must be caught, by the Rust or by what document 01 says itself.

use generate::rules::rule_files;
use generate::Random;
use model::{Model, Variant};

use crate::examples::ask_examples;
use crate::run::Report;

/// Random questions put to a variant before it counts as not caught.
const QUESTIONS: u64 = 60_000;

/// All that catches a variant: rule files, examples, the random run.
pub fn caught(variant: Variant, seed: u64) -> Result<Vec<String>, String> {
    let model = Model { variant };
    let files = rule_files();
    let refused: Vec<&str> =
        files.iter().filter(|file| model.check(&file.bytes) != file.expected).map(|file| file.rule.as_str()).collect();
    if let Some(first) = refused.first() {
        // A check that lets a broken case pass is not run further: what it lets in means nothing.
        return Ok(vec![format!("{} rule files, as `{first}`", refused.len())]);
    }
    let mut by = Vec::new();
    let (_, differences) = ask_examples(model)?;
    if let Some(first) = differences.first() {
        by.push(format!("{} examples, as `{}`", differences.len(), first.lines().next().unwrap_or_default()));
    }
    let mut report = Report::new(model);
    report.run(&mut Random::new(seed), QUESTIONS, 1);
    if let Some(first) = report.differences.first() {
        by.push(format!("question {}: {}", report.to_both, first.lines().next().unwrap_or_default()));
    }
    Ok(by)
}
