//! The comparison at scale: every call of the archive and of the crate beside model and Rust.

use std::collections::BTreeMap;
use std::time::Instant;

use generate::Random;
use judge::mix::Mix;
use judge::run::Report;
use model::Model;

use crate::archive::{by_crate, checked, unchecked};
use crate::{carried, logs, written};

/// More differences than this end the run.
const MOST_DIFFERENCES: usize = 10;

pub fn run(questions: u64, copies: u64, seed: u64, mix: Option<&str>) -> Result<bool, String> {
    let begun = Instant::now();
    let mut report = Report::new(Model::document());
    report.mix = Mix::named(mix)?;
    report.beside = vec![unchecked, checked, by_crate];
    let mut random = Random::new(seed);
    report.run(&mut random, questions, MOST_DIFFERENCES);
    let asked = begun.elapsed().as_secs_f64();
    let damaged = |report: &Report| {
        let counts = report.counts.iter().filter(|(kind, _)| kind.starts_with("damaged copies"));
        counts.map(|(_, count)| count).sum::<u64>()
    };
    let more = copies.saturating_sub(damaged(&report));
    report.damage(&mut random, more, MOST_DIFFERENCES);
    println!("seed {seed}: {} questions put to all in {asked:.0} s,", report.to_both);
    println!("{} damaged copies, the last of them after {:.0} s", damaged(&report), begun.elapsed().as_secs_f64());
    let same = told(&report.counts, &report.differences);
    let same = carried(questions / 10, copies / 10, seed)? && same;
    let same = written(questions / 10, copies / 10, seed)? && same;
    Ok(logs(questions / 10, seed)? && same)
}

/// Request #112: import and export of the archive beside the model.
pub fn logs(count: u64, seed: u64) -> Result<bool, String> {
    let begun = Instant::now();
    let mut report = logs::Report::new();
    report.run(&mut Random::new(seed), count, MOST_DIFFERENCES);
    println!("#112, seed {seed}: {count} logs in {:.0} s", begun.elapsed().as_secs_f64());
    Ok(told(&report.counts, &report.differences))
}

/// Request #101: the archive beside the model, and both beside what the making of each input foretells.
pub fn written(inputs: u64, copies: u64, seed: u64) -> Result<bool, String> {
    let begun = Instant::now();
    let mut report = judge::written::Report::new(Model::document());
    report.beside = vec![written::archive];
    let mut random = Random::new(seed);
    report.huge();
    report.rule_files(&mut random);
    report.run(&mut random, inputs, copies, MOST_DIFFERENCES);
    let taken = begun.elapsed().as_secs_f64();
    println!("#101, seed {seed}: {} inputs, of them {} damaged, in {taken:.0} s", report.inputs, report.damaged);
    Ok(told(&report.counts, &report.differences))
}

/// Request #106: the model beside single verdicts of the Rust, and the archive and the crate beside the model.
pub fn carried(questions: u64, copies: u64, seed: u64) -> Result<bool, String> {
    let begun = Instant::now();
    let mut report = judge::carried::Report::new(Model::document());
    report.beside = vec![carried::unchecked, carried::checked, carried::by_crate];
    report.run(&mut Random::new(seed), questions, copies, MOST_DIFFERENCES);
    let (asked, damaged) = (report.to_both, report.damaged);
    let taken = begun.elapsed().as_secs_f64();
    println!("#106, seed {seed}: {asked} questions put to all, {damaged} damaged copies, in {taken:.0} s");
    Ok(told(&report.counts, &report.differences))
}

/// Prints what a run came to; whether nothing differed.
fn told(counts: &BTreeMap<String, u64>, differences: &[String]) -> bool {
    for (kind, count) in counts {
        println!("{count:>10}  {kind}");
    }
    for difference in differences {
        println!("\nDIFFERENCE\n{difference}");
    }
    println!("{} unlisted differences", differences.len());
    differences.is_empty()
}
