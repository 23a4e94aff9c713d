//! Runs the comparison with the Rust and writes the lists made from it.

use std::collections::BTreeMap;
use std::process::ExitCode;
use std::time::Instant;

use generate::Random;
use judge::examples::ask_examples;
use judge::lists::{folder, lists};
use judge::mix::Mix;
use judge::run::Report;
use judge::variants::caught;
use model::{Model, Variant};

const USAGE: &str = "usage: oracle compare N SEED    put N questions to the model and to the Rust
       oracle compare N SEED dots   the same, of cases with dots in their names alone
       oracle carried N SEED     the same of request #106, beside single verdicts of the Rust
       oracle written N SEED     N inputs put to the model's writer of request #101
       oracle examples           ask E1 to E13, the sample and the counted examples of both
       oracle variants SEED [X]  catch every wrong variant of the model whose name begins with X
       oracle lists              write data/*.bin again, byte for byte
       oracle json compare N SEED  #112: N rounds of logs whose meaning or fault is known
       oracle json lines N SEED  write N random and damaged lines
       oracle json judge         say of every line read what the model says of it
       oracle json texts LIST    put a list of texts, each with its refusal and place, to the model, and to its
                                 wrong variants: how many texts catch each of the reader's";

fn main() -> ExitCode {
    let arguments: Vec<String> = std::env::args().skip(1).collect();
    let arguments: Vec<&str> = arguments.iter().map(String::as_str).collect();
    let number = |text: &str| text.parse::<u64>().map_err(|_| format!("`{text}` is no number"));
    let done = match arguments[..] {
        ["compare", questions, seed] => number(questions).and_then(|n| compare(n, number(seed)?, None)),
        ["compare", questions, seed, mix] => number(questions).and_then(|n| compare(n, number(seed)?, Some(mix))),
        ["carried", questions, seed] => number(questions).and_then(|n| carried(n, number(seed)?)),
        ["written", inputs, seed] => number(inputs).and_then(|n| written(n, number(seed)?)),
        ["examples"] => examples(),
        ["variants", seed] => number(seed).and_then(|seed| variants(seed, "")),
        ["variants", seed, named] => number(seed).and_then(|seed| variants(seed, named)),
        ["lists"] => write_lists(),
        ["json", "compare", rounds, seed] => number(rounds).and_then(|n| json_compare(n, number(seed)?)),
        ["json", "lines", count, seed] => number(count).and_then(|n| json_lines(n, number(seed)?)),
        ["json", "judge"] => json_judge(),
        ["json", "texts", list] => json_texts(list),
        _ => Err(USAGE.to_string()),
    };
    match done {
        Ok(true) => ExitCode::SUCCESS,
        Ok(false) => ExitCode::FAILURE,
        Err(message) => {
            eprintln!("{message}");
            ExitCode::from(2)
        }
    }
}

/// Puts questions to the model and to the Rust and prints counts by kind and all differences.
fn compare(questions: u64, seed: u64, mix: Option<&str>) -> Result<bool, String> {
    let begun = Instant::now();
    let mut report = Report::new(Model::document());
    report.mix = Mix::named(mix)?;
    report.run(&mut Random::new(seed), questions, 10);
    println!("seed {seed}: {} questions put to both in {:.1} s", report.to_both, begun.elapsed().as_secs_f64());
    Ok(told(&report.counts, &report.differences))
}

/// Says what was counted and what differed; true where nothing did.
fn told(counts: &BTreeMap<String, u64>, differences: &[String]) -> bool {
    for (kind, count) in counts {
        println!("{count:>9}  {kind}");
    }
    for difference in differences {
        println!("\nDIFFERENCE\n{difference}");
    }
    println!("{} unlisted differences", differences.len());
    differences.is_empty()
}

/// Puts questions of request #106 to the model and, point by point, to the Rust.
fn carried(questions: u64, seed: u64) -> Result<bool, String> {
    let begun = Instant::now();
    let mut report = judge::carried::Report::new(Model::document());
    report.run(&mut Random::new(seed), questions, 0, 10);
    println!("seed {seed}: {} questions put to both in {:.1} s", report.to_both, begun.elapsed().as_secs_f64());
    Ok(told(&report.counts, &report.differences))
}

/// Puts inputs of request #101 to the model, beside what is known of them.
fn written(inputs: u64, seed: u64) -> Result<bool, String> {
    let begun = Instant::now();
    let mut report = judge::written::Report::new(Model::document());
    let mut random = Random::new(seed);
    report.huge();
    report.rule_files(&mut random);
    report.run(&mut random, inputs, 0, 10);
    println!("seed {seed}: {} inputs put to the model in {:.1} s", report.inputs, begun.elapsed().as_secs_f64());
    Ok(told(&report.counts, &report.differences))
}

fn examples() -> Result<bool, String> {
    let (asked, mut differences) = ask_examples(Model::document())?;
    let (of_106, more) = judge::carried::examples::ask(Model::document())?;
    differences.extend(more);
    let (of_101, more) = judge::written::examples::ask(Model::document());
    differences.extend(more);
    let (of_112, more) = judge::json::examples::ask(Model::document())?;
    differences.extend(more);
    for difference in &differences {
        println!("DIFFERENCE\n{difference}");
    }
    let of_the_model = format!("{of_106} of #106, {of_101} of #101 and {of_112} of #112 of the model");
    println!("{asked} examples asked of both, {of_the_model}, {} differences", differences.len());
    Ok(differences.is_empty())
}

fn write_lists() -> Result<bool, String> {
    for list in lists()? {
        std::fs::write(folder().join(list.name), &list.bytes).map_err(|error| format!("{}: {error}", list.name))?;
        println!("{}: {} bytes, {}", list.name, list.bytes.len(), list.holds);
    }
    Ok(true)
}

/// Logs whose meaning or fault is known from their making, put to the model.
fn json_compare(rounds: u64, seed: u64) -> Result<bool, String> {
    let mut report = judge::json::Report::new(Model::document());
    report.run(&mut Random::new(seed), rounds, 10);
    Ok(told(&report.counts, &report.differences))
}

fn json_lines(count: u64, seed: u64) -> Result<bool, String> {
    let mut output = std::io::BufWriter::new(std::io::stdout().lock());
    judge::json::lines::write(count, seed, &mut output).map_err(|error| error.to_string())?;
    Ok(true)
}

fn json_judge() -> Result<bool, String> {
    let mut output = std::io::BufWriter::new(std::io::stdout().lock());
    judge::json::lines::judge(&mut std::io::stdin().lock(), &mut output).map_err(|error| error.to_string())?;
    Ok(true)
}

fn json_texts(list: &str) -> Result<bool, String> {
    let bytes = std::fs::read(list).map_err(|error| format!("{list}: {error}"))?;
    let (asked, differences) = judge::json::texts::ask(Model::document(), &bytes)?;
    for difference in &differences {
        println!("{difference}");
    }
    println!("{asked} texts, {} differences", differences.len());
    for &variant in Variant::WRONG_JSON {
        let (_, differences) = judge::json::texts::ask(Model { variant }, &bytes)?;
        println!("{:>9}  {variant:?}: {}", differences.len(), variant.says());
    }
    Ok(differences.is_empty())
}

fn variants(seed: u64, named: &str) -> Result<bool, String> {
    let mut missed = 0;
    let all = Variant::WRONG.iter().map(|variant| (variant, caught as fn(_, _) -> _));
    let carried = Variant::WRONG_CARRIED.iter().map(|variant| (variant, judge::carried::caught as fn(_, _) -> _));
    let written = Variant::WRONG_WRITTEN.iter().map(|variant| (variant, judge::written::caught as fn(_, _) -> _));
    let json = Variant::WRONG_JSON.iter().map(|variant| (variant, judge::json::caught as fn(_, _) -> _));
    let wanted = |(variant, _): &(&Variant, _)| format!("{variant:?}").starts_with(named);
    let all: Vec<_> = all.chain(carried).chain(written).chain(json).filter(wanted).collect();
    for &(&variant, caught) in &all {
        let by: Vec<String> = caught(variant, seed)?;
        missed += by.is_empty() as usize;
        println!("{variant:?}: {}", variant.says());
        for how in if by.is_empty() { vec!["NOT CAUGHT".to_string()] } else { by } {
            println!("    {how}");
        }
    }
    println!("{} variants, {missed} not caught", all.len());
    Ok(missed == 0)
}
