//! A gate for a build: yes, no or a refusal for the last point of a case, with a status to match.
//!
//!     cargo run --example gate -- CASE RULE     CASE is the text of a case

use std::error::Error;
use std::process::ExitCode;

use galivodern::{Bindings, Case, Limits, PointNo};

fn main() -> ExitCode {
    let arguments: Vec<String> = std::env::args().skip(1).collect();
    let [file, rule] = &arguments[..] else {
        eprintln!("usage: gate CASE RULE");
        return ExitCode::from(2);
    };
    match std::fs::read_to_string(file).map_err(Into::into).and_then(|text| opens(&text, rule)) {
        Ok(true) => ExitCode::SUCCESS,
        Ok(false) => ExitCode::FAILURE,
        // Whatever goes wrong, the gate stays shut.
        Err(error) => {
            eprintln!("{file}: {error}");
            ExitCode::from(2)
        }
    }
}

/// Whether a rule holds at the last point of a case.
pub fn opens(text: &str, rule: &str) -> Result<bool, Box<dyn Error>> {
    let case = Case::from_text(text)?;
    let rule = case.rule(rule).ok_or_else(|| format!("there is no rule `{rule}`"))?;
    let last = case.contents().points.checked_sub(1).ok_or("the log is empty")?;
    let answer = case.ask(PointNo(last), rule, &Bindings::new(), Limits::default())?;
    Ok(answer.verdict())
}
