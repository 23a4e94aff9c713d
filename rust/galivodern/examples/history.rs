//! The log as a table, and a rule's answer at each of its points.
//!
//!     cargo run --example history -- CASE RULE     CASE is the text of a case

use std::error::Error;

use galivodern::{Bindings, Case, Limits, Point};

fn main() -> Result<(), Box<dyn Error>> {
    let arguments: Vec<String> = std::env::args().skip(1).collect();
    let [file, rule] = &arguments[..] else { return Err("usage: history CASE RULE".into()) };
    print!("{}", table(&std::fs::read_to_string(file)?, rule)?);
    Ok(())
}

/// A line a point: number, time, action, fields, answer.
pub fn table(text: &str, rule: &str) -> Result<String, Box<dyn Error>> {
    let case = Case::from_text(text)?;
    let rule = case.rule(rule).ok_or_else(|| format!("there is no rule `{rule}`"))?;
    let mut table = String::new();
    for point in case.points() {
        let answer = case.ask(point.number(), rule, &Bindings::new(), Limits::default())?;
        table.push_str(&format!("{} {} {} {}\n", point.number(), point.time(), described(point), answer.value));
    }
    Ok(table)
}

fn described(point: Point) -> String {
    let fields: Vec<String> = point.fields().map(|(name, value)| format!("{name}: {value:?}")).collect();
    format!("{}({})", point.action(), fields.join(", "))
}
