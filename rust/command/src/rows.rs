//! `rows`: what a rule finds.

use casefile::binding::Binding;
use galivodern::{Answered, PointNo, Row, Rows, RuleNo, VariableNo};

use crate::arguments::Options;
use crate::ask::{spent, Question};
use crate::failure::Failure;
use crate::json;
use crate::opened::{Asked, Opened};
use crate::output::print;
use crate::progress::Progress;
use crate::show;
use crate::Said;

pub fn rows(options: &Options) -> Result<Said, Failure> {
    let question = Question::of(options)?;
    let Question { opened, asked, point, start, limits, .. } = &question;
    opened.all_found(asked, question.bound)?;
    let binders = binders(opened, asked, options.text("--for")?)?;
    let warned = question.warnings(options)?;
    let progress = Progress::start(format!("asking {}", opened.file), None);
    let numbers: Vec<VariableNo> = binders.iter().map(|&binder| VariableNo(binder as u16)).collect();
    let said = opened.case.rows(PointNo(*point), RuleNo(asked.node), &numbers, start, *limits);
    drop(progress);
    let answer = said.map_err(|refused| question.refused(refused))?;
    let names: Vec<String> = binders.iter().map(|&variable| opened.variable_name(variable)).collect();
    let Answered { steps, held, .. } = answer;
    if options.flag("--json") {
        let rows = answer.value.iter().map(|row| json_row(opened, &names, row));
        let object = question.json().list("rows", rows).plain("steps", steps).plain("held", held);
        print(&format!("{}\n", object.warnings(&warned).done()))?;
    } else if !options.flag("--quiet") {
        let count = answer.value.len();
        let rows = if count == 1 { "row" } else { "rows" };
        print(&format!("{}{count} {rows} ({})\n", table(opened, &names, &answer.value), spent(steps, held)))?;
    }
    Ok(if answer.value.is_empty() { Said::No } else { Said::Yes })
}

/// The variables to list: those that the rule leaves free where none are named.
fn binders(opened: &Opened, asked: &Asked, named: Option<&str>) -> Result<Vec<u32>, Failure> {
    match named {
        None => Ok(Binding::of(&opened.tables).free(asked.node).iter().collect()),
        Some("") => Ok(Vec::new()),
        Some(names) => names.split(',').map(|name| opened.variable(name.trim()).map(u32::from)).collect(),
    }
}

/// A line for the names and one for each row, in columns; nothing where there are no columns.
fn table(opened: &Opened, names: &[String], rows: &Rows) -> String {
    if names.is_empty() {
        return String::new();
    }
    let mut lines = vec![names.to_vec()];
    lines.extend(rows.iter().map(|row| row.iter().map(|bound| show::text(&opened.case, bound)).collect()));
    let width = |column: usize| lines.iter().map(|line| line[column].chars().count()).max().unwrap_or(0);
    let widths: Vec<usize> = (0..names.len()).map(width).collect();
    let mut text = String::new();
    for line in &lines {
        let padded: Vec<String> = line.iter().zip(&widths).map(|(cell, &width)| format!("{cell:width$}")).collect();
        text.push_str(padded.join("  ").trim_end());
        text.push('\n');
    }
    text
}

/// An object for a row, with the variables that it binds.
fn json_row(opened: &Opened, names: &[String], row: Row) -> String {
    let bound: Vec<String> = names
        .iter()
        .zip(row.iter())
        .filter_map(|(name, bound)| Some(format!("{}:{}", json::string(name), show::json(&opened.case, bound?))))
        .collect();
    format!("{{{}}}", bound.join(","))
}
