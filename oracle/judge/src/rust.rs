//! The Rust asked: its answer, and the visits of its counted copy.

use std::collections::BTreeMap;

use casefile::Tables;
use dogwood::extension::temporal::ast::{AggExpr, Condition, TypedBinder};
use dogwood::interpreter::value::{Trace, Value};
use dogwood::interpreter::{counted, eval};
use dogwood::visits;
use generate::{Call, Kind};

use crate::convert::{binder, variable_name, Converter};

pub type Env = BTreeMap<String, Value>;

/// One row of the Rust's answer, a value or none for each binder.
pub type RustRow = Vec<Option<Value>>;

#[derive(Clone, Debug, PartialEq)]
pub enum Answer {
    Verdict(bool),
    Number(i64),
    Rows(Vec<RustRow>),
}

/// A checked case as the Rust has it.
pub struct RustCase<'a> {
    pub converter: Converter<'a>,
    pub(crate) trace: Trace,
    conditions: BTreeMap<u32, Condition>,
    aggregates: BTreeMap<u32, AggExpr>,
}

impl<'a> RustCase<'a> {
    pub fn new(tables: &'a Tables) -> RustCase<'a> {
        let converter = Converter { tables };
        let trace = converter.trace();
        RustCase { converter, trace, conditions: BTreeMap::new(), aggregates: BTreeMap::new() }
    }

    /// The Rust's answer and visits; None where it makes more than `limit` visits.
    /// Both copies are asked and must agree.
    pub fn ask(&mut self, call: &Call, limit: u64) -> Option<(Answer, u64)> {
        let env = self.env(call);
        let i = call.point as usize;
        let binders: Vec<TypedBinder> = call.binders.iter().map(|&b| binder(b)).collect();
        let names: Vec<String> = call.binders.iter().map(|&b| variable_name(b)).collect();
        let Converter { tables } = self.converter;
        let converter = Converter { tables };
        let trace = &self.trace;
        let (plain, counted) = match call.kind {
            Kind::Ask if tables.nodes[call.node as usize][0] >= 30 => {
                let agg = self.aggregates.entry(call.node).or_insert_with(|| converter.aggregate(call.node));
                let counted = visits::counted(limit, || counted::eval_agg_expr(trace, i, &env, agg))?;
                (Answer::Number(eval::eval_agg_expr(trace, i, &env, agg)), (Answer::Number(counted.0), counted.1))
            }
            Kind::Ask => {
                let cond = self.conditions.entry(call.node).or_insert_with(|| converter.condition(call.node));
                let counted = visits::counted(limit, || counted::eval_condition(trace, i, &env, cond))?;
                (Answer::Verdict(eval::eval_condition(trace, i, &env, cond)), (Answer::Verdict(counted.0), counted.1))
            }
            Kind::Rows | Kind::Check => {
                let cond = self.conditions.entry(call.node).or_insert_with(|| converter.condition(call.node));
                let counted = visits::counted(limit, || counted::projected_rows(trace, i, &env, cond, &binders))?;
                let plain = eval::projected_rows(trace, i, &env, cond, &binders);
                (Answer::Rows(by_binder(plain, &names)), (Answer::Rows(by_binder(counted.0, &names)), counted.1))
            }
        };
        assert_eq!(plain, counted.0, "counting visits changed an answer");
        Some((plain, counted.1))
    }

    /// The verdict of a condition at any point in an environment, and its visits; None where it makes
    /// more than `limit`.
    pub(crate) fn verdict_at(&mut self, env: &Env, node: u32, at: usize, limit: u64) -> Option<(bool, u64)> {
        let converter = Converter { tables: self.converter.tables };
        let condition = self.conditions.entry(node).or_insert_with(|| converter.condition(node));
        let trace = &self.trace;
        let (yes, visits) = visits::counted(limit, || counted::eval_condition(trace, at, env, condition))?;
        assert_eq!(eval::eval_condition(trace, at, env, condition), yes, "counting visits changed an answer");
        Some((yes, visits))
    }

    /// The request's environment and the starting bindings.
    pub(crate) fn env(&self, call: &Call) -> Env {
        let mut env = eval::request_env(&self.trace, call.point as usize);
        for (variable, cells) in call.start.chunks(2).enumerate() {
            if let Some(value) = self.cell_value(cells) {
                env.insert(variable_name(variable as u32), value);
            }
        }
        env
    }

    /// What two cells mean to the Rust.
    pub fn cell_value(&self, cells: &[u64]) -> Option<Value> {
        match cells[0] {
            0 => None,
            1 => Some(Value::Int(cells[1] as i64)),
            2 => Some(self.converter.value(cells[1] as u32)),
            _ => Some(Value::String(self.converter.text(cells[1] as u32))),
        }
    }
}

fn by_binder(rows: Vec<Vec<(String, Value)>>, names: &[String]) -> Vec<RustRow> {
    let value = |row: &Vec<(String, Value)>, name: &String| {
        row.iter().find(|(bound, _)| bound == name).map(|(_, value)| value.clone())
    };
    rows.iter().map(|row| names.iter().map(|name| value(row, name)).collect()).collect()
}
