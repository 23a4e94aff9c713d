//! Dogwood's traces and conditions as cases: where a program asks Dogwood's evaluator, it can ask
//! the proved code instead, and swaps one call.
//!
//! ```
//! use dogwood::interpreter::eval::{eval_condition, request_env};
//! # use dogwood::extension::temporal::ast::Condition;
//! # use dogwood::interpreter::value::Trace;
//! # fn gate(trace: &Trace, i: usize, condition: &Condition) -> Result<(), from_dogwood::Error> {
//!
//! let env = request_env(trace, i);
//! let holds = eval_condition(trace, i, &env, condition); // before
//! let holds = from_dogwood::eval_condition(trace, i, &env, condition)?; // after
//! # Ok(())
//! # }
//! ```
//!
//! The types are those of Dogwood's own three files, which `oracle/dogwood` copies at build time
//! (`DOGWOOD_SRC`, see README). To use the crate beside another copy of Dogwood, change the paths in
//! `src/theirs.rs`, the only file that names them.
//!
//! What Dogwood evaluates and a case cannot hold is an [`Error`], never another answer:
//! docs/DIFFERENCES.md lists it. A [`Conversion`] is for those who ask one trace many questions.

#![deny(missing_docs)]
#![deny(clippy::must_use_candidate)]

mod conversion;
mod error;
mod points;
mod rules;
mod theirs;
mod uid;
mod values;

use galivodern::{Limits, PointNo};

pub use conversion::Conversion;
pub use error::Error;
use theirs::{AggExpr, Condition, Env, Trace};

/// What Dogwood's `eval_condition` gives: whether a condition holds at point `i`. `env` is the
/// environment of that point's request, with whatever variables are bound besides.
pub fn eval_condition(trace: &Trace, i: usize, env: &Env, condition: &Condition) -> Result<bool, Error> {
    let mut conversion = Conversion::up_to(trace, i)?;
    let rule = conversion.condition(condition)?;
    let start = conversion.bindings(env)?;
    let case = conversion.finish()?;
    Ok(case.ask(PointNo(i), rule, &start, Limits::MOST)?.verdict())
}

/// What Dogwood's `eval_agg_expr` gives: the number of a count or a sum at point `i`.
pub fn eval_agg_expr(trace: &Trace, i: usize, env: &Env, aggregate: &AggExpr) -> Result<i64, Error> {
    let mut conversion = Conversion::up_to(trace, i)?;
    let rule = conversion.aggregate(aggregate)?;
    let start = conversion.bindings(env)?;
    let case = conversion.finish()?;
    Ok(case.ask(PointNo(i), rule, &start, Limits::MOST)?.number())
}
