//! Rules over a board's log: was this board reviewed within the last hour, and has nothing been
//! flashed since? A rule is asked at a point of the log, and the answer can be trusted: the code
//! that gives it is proved to be what its definition says, for every case and every question.
//!
//! A [`Case`] is one file, with the log and the rules as numbered nodes. It is checked once, when
//! it is made. After that you ask it: [`Case::ask`] says yes or no of a condition and gives the number
//! of an aggregate, [`Case::rows`] gives what a condition finds, and [`Case::carried`] says which past
//! event carried a yes. You set [`Limits`] to the steps and rows that
//! an answer may take; none takes more, and every answer says how many it took.
//!
//! ```
//! use galivodern::{Bindings, Case, Limits, PointNo};
//!
//! let case = Case::from_text(r#"
//!     point 100 Review logged {board: "b1"}
//!     point 110 Flash logged {board: "b1"}
//!     rule reviewed = formerly within 1h Review(board: "b1")
//! "#)?;
//! let reviewed = case.rule("reviewed").expect("the rule is named so");
//!
//! let answer = case.ask(PointNo(1), reviewed, &Bindings::new(), Limits::default())?;
//! assert!(answer.verdict());
//! assert_eq!((answer.steps, answer.held), (3, 0));
//! # Ok::<(), Box<dyn std::error::Error>>(())
//! ```
//!
//! Here the case is written as text; [`CaseBuilder`] makes one by method calls, [`Case::from_json_lines`] takes the
//! points from a JSON log, an event a line, and [`Case::new`] takes a
//! case file, which the command `galivodern pack` writes from such a text. In the repository docs/CASE-TEXT.md describes the
//! text, docs/JSON-LOGS.md the log, docs/MEANING.md what each construct means and docs/FORMAT.md the file.
//!
//! # What is proved, and what is assumed
//!
//! The calls that this crate wraps are proved; their contracts are in the repository's
//! `crates/capi`. Among them are the writer that makes a case of what a text or a [`CaseBuilder`] says, and import and
//! export of JSON logs. That a log's points and a text's rules are put into one case is plain Rust.
//! This crate itself is plain Rust, which is tested, and so is the packer behind [`Case::from_text`]. The `unsafe` code stands in one module, `sys`, and says at each place why it
//! is sound.

#![deny(missing_docs)]
#![deny(clippy::must_use_candidate)]

mod answer;
mod bindings;
mod builder;
mod carried;
mod case;
mod json;
mod limits;
mod names;
mod numbers;
mod points;
mod records;
mod refusal;
mod rows;
mod sys;
mod window;

pub use answer::{Answer, Answered};
pub use bindings::{Bindings, Bound};
pub use builder::{
    AggregateId, ArithmeticOp, BuildError, CaseBuilder, CompareOp, ConditionId, NewPoint, ObjectId, OperandId,
    Predicate, TermId, ValueId, VariableId, Within,
};
pub use carried::Carried;
pub use case::{Case, Contents};
pub use json::{JsonLog, LogError, LogFault, LogPlace};
pub use limits::Limits;
pub use names::Fault;
pub use numbers::{PointNo, RuleNo, VariableNo};
pub use points::{Entity, Point, Points};
pub use records::{Sort, Value};
pub use refusal::{Refusal, Refused};
pub use rows::{Row, RowIter, Rows, RowsIter};
pub use window::Window;

/// The README's program, to be tried with the others.
#[cfg(doctest)]
#[doc = include_str!("../README.md")]
struct Readme;
