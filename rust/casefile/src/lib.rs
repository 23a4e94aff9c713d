//! The case file of document 01: its tables as words, its records with names,
//! a builder, and a text form for people.

pub mod binding;
pub mod builder;
pub mod lint;
pub mod log;
pub mod near;
pub mod records;
pub mod tables;
pub mod text;
pub mod time;
pub mod unsorted;
mod variables;

pub use builder::Builder;
pub use records::{Node, Point, Run, Value, Within};
pub use tables::{Tables, NONE};
pub use unsorted::Unsorted;
pub use variables::Variables;
