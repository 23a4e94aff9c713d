//! The Rust as the judge of the model.

pub mod carried;
pub mod compare;
pub mod convert;
pub mod examples;
mod fixed;
pub mod json;
pub mod lists;
pub mod mix;
pub mod reach;
pub mod run;
pub mod rust;
pub mod variants;
pub mod written;
