//! A model of documents 01 and 02 (#103 to #106), written from them and their readings alone:
//! literal and slow. `Model::document()` is the document; every other variant
//! has one rule changed and exists to be caught.

mod calls;
mod carried;
mod check;
mod equality;
mod file;
pub mod json;
mod lookup;
mod utf8;
mod variant;
mod walk;
mod window;
mod write;

pub use calls::{Model, Outcome, Question};
pub use carried::Carried;
pub use equality::decimal;
pub use variant::Variant;
pub use window::{window, Window};
pub use write::{marks_of_reading, uses, Use};

/// Whether two values of a checked case are equal.
pub fn values_equal(case: &[u8], a: u32, b: u32) -> bool {
    equality::values_equal(file::File { bytes: case }, Variant::Document, a, b)
}

pub const MOST_FILE_BYTES: usize = 4_194_304;
pub const MOST_RECORDS: usize = 16_384;
pub const MOST_NODES: usize = 1_024;
pub const MOST_VARIABLES: u32 = 16;
pub const MOST_HEIGHT: u32 = 64;
pub const MOST_DEPTH: u32 = 32;
pub const MOST_STEPS: u64 = 1_000_000_000;
pub const MOST_ROOM: u64 = 16_384;
