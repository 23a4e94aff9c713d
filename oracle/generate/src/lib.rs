//! Cases and calls to put to the model and to the Rust, all from one seed.

pub mod calls;
pub mod carried;
pub mod cases;
pub mod claims;
pub mod damage;
pub mod examples;
pub mod json;
pub mod random;
pub mod rules;
mod rules_base;
pub mod unsorted;

pub use calls::{Call, Kind};
pub use cases::{Profile, RandomCase};
pub use random::Random;
