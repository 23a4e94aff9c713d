//! What a rule says that no point bears out: names that are never logged, comparisons that can never hold, times that
//! fall. None of it is against document 01, and each may be a slip that turns a `not` into a yes.

mod known;
mod points;
mod rules;
mod schema;
mod times;
mod types;

pub use known::{Fields, Kinds, Known};
pub use points::points;
pub use rules::rules;
pub use schema::schema;
pub use times::{ahead, falling};

/// What a warning is about, so that its place can be told.
#[derive(Clone, Copy, Debug, PartialEq, Eq)]
pub enum About {
    Node(u32),
    /// An argument of a predicate, by its number.
    Argument(u32, usize),
    Point(u32),
}

#[derive(Clone, Debug, PartialEq, Eq)]
pub struct Warning {
    pub about: About,
    pub message: String,
}
