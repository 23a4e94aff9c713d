//! Numbers of a case's records, each of a type of its own: none can be taken for another.

use std::fmt;

/// A point of the log by its number. The first is 0.
#[derive(Clone, Copy, Debug, PartialEq, Eq, PartialOrd, Ord, Hash)]
pub struct PointNo(pub usize);

/// A rule by the number of its node: a condition, a count or a sum. [`Case::rule`] gives it for a
/// name.
///
/// A point is no rule, and the compiler says so:
///
/// ```compile_fail,E0308
/// # use galivodern::{Bindings, Case, Limits, PointNo, RuleNo};
/// # fn asks(case: &Case, point: PointNo, rule: RuleNo) {
/// case.ask(rule, point, &Bindings::new(), Limits::default());
/// # }
/// ```
///
/// [`Case::rule`]: crate::Case::rule
#[derive(Clone, Copy, Debug, PartialEq, Eq, PartialOrd, Ord, Hash)]
pub struct RuleNo(pub u32);

/// A variable by its number. [`Case::variable`] gives it for a name.
///
/// [`Case::variable`]: crate::Case::variable
#[derive(Clone, Copy, Debug, PartialEq, Eq, PartialOrd, Ord, Hash)]
pub struct VariableNo(pub u16);

impl fmt::Display for PointNo {
    fn fmt(&self, f: &mut fmt::Formatter) -> fmt::Result {
        self.0.fmt(f)
    }
}

impl fmt::Display for RuleNo {
    fn fmt(&self, f: &mut fmt::Formatter) -> fmt::Result {
        self.0.fmt(f)
    }
}

impl fmt::Display for VariableNo {
    fn fmt(&self, f: &mut fmt::Formatter) -> fmt::Result {
        self.0.fmt(f)
    }
}
