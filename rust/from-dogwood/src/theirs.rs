//! The names of Dogwood that the conversion goes by, in one place.

use std::collections::BTreeMap;

pub use dogwood::extension::temporal::ast::{
    AggExpr, AggExprKind, ArithOp, BinderSlot, CmpOp, Condition, ConditionKind, NamedArg, Predicate, Term, TimeUnit,
    TypedBinder, WithinSpec,
};
pub use dogwood::interpreter::eval::request_env;
pub use dogwood::interpreter::value::{EventData, Trace, Value};

/// Context and scope of a request, and the variables that are bound.
pub type Env = BTreeMap<String, Value>;
