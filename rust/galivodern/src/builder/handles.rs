//! What stands for the things that a builder has made, each of a type of its own.

use crate::bindings::Bound;
use crate::numbers::{RuleNo, VariableNo};

pub(crate) trait Handle: Copy {
    fn new(builder: u64, number: u32) -> Self;
    fn builder(self) -> u64;
    fn number(self) -> u32;
}

macro_rules! handles {
    ($($(#[$doc:meta])* $name:ident,)*) => {
        $(
            $(#[$doc])*
            #[derive(Clone, Copy, Debug, PartialEq, Eq, Hash)]
            pub struct $name {
                builder: u64,
                number: u32,
            }

            impl Handle for $name {
                fn new(builder: u64, number: u32) -> $name {
                    $name { builder, number }
                }

                fn builder(self) -> u64 {
                    self.builder
                }

                fn number(self) -> u32 {
                    self.number
                }
            }
        )*
    };
}

handles! {
    /// A value that a [`CaseBuilder`](crate::CaseBuilder) has made.
    ValueId,
    /// An object that a [`CaseBuilder`](crate::CaseBuilder) has made: a value that logged fields, a context and
    /// attributes can be.
    ObjectId,
    /// A variable of a [`CaseBuilder`](crate::CaseBuilder).
    VariableId,
    /// A condition that a [`CaseBuilder`](crate::CaseBuilder) has made. Any condition can be asked.
    ConditionId,
    /// A count or a sum that a [`CaseBuilder`](crate::CaseBuilder) has made. It can be asked for its number.
    AggregateId,
    /// A term that may stand anywhere: in an argument, a comparison and arithmetic.
    TermId,
    /// What may stand in a comparison and in arithmetic: a term, the number of an aggregate, arithmetic.
    OperandId,
}

impl From<ObjectId> for ValueId {
    fn from(object: ObjectId) -> ValueId {
        ValueId::new(object.builder, object.number)
    }
}

impl From<TermId> for OperandId {
    fn from(term: TermId) -> OperandId {
        OperandId::new(term.builder, term.number)
    }
}

impl From<ConditionId> for RuleNo {
    fn from(condition: ConditionId) -> RuleNo {
        RuleNo(condition.number)
    }
}

impl From<AggregateId> for RuleNo {
    fn from(aggregate: AggregateId) -> RuleNo {
        RuleNo(aggregate.number)
    }
}

impl From<VariableId> for VariableNo {
    fn from(variable: VariableId) -> VariableNo {
        // Those above the most make no case.
        VariableNo(variable.number as u16)
    }
}

/// The value's number in the case that is built. An integer is bound by [`Bound::Int`].
impl From<ValueId> for Bound {
    fn from(value: ValueId) -> Bound {
        Bound::Value(value.number)
    }
}
