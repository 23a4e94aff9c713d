use std::fmt;

use galivodern::{Refusal, Refused};

/// Why there is no answer: what a case cannot hold, or a refusal.
#[derive(Clone, Debug, PartialEq, Eq)]
#[non_exhaustive]
pub enum Error {
    /// The trace has no point of this number.
    NoSuchPoint(usize),
    /// A macro call, a sigil or a refinement: expansion has not run. Dogwood's evaluator panics.
    Unexpanded,
    /// A case has at most 16 variables.
    TooManyVariables,
    /// A variable whose name could be taken for a key of context or scope.
    VariableName(String),
    /// A scope term with a root that is neither `principal` nor `resource`.
    NoSuchRoot(String),
    /// An array term with anything but literals in it.
    ArrayTerm,
    /// A principal or resource whose type holds a quotation mark.
    EntityType(String),
    /// Context and scope in the environment are not those of the point asked about.
    OtherEnvironment,
    /// The case is refused: it is too large or too deep.
    Case(Refusal),
    /// The question is refused.
    Question(Refused),
}

impl fmt::Display for Error {
    fn fmt(&self, f: &mut fmt::Formatter) -> fmt::Result {
        match self {
            Error::NoSuchPoint(i) => write!(f, "the trace has no point {i}"),
            Error::Unexpanded => f.write_str("a macro call, a sigil or a refinement is left: expansion has not run"),
            Error::TooManyVariables => f.write_str("there are more than 16 variables"),
            Error::VariableName(name) => write!(f, "the variable `{name}` could be taken for a context or scope key"),
            Error::NoSuchRoot(root) => write!(f, "`{root}` is neither `principal` nor `resource`"),
            Error::ArrayTerm => f.write_str("an array term holds more than literals"),
            Error::EntityType(ty) => write!(f, "the type `{ty}` of a principal or resource holds a quotation mark"),
            Error::OtherEnvironment => {
                f.write_str("context and scope in the environment are not those of the point asked about")
            }
            Error::Case(refusal) => write!(f, "the case is refused: {refusal}"),
            Error::Question(refused) => write!(f, "the question is refused: {refused}"),
        }
    }
}

impl std::error::Error for Error {
    fn source(&self) -> Option<&(dyn std::error::Error + 'static)> {
        match self {
            Error::Case(refusal) => Some(refusal),
            Error::Question(refused) => Some(refused),
            _ => None,
        }
    }
}

impl From<Refused> for Error {
    fn from(refused: Refused) -> Error {
        Error::Question(refused)
    }
}
