use std::fmt;

use crate::refusal::Refusal;

/// Why a [`CaseBuilder`](crate::CaseBuilder) gives no case: what was wrong first.
#[derive(Clone, Debug, PartialEq, Eq)]
#[non_exhaustive]
pub enum BuildError {
    /// Something of another builder was used.
    Foreign,
    /// An object has a name twice.
    RepeatedName {
        /// The name.
        name: String,
    },
    /// A point has an entity twice.
    RepeatedEntity {
        /// Its type.
        ty: String,
        /// Its id.
        id: String,
    },
    /// Two rules have one name.
    RepeatedRule {
        /// The name.
        name: String,
    },
    /// A path without a name, where one is needed.
    EmptyPath,
    /// A name of a path holds a dot: a path is given name by name.
    DottedPath {
        /// The name.
        name: String,
    },
    /// The writer refuses what was built.
    Refused {
        /// Its refusal.
        refusal: Refusal,
        /// What it is about, where that was found.
        why: Option<String>,
    },
}

impl fmt::Display for BuildError {
    fn fmt(&self, f: &mut fmt::Formatter) -> fmt::Result {
        match self {
            BuildError::Foreign => f.write_str("something of another builder was used"),
            BuildError::RepeatedName { name } => write!(f, "an object has the name {name:?} twice"),
            BuildError::RepeatedEntity { ty, id } => write!(f, "a point has the entity {ty}::{id:?} twice"),
            BuildError::RepeatedRule { name } => write!(f, "two rules have the name {name:?}"),
            BuildError::EmptyPath => f.write_str("a path needs a name at least"),
            BuildError::DottedPath { name } => {
                write!(f, "a name of a path holds a dot: {name:?}; a path is given name by name")
            }
            BuildError::Refused { refusal, why: None } => refusal.fmt(f),
            BuildError::Refused { refusal, why: Some(why) } => write!(f, "{refusal}: {why}"),
        }
    }
}

impl std::error::Error for BuildError {
    fn source(&self) -> Option<&(dyn std::error::Error + 'static)> {
        match self {
            BuildError::Refused { refusal, .. } => Some(refusal),
            _ => None,
        }
    }
}
