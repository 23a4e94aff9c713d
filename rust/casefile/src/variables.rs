//! Sets of variables.

/// A set of variables.
#[derive(Clone, Copy, Debug, Default, PartialEq, Eq, Hash)]
pub struct Variables(u32);

impl Variables {
    pub fn of(variables: impl IntoIterator<Item = u32>) -> Variables {
        variables.into_iter().fold(Variables::default(), Variables::with)
    }

    pub fn with(self, variable: u32) -> Variables {
        Variables(self.0 | 1u32.checked_shl(variable).unwrap_or(0))
    }

    pub fn contains(self, variable: u32) -> bool {
        self.both(Variables::default().with(variable)).0 != 0
    }

    pub fn or(self, other: Variables) -> Variables {
        Variables(self.0 | other.0)
    }

    pub fn both(self, other: Variables) -> Variables {
        Variables(self.0 & other.0)
    }

    pub fn but(self, other: Variables) -> Variables {
        Variables(self.0 & !other.0)
    }

    pub fn iter(self) -> impl Iterator<Item = u32> {
        (0..32).filter(move |&variable| self.contains(variable))
    }

    pub fn is_empty(self) -> bool {
        self.0 == 0
    }
}
