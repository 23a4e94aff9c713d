use crate::numbers::VariableNo;

/// What a variable is bound to. There may be more ways one day, so that a `match` needs an arm for
/// the rest:
///
/// ```compile_fail,E0004
/// # use galivodern::Bound;
/// # fn shown(bound: Bound) {
/// match bound {
///     Bound::Int(_) | Bound::Value(_) | Bound::Part(_) => {}
/// }
/// # }
/// ```
#[derive(Clone, Copy, Debug, PartialEq, Eq, Hash)]
#[non_exhaustive]
pub enum Bound {
    /// An integer.
    Int(i64),
    /// A value of the case by its number; not one that is an integer. [`Case::value`] reads it.
    ///
    /// [`Case::value`]: crate::Case::value
    Value(u32),
    /// An entity's own id or type: a string of the case by its number. It equals a String value of
    /// the same text. [`Case::string`] reads it.
    ///
    /// [`Case::string`]: crate::Case::string
    Part(u32),
}

impl Bound {
    pub(crate) fn cells(self) -> [u64; 2] {
        match self {
            Bound::Int(number) => [1, number as u64],
            Bound::Value(value) => [2, u64::from(value)],
            Bound::Part(string) => [3, u64::from(string)],
        }
    }

    /// What two cells of an answer hold; None where unbound.
    pub(crate) fn of_cells(tag: u64, bits: u64) -> Option<Bound> {
        match tag {
            1 => Some(Bound::Int(bits as i64)),
            2 => Some(Bound::Value(bits as u32)),
            3 => Some(Bound::Part(bits as u32)),
            _ => None,
        }
    }
}

/// The variables that are bound when a question is asked. Variables are numbered from 0; those that
/// are not named here are unbound.
///
/// ```
/// use galivodern::{Bindings, Bound, VariableNo};
///
/// let bindings = Bindings::new().with(VariableNo(0), Bound::Int(9));
/// assert_eq!(bindings.get(VariableNo(0)), Some(Bound::Int(9)));
/// assert_eq!(bindings.get(VariableNo(1)), None);
/// ```
#[derive(Clone, Debug, Default, PartialEq, Eq)]
#[must_use]
pub struct Bindings {
    /// Two cells a variable, up to the last one that was bound.
    cells: Vec<u64>,
}

impl Bindings {
    /// Every variable unbound.
    pub fn new() -> Bindings {
        Bindings::default()
    }

    /// The same with one variable bound. A question is refused, [`BadStart`], where the case has no
    /// such variable.
    ///
    /// [`BadStart`]: crate::Refusal::BadStart
    pub fn with(mut self, variable: VariableNo, to: Bound) -> Bindings {
        let at = 2 * usize::from(variable.0);
        if self.cells.len() < at + 2 {
            self.cells.resize(at + 2, 0);
        }
        self.cells[at..at + 2].copy_from_slice(&to.cells());
        self
    }

    /// What a variable is bound to.
    #[must_use]
    pub fn get(&self, variable: VariableNo) -> Option<Bound> {
        let at = 2 * usize::from(variable.0);
        let cells = self.cells.get(at..at + 2)?;
        Bound::of_cells(cells[0], cells[1])
    }

    pub(crate) fn cells(&self) -> &[u64] {
        &self.cells
    }
}
