use std::ops::Range;
use std::slice::ChunksExact;

use crate::bindings::Bound;

/// The rows that a condition finds, each with an entry for every binder that was asked for.
///
/// ```
/// # use galivodern::{Bindings, Bound, Case, Limits, PointNo};
/// # let case = Case::from_text("variables n\npoint 5 A logged {n: 7}\nrule found(n) = A(n: n)")?;
/// # let (rule, n) = (case.rule("found").unwrap(), case.variable("n").unwrap());
/// let found = case.rows(PointNo(0), rule, &[n], &Bindings::new(), Limits::default())?.value;
/// for row in &found {
///     for entry in row {
///         assert_eq!(entry, Some(Bound::Int(7)));
///     }
/// }
/// # assert_eq!(found.len(), 1);
/// # Ok::<(), Box<dyn std::error::Error>>(())
/// ```
#[derive(Clone, Debug, PartialEq, Eq)]
#[must_use]
pub struct Rows {
    width: usize,
    count: usize,
    /// Two cells an entry.
    cells: Vec<u64>,
}

impl Rows {
    pub(crate) fn new(width: usize, count: usize, cells: Vec<u64>) -> Rows {
        Rows { width, count, cells }
    }

    /// How many rows there are.
    #[must_use]
    pub fn len(&self) -> usize {
        self.count
    }

    /// Whether there are none.
    #[must_use]
    pub fn is_empty(&self) -> bool {
        self.count == 0
    }

    /// A row by its place, the first at 0.
    #[must_use]
    pub fn get(&self, row: usize) -> Option<Row<'_>> {
        (row < self.count).then(|| self.at(row))
    }

    /// The rows in their order.
    pub fn iter(&self) -> RowsIter<'_> {
        RowsIter { rows: self, left: 0..self.count }
    }

    fn at(&self, row: usize) -> Row<'_> {
        let cells = 2 * self.width;
        Row { cells: &self.cells[row * cells..(row + 1) * cells] }
    }
}

impl<'a> IntoIterator for &'a Rows {
    type Item = Row<'a>;
    type IntoIter = RowsIter<'a>;

    fn into_iter(self) -> RowsIter<'a> {
        self.iter()
    }
}

/// The rows in their order: what [`Rows::iter`] gives.
#[derive(Clone, Debug)]
#[must_use = "an iterator does nothing unless it is asked"]
pub struct RowsIter<'a> {
    rows: &'a Rows,
    left: Range<usize>,
}

impl<'a> Iterator for RowsIter<'a> {
    type Item = Row<'a>;

    fn next(&mut self) -> Option<Row<'a>> {
        self.left.next().map(|row| self.rows.at(row))
    }

    fn size_hint(&self) -> (usize, Option<usize>) {
        self.left.size_hint()
    }
}

impl DoubleEndedIterator for RowsIter<'_> {
    fn next_back(&mut self) -> Option<Self::Item> {
        self.left.next_back().map(|row| self.rows.at(row))
    }
}

impl ExactSizeIterator for RowsIter<'_> {}

/// One row: what each binder is bound to, in the order in which the binders were given.
#[derive(Clone, Copy, Debug, PartialEq, Eq)]
pub struct Row<'a> {
    cells: &'a [u64],
}

impl<'a> Row<'a> {
    /// What the binder at this place is bound to; None where the row leaves it unbound.
    #[must_use]
    pub fn get(&self, binder: usize) -> Option<Bound> {
        let cells = self.cells.get(2 * binder..2 * binder + 2)?;
        Bound::of_cells(cells[0], cells[1])
    }

    /// All entries in order.
    pub fn iter(&self) -> RowIter<'a> {
        RowIter { cells: self.cells.chunks_exact(2) }
    }
}

impl<'a> IntoIterator for Row<'a> {
    type Item = Option<Bound>;
    type IntoIter = RowIter<'a>;

    fn into_iter(self) -> RowIter<'a> {
        self.iter()
    }
}

/// The entries of a row in their order: what [`Row::iter`] gives.
#[derive(Clone, Debug)]
#[must_use = "an iterator does nothing unless it is asked"]
pub struct RowIter<'a> {
    cells: ChunksExact<'a, u64>,
}

impl Iterator for RowIter<'_> {
    type Item = Option<Bound>;

    fn next(&mut self) -> Option<Option<Bound>> {
        self.cells.next().map(|cells| Bound::of_cells(cells[0], cells[1]))
    }

    fn size_hint(&self) -> (usize, Option<usize>) {
        self.cells.size_hint()
    }
}

impl ExactSizeIterator for RowIter<'_> {}
