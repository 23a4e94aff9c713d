use std::fmt;
use std::ops::Range;

use crate::numbers::PointNo;
use crate::records::{Records, Value};

/// The points of a case in their order: what [`Case::points`] gives.
///
/// [`Case::points`]: crate::Case::points
#[derive(Clone)]
#[must_use = "an iterator does nothing unless it is asked"]
pub struct Points<'a> {
    records: Records<'a>,
    left: Range<usize>,
}

impl<'a> Points<'a> {
    pub(crate) fn new(records: Records<'a>, count: usize) -> Points<'a> {
        Points { records, left: 0..count }
    }
}

impl<'a> Iterator for Points<'a> {
    type Item = Point<'a>;

    fn next(&mut self) -> Option<Point<'a>> {
        self.left.next().map(|number| Point::new(self.records, number))
    }

    fn size_hint(&self) -> (usize, Option<usize>) {
        self.left.size_hint()
    }
}

impl DoubleEndedIterator for Points<'_> {
    fn next_back(&mut self) -> Option<Self::Item> {
        self.left.next_back().map(|number| Point::new(self.records, number))
    }
}

impl ExactSizeIterator for Points<'_> {}

impl fmt::Debug for Points<'_> {
    fn fmt(&self, f: &mut fmt::Formatter) -> fmt::Result {
        f.debug_tuple("Points").field(&self.left).finish()
    }
}

/// One point of the log: what happened, when, and with which fields.
#[derive(Clone, Copy)]
pub struct Point<'a> {
    records: Records<'a>,
    number: usize,
    words: [u32; 12],
}

impl<'a> Point<'a> {
    fn new(records: Records<'a>, number: usize) -> Point<'a> {
        // A case has at most 16,384 points.
        Point { records, number, words: records.point(number as u32) }
    }

    /// Its number in the log.
    #[must_use]
    pub fn number(&self) -> PointNo {
        PointNo(self.number)
    }

    /// When it happened, in seconds.
    #[must_use]
    pub fn time(&self) -> i64 {
        (u64::from(self.words[0]) | u64::from(self.words[1]) << 32) as i64
    }

    /// The names before the action: `Motor`, `Line` of `Motor::Line::Flash`.
    #[must_use]
    pub fn namespace(&self) -> impl ExactSizeIterator<Item = &'a str> {
        let (records, first) = (self.records, self.words[2]);
        (0..self.words[3]).map(move |k| records.string(records.list(first + k)))
    }

    /// What happened.
    #[must_use]
    pub fn action(&self) -> &'a str {
        self.records.string(self.words[4])
    }

    /// The kind of event: `request` where the text of a case says no other.
    #[must_use]
    pub fn kind(&self) -> &'a str {
        self.records.string(self.words[5])
    }

    /// The logged fields, in the byte order of their names.
    #[must_use]
    pub fn fields(&self) -> impl ExactSizeIterator<Item = (&'a str, Value<'a>)> {
        self.records.object(self.words[6])
    }

    /// A logged field.
    #[must_use]
    pub fn field(&self, name: &str) -> Option<Value<'a>> {
        self.fields().find(|(known, _)| *known == name).map(|(_, value)| value)
    }

    /// The fields of the context, in the byte order of their names.
    #[must_use]
    pub fn context(&self) -> impl ExactSizeIterator<Item = (&'a str, Value<'a>)> {
        self.records.object(self.words[7])
    }

    /// Who acted, if the log says it.
    #[must_use]
    pub fn principal(&self) -> Option<Value<'a>> {
        self.records.maybe(self.words[8])
    }

    /// What was acted on, if the log says it.
    #[must_use]
    pub fn resource(&self) -> Option<Value<'a>> {
        self.records.maybe(self.words[9])
    }

    /// The entities whose attributes are known at this point.
    #[must_use]
    pub fn entities(&self) -> impl ExactSizeIterator<Item = Entity<'a>> {
        let (records, first) = (self.records, self.words[10]);
        (0..self.words[11]).map(move |k| {
            let [ty, id, attributes] = [0, 1, 2].map(|word| records.list(first + 3 * k + word));
            Entity { records, ty: records.string(ty), id: records.string(id), attributes }
        })
    }
}

impl fmt::Debug for Point<'_> {
    fn fmt(&self, f: &mut fmt::Formatter) -> fmt::Result {
        let mut shown = f.debug_struct("Point");
        shown.field("number", &self.number).field("time", &self.time());
        shown.field("action", &self.action()).field("kind", &self.kind()).finish_non_exhaustive()
    }
}

/// An entity with its attributes, as one point knows it.
#[derive(Clone, Copy)]
#[non_exhaustive]
pub struct Entity<'a> {
    records: Records<'a>,
    /// Its type.
    pub ty: &'a str,
    /// Its id.
    pub id: &'a str,
    attributes: u32,
}

impl<'a> Entity<'a> {
    /// The attributes, in the byte order of their names.
    #[must_use]
    pub fn attributes(&self) -> impl ExactSizeIterator<Item = (&'a str, Value<'a>)> {
        self.records.object(self.attributes)
    }
}

impl fmt::Debug for Entity<'_> {
    fn fmt(&self, f: &mut fmt::Formatter) -> fmt::Result {
        write!(f, "{}::{:?}", self.ty, self.id)
    }
}
