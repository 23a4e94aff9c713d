//! Reads records of a case that has passed the check. Such a case has its tables where its contents
//! say, so nothing here looks whether they are there.

/// What a node is, and so what it answers.
#[derive(Clone, Copy, Debug, PartialEq, Eq, Hash)]
#[non_exhaustive]
pub enum Sort {
    /// Asked by [`Case::ask`] for yes or no, and by [`Case::rows`].
    ///
    /// [`Case::ask`]: crate::Case::ask
    /// [`Case::rows`]: crate::Case::rows
    Condition,
    /// Part of a condition; answers nothing by itself.
    Term,
    /// A count or a sum, asked by [`Case::ask`] for its number.
    ///
    /// [`Case::ask`]: crate::Case::ask
    Aggregate,
}

/// A value of a case. The items of arrays and objects are given by their value numbers, since a
/// case may share them; [`Case::value`] reads them.
///
/// [`Case::value`]: crate::Case::value
#[derive(Clone, Debug, PartialEq, Eq)]
#[non_exhaustive]
pub enum Value<'a> {
    /// No value.
    Null,
    /// True or false.
    Bool(bool),
    /// An integer.
    Int(i64),
    /// A decimal as it was written: `1.50` and `1.5` are equal in a rule, and differ here.
    Decimal(&'a str),
    /// Text.
    String(&'a str),
    /// An entity.
    Entity {
        /// Its type.
        ty: &'a str,
        /// Its id.
        id: &'a str,
    },
    /// Items by their value numbers.
    Array(Vec<u32>),
    /// Members by name and value number, in the byte order of their names.
    Object(Vec<(&'a str, u32)>),
}

const STRINGS: usize = 0;
const VALUES: usize = 1;
const MEMBERS: usize = 2;
const POINTS: usize = 3;
const NODES: usize = 4;
const LISTS: usize = 5;
const TEXT: usize = 6;

/// Words a record of a table, in the order of the tables; text has single bytes.
const RECORD_WORDS: [usize; 6] = [2, 4, 2, 12, 8, 1];

/// The word that stands for no principal or resource.
const NONE: u32 = u32::MAX;

/// A checked case, to be read.
#[derive(Clone, Copy)]
pub(crate) struct Records<'a> {
    pub bytes: &'a [u8],
}

impl<'a> Records<'a> {
    fn word(self, at: usize) -> u32 {
        let word: [u8; 4] = self.bytes[at..at + 4].try_into().expect("a slice of four bytes");
        u32::from_le_bytes(word)
    }

    /// Where a table starts: the contents have a pair (offset, length) for each from byte 8 on.
    fn start(self, table: usize) -> usize {
        self.word(8 + 8 * table) as usize
    }

    fn record<const WORDS: usize>(self, table: usize, number: u32) -> [u32; WORDS] {
        let at = self.start(table) + 4 * RECORD_WORDS[table] * number as usize;
        std::array::from_fn(|k| self.word(at + 4 * k))
    }

    pub fn string(self, number: u32) -> &'a str {
        let [start, length] = self.record(STRINGS, number);
        let from = self.start(TEXT) + start as usize;
        std::str::from_utf8(&self.bytes[from..from + length as usize]).expect("a checked case has UTF-8 strings")
    }

    pub fn value(self, number: u32) -> Value<'a> {
        let [kind, a, b, _] = self.record(VALUES, number);
        match kind {
            0 => Value::Null,
            1 => Value::Bool(a == 1),
            2 => Value::Int((u64::from(a) | u64::from(b) << 32) as i64),
            3 => Value::Decimal(self.string(a)),
            4 => Value::String(self.string(a)),
            5 => Value::Entity { ty: self.string(a), id: self.string(b) },
            6 => Value::Array(self.members(a, b).map(|[_, value]| value).collect()),
            _ => Value::Object(self.members(a, b).map(|[name, value]| (self.string(name), value)).collect()),
        }
    }

    /// Names and values of an object's members.
    pub fn object(self, number: u32) -> impl ExactSizeIterator<Item = (&'a str, Value<'a>)> {
        let [_, first, count] = self.record(VALUES, number);
        (0..count).map(move |k| {
            let [name, value] = self.record(MEMBERS, first + k);
            (self.string(name), self.value(value))
        })
    }

    /// A value that may be left out.
    pub fn maybe(self, number: u32) -> Option<Value<'a>> {
        (number != NONE).then(|| self.value(number))
    }

    pub fn point(self, number: u32) -> [u32; 12] {
        self.record(POINTS, number)
    }

    /// A word of the lists.
    pub fn list(self, place: u32) -> u32 {
        let [word] = self.record(LISTS, place);
        word
    }

    fn members(self, first: u32, count: u32) -> impl Iterator<Item = [u32; 2]> + 'a {
        (first..first + count).map(move |member| self.record(MEMBERS, member))
    }

    pub fn sort(self, node: u32) -> Sort {
        let [kind] = self.record(NODES, node);
        match kind {
            0..=10 => Sort::Condition,
            11..=26 => Sort::Term,
            _ => Sort::Aggregate,
        }
    }
}
