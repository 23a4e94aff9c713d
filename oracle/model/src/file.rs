//! A case file read word by word.

pub const NONE: u32 = u32::MAX;
pub const CONTENTS: usize = 64;

#[derive(Clone, Copy, PartialEq, Eq)]
pub enum Table {
    Strings,
    Values,
    Members,
    Points,
    Nodes,
    Lists,
    Text,
}

pub const TABLES: [Table; 7] =
    [Table::Strings, Table::Values, Table::Members, Table::Points, Table::Nodes, Table::Lists, Table::Text];

impl Table {
    pub fn record_bytes(self) -> usize {
        match self {
            Table::Strings | Table::Members => 8,
            Table::Values => 16,
            Table::Points => 48,
            Table::Nodes => 32,
            Table::Lists => 4,
            Table::Text => 1,
        }
    }
}

/// A file of at least 64 bytes. Records are read only once their table is known to be in place.
#[derive(Clone, Copy)]
pub struct File<'a> {
    pub bytes: &'a [u8],
}

impl<'a> File<'a> {
    fn word(self, at: usize) -> u32 {
        u32::from_le_bytes([self.bytes[at], self.bytes[at + 1], self.bytes[at + 2], self.bytes[at + 3]])
    }

    pub fn edition(self) -> u32 {
        self.word(0)
    }

    pub fn variables(self) -> u32 {
        self.word(4)
    }

    pub fn offset(self, table: Table) -> usize {
        self.word(8 + 8 * table as usize) as usize
    }

    pub fn length(self, table: Table) -> usize {
        self.word(12 + 8 * table as usize) as usize
    }

    pub fn count(self, table: Table) -> usize {
        self.length(table) / table.record_bytes()
    }

    /// Whether `number` is the number of a record of the table.
    pub fn has(self, table: Table, number: u32) -> bool {
        (number as usize) < self.count(table)
    }

    /// Whether a run of `count` items of `size` records stays in the table.
    pub fn has_run(self, table: Table, first: u32, count: u32, size: usize) -> bool {
        first as usize + count as usize * size <= self.count(table)
    }

    /// Word `k` of a record.
    pub fn field(self, table: Table, record: usize, k: usize) -> u32 {
        self.word(self.offset(table) + record * table.record_bytes() + 4 * k)
    }

    /// The words of a record.
    pub fn record<const N: usize>(self, table: Table, record: usize) -> [u32; N] {
        std::array::from_fn(|k| self.field(table, record, k))
    }

    /// The list words of a run.
    pub fn list(self, first: u32, words: usize) -> Vec<u32> {
        (first as usize..first as usize + words).map(|k| self.field(Table::Lists, k, 0)).collect()
    }

    /// The bytes of a string.
    pub fn string(self, number: u32) -> &'a [u8] {
        let [start, length]: [u32; 2] = self.record(Table::Strings, number as usize);
        let start = self.offset(Table::Text) + start as usize;
        &self.bytes[start..start + length as usize]
    }

    pub fn value(self, number: u32) -> [u32; 4] {
        self.record(Table::Values, number as usize)
    }

    pub fn node(self, number: u32) -> [u32; 8] {
        self.record(Table::Nodes, number as usize)
    }

    pub fn point(self, number: usize) -> [u32; 12] {
        self.record(Table::Points, number)
    }

    /// Name and value of every member of a run.
    pub fn members(self, first: u32, count: u32) -> Vec<[u32; 2]> {
        (first as usize..first as usize + count as usize).map(|k| self.record(Table::Members, k)).collect()
    }

    pub fn time(self, point: usize) -> i64 {
        signed(self.field(Table::Points, point, 0), self.field(Table::Points, point, 1))
    }
}

pub fn signed(low: u32, high: u32) -> i64 {
    (low as u64 | (high as u64) << 32) as i64
}
