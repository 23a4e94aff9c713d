//! Where a byte of a log stands.

/// A place in a log: its line and column for a reader, and the byte for a program.
#[derive(Clone, Copy, Debug, PartialEq, Eq)]
pub struct Place {
    /// Bytes of the whole log before it.
    pub byte: usize,
    /// From 1. A line ends at a line feed.
    pub line: usize,
    /// From 1, in characters: Unicode scalar values; bytes that are no UTF-8 count as the replacement characters that
    /// they are shown as.
    pub column: usize,
    /// Where the line begins and ends, in bytes of the whole log.
    start: usize,
    end: usize,
}

impl Place {
    /// Of a byte of a log, or of its end.
    pub fn of(log: &[u8], byte: usize) -> Place {
        let byte = byte.min(log.len());
        let (before, after) = log.split_at(byte);
        let start = before.iter().rposition(|&c| c == b'\n').map_or(0, |at| at + 1);
        let end = after.iter().position(|&c| c == b'\n').map_or(log.len(), |at| byte + at);
        let line = before.iter().filter(|&&c| c == b'\n').count() + 1;
        let column = String::from_utf8_lossy(&log[start..byte]).chars().count() + 1;
        Place { byte, line, column, start, end }
    }

    /// Of the first byte of a line, counted from 1.
    pub fn of_line(log: &[u8], line: usize) -> Place {
        let start = match line {
            0 | 1 => Some(0),
            _ => log.iter().enumerate().filter(|(_, &c)| c == b'\n').nth(line - 2).map(|(at, _)| at + 1),
        };
        Place::of(log, start.unwrap_or(log.len()))
    }

    /// The line that it stands in, without its end.
    pub fn line_in<'a>(&self, log: &'a [u8]) -> &'a [u8] {
        &log[self.start..self.end]
    }

    /// How many bytes of its line stand before it.
    pub fn in_line(&self) -> usize {
        self.byte - self.start
    }
}
