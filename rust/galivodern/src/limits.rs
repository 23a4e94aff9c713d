/// What an answer may take. A call that would take more is refused, never cut short silently.
///
/// ```
/// use galivodern::Limits;
///
/// let limits = Limits { steps: 10_000, ..Limits::default() };
/// assert_eq!(limits.room, 256);
/// ```
#[derive(Clone, Copy, Debug, PartialEq, Eq)]
pub struct Limits {
    /// The most steps that may be spent. Each visit of a node costs one.
    pub steps: u64,
    /// The most rows that may be held at once. A row takes 16 bytes for each variable of the case,
    /// and a call clears as much memory as this many rows take.
    pub room: usize,
}

impl Limits {
    /// The most steps that any call allows.
    pub const MOST_STEPS: u64 = 1_000_000_000;

    /// The most room that any call allows.
    pub const MOST_ROOM: usize = 16_384;

    /// As much as any call allows.
    pub const MOST: Limits = Limits { steps: Limits::MOST_STEPS, room: Limits::MOST_ROOM };
}

/// What the program `bench` allows: a million steps and 256 rows.
impl Default for Limits {
    fn default() -> Limits {
        Limits { steps: 1_000_000, room: 256 }
    }
}
