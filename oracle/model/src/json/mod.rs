//! Request #112: JSON logs. Written from its reading (J1 to J24) alone.

mod export;
mod read;
mod trace;

use crate::calls::Model;

pub use export::Exported;
pub use trace::Trace;

/// A value of a log; members stand in the order in which they were met.
#[derive(Clone, Debug, PartialEq, Eq)]
pub enum Json {
    Null,
    Bool(bool),
    Int(i64),
    Decimal(Vec<u8>),
    String(Vec<u8>),
    Entity(Vec<u8>, Vec<u8>),
    Array(Vec<Json>),
    Object(Members),
}

/// Names and values of an object.
pub type Members = Vec<(Vec<u8>, Json)>;

/// A line of a log.
#[derive(Clone, Debug, Default, PartialEq, Eq)]
pub struct Event {
    pub time: i64,
    pub namespace: Vec<Vec<u8>>,
    pub action: Vec<u8>,
    pub kind: Vec<u8>,
    pub logged: Members,
    pub context: Members,
    pub principal: Option<Json>,
    pub resource: Option<Json>,
    /// Type, id and attributes.
    pub entities: Vec<(Vec<u8>, Vec<u8>, Members)>,
}

/// A refusal at a byte of the text; of 21 also where the first of the two names stands.
#[derive(Clone, Copy, Debug, PartialEq, Eq)]
pub struct Refused {
    pub refusal: u32,
    pub place: usize,
    pub first: Option<usize>,
}

/// What the import answers: a refusal with its place (0 where it has none), or how much was written.
#[derive(Clone, Copy, Debug, Default, PartialEq, Eq)]
pub struct Imported {
    pub refusal: u32,
    pub place: usize,
    /// Where the first of two equal names stands.
    pub first: usize,
    pub bytes: usize,
    pub marks: usize,
}

impl Model {
    /// The events of a log, one a line, or the first fault.
    pub fn events(self, text: &[u8]) -> Result<Vec<Event>, Refused> {
        read::events(self.variant, text)
    }

    /// The unsorted case of events, and its marks.
    pub fn trace(self, events: &[Event]) -> Trace {
        trace::trace(self.variant, events)
    }

    /// Import with every buffer: `cells` are lent for the names of open objects.
    pub fn import(self, text: &[u8], cells: usize, trace: &mut [u8], marks: &mut [u8]) -> Imported {
        let refused = |refusal| Imported { refusal, ..Imported::default() };
        if (cells as u128) * 4 < text.len() as u128 {
            return refused(10);
        }
        let events = match self.events(text) {
            Ok(events) => events,
            Err(Refused { refusal, place, first }) => {
                return Imported { place, first: first.unwrap_or(0), ..refused(refusal) };
            }
        };
        let made = self.trace(&events);
        if trace.len() < made.bytes.len() || marks.len() < made.marks.len() {
            return refused(14);
        }
        trace[..made.bytes.len()].copy_from_slice(&made.bytes);
        marks[..made.marks.len()].copy_from_slice(&made.marks);
        Imported { bytes: made.bytes.len(), marks: made.marks.len(), ..Imported::default() }
    }
}
