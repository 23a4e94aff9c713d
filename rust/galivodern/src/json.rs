use std::fmt;
use std::io::{self, Read};

use casefile::log::{why, Log, Place};
use casefile::text::pack_rules_with;
use casefile::Unsorted;

use crate::case::Case;
use crate::names::{Fault, Names};
use crate::refusal::Refusal;
use crate::sys;

/// A JSON log that was read: an event a line, as docs/JSON-LOGS.md in the repository describes it.
///
/// ```
/// use galivodern::{JsonLog, Refusal};
///
/// let line = r#"{"time":5,"namespace":[],"action":"Flash","kind":"request","logged":{},"context":{},"entities":[]}"#;
/// let log = JsonLog::new(line.as_bytes())?;
/// assert_eq!(log.events(), 1);
/// assert_eq!(log.case()?.point(galivodern::PointNo(0)).unwrap().action(), "Flash");
///
/// let fault = JsonLog::new(format!("{line}\n{{\"time\":1.5}}").as_bytes()).unwrap_err();
/// assert_eq!((fault.refusal, fault.place.line, fault.place.column), (Refusal::BadNumber, 2, 9));
/// # Ok::<(), Box<dyn std::error::Error>>(())
/// ```
#[derive(Clone, Debug)]
pub struct JsonLog {
    unsorted: Vec<u8>,
    marks: Vec<u8>,
    log: Log,
}

impl JsonLog {
    /// Reads a log, by the proved import.
    pub fn new(text: &[u8]) -> Result<JsonLog, LogFault> {
        let sys::Trace { unsorted, marks } = sys::import(text).map_err(|faulty| LogFault::of(text, &faulty))?;
        let log = Log::of(&unsorted, &marks).expect("the import writes tables");
        Ok(JsonLog { unsorted, marks, log })
    }

    /// Reads a log from a file, from standard input or from whatever else can be read, to its end.
    pub fn read(mut reader: impl Read) -> Result<JsonLog, LogError> {
        let mut text = Vec::new();
        reader.read_to_end(&mut text).map_err(LogError::Unread)?;
        Ok(JsonLog::new(&text)?)
    }

    /// How many events it has: its lines.
    #[must_use]
    pub fn events(&self) -> usize {
        self.log.events()
    }

    /// The events as an unsorted case: what [`Case::from_unsorted`] takes.
    #[must_use]
    pub fn unsorted(&self) -> &[u8] {
        &self.unsorted
    }

    /// The marks of the unsorted case.
    #[must_use]
    pub fn marks(&self) -> &[u8] {
        &self.marks
    }

    /// The case that has these events for its points, and no rules.
    pub fn case(&self) -> Result<Case, LogError> {
        let written = Case::from_unsorted(&self.unsorted, &self.marks);
        written.map_err(|refusal| self.refused(refusal, &Unsorted::default()))
    }

    /// The case that has these events for its points, and the rules of a text.
    pub fn with_rules(&self, rules: &str) -> Result<Case, LogError> {
        let (mut made, mut refused) = (None, None);
        let packed = pack_rules_with(rules, |unsorted| match self.joined(unsorted) {
            Ok(case) => {
                let bytes = case.bytes().to_vec();
                made = Some(case);
                Ok(bytes)
            }
            Err(error) => {
                let told = error.to_string();
                refused = Some(error);
                Err(told)
            }
        });
        match (packed, refused) {
            (_, Some(error)) => Err(error),
            (Err(mut faults), None) => Err(LogError::Rules(Fault::from(faults.swap_remove(0)))),
            (Ok(packed), None) => Ok(made.expect("a text that packs was written").with_names(Names::of(&packed))),
        }
    }

    fn joined(&self, rules: Unsorted) -> Result<Case, LogError> {
        let Some(joined) = self.log.joined(rules.clone()) else {
            return Err(self.refused(Refusal::TooLarge, &rules));
        };
        let written = Case::from_unsorted(&joined.tables.encode(), &joined.marks);
        written.map_err(|refusal| self.refused(refusal, &rules))
    }

    /// What the writer says against these events, with these rules.
    fn refused(&self, refusal: Refusal, rules: &Unsorted) -> LogError {
        let (line, why) = self.log.refused(refusal.number(), &rules.tables);
        LogError::Refused { refusal, line, why }
    }
}

/// A place in a log. Line and column count from 1, the column in characters.
#[derive(Clone, Copy, Debug, PartialEq, Eq)]
#[non_exhaustive]
pub struct LogPlace {
    /// The bytes of the whole log before it.
    pub byte: usize,
    /// The line: each ends at a line feed.
    pub line: usize,
    /// The column, in characters; bytes that are no UTF-8 count as the replacement characters that they are shown as.
    pub column: usize,
}

impl From<Place> for LogPlace {
    fn from(place: Place) -> LogPlace {
        LogPlace { byte: place.byte, line: place.line, column: place.column }
    }
}

/// The first fault of a log.
#[derive(Clone, Debug, PartialEq, Eq)]
#[non_exhaustive]
pub struct LogFault {
    /// Its refusal, from [`Refusal::NotJson`] to [`Refusal::TooDeep`]; or [`Refusal::TooLarge`] for a log that no file
    /// can hold, at its beginning.
    pub refusal: Refusal,
    /// Where it is.
    pub place: LogPlace,
    /// Of a repeated name, where it stands first.
    pub first: Option<LogPlace>,
    /// What is wrong there, in words.
    pub why: String,
}

impl LogFault {
    fn of(text: &[u8], faulty: &sys::Faulty) -> LogFault {
        let refusal = Refusal::of_return(faulty.returned).expect("0 is no refusal");
        let place = Place::of(text, faulty.at);
        let first = (refusal == Refusal::RepeatedName).then(|| Place::of(text, faulty.first).into());
        let why = if refusal < Refusal::NotJson { refusal.to_string() } else { why(refusal.number(), text, place) };
        LogFault { refusal, place: place.into(), first, why }
    }
}

impl fmt::Display for LogFault {
    fn fmt(&self, f: &mut fmt::Formatter) -> fmt::Result {
        let LogFault { place, first, why, .. } = self;
        write!(f, "{}:{}: {why}", place.line, place.column)?;
        match first {
            Some(first) => write!(f, " (the first is at {}:{})", first.line, first.column),
            None => Ok(()),
        }
    }
}

impl std::error::Error for LogFault {
    fn source(&self) -> Option<&(dyn std::error::Error + 'static)> {
        Some(&self.refusal)
    }
}

/// Why a JSON log, or one with rules, gives no case.
#[derive(Debug)]
#[non_exhaustive]
pub enum LogError {
    /// The log could not be read.
    Unread(io::Error),
    /// A line of the log is at fault.
    Log(LogFault),
    /// The text of the rules is at fault, as one with points is.
    Rules(Fault),
    /// The log is read, and no case holds it: it has too many events, or an event an entity twice.
    Refused {
        /// The writer's refusal.
        refusal: Refusal,
        /// The line of the log, where one is at fault.
        line: Option<usize>,
        /// What it is about, where that was found; of too many events how many fit.
        why: Option<String>,
    },
}

impl fmt::Display for LogError {
    fn fmt(&self, f: &mut fmt::Formatter) -> fmt::Result {
        match self {
            LogError::Unread(error) => write!(f, "the log cannot be read: {error}"),
            LogError::Log(fault) => write!(f, "the log, {fault}"),
            LogError::Rules(fault) => write!(f, "the rules, {fault}"),
            LogError::Refused { refusal, line, why } => {
                if let Some(line) = line {
                    write!(f, "the log, line {line}: ")?;
                }
                match why {
                    Some(why) => f.write_str(why),
                    None => refusal.fmt(f),
                }
            }
        }
    }
}

impl std::error::Error for LogError {
    fn source(&self) -> Option<&(dyn std::error::Error + 'static)> {
        match self {
            LogError::Unread(error) => Some(error),
            LogError::Log(fault) => Some(fault),
            LogError::Rules(fault) => Some(fault),
            LogError::Refused { refusal, .. } => Some(refusal),
        }
    }
}

impl From<LogFault> for LogError {
    fn from(fault: LogFault) -> LogError {
        LogError::Log(fault)
    }
}
