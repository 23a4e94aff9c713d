use std::fmt;

/// Why a case or a question is refused: the first of these that applies; of `StepsExhausted` and
/// `RoomExhausted` the one that is met first.
#[derive(Clone, Copy, Debug, PartialEq, Eq, PartialOrd, Ord, Hash)]
#[repr(u8)]
#[non_exhaustive]
pub enum Refusal {
    /// Shorter than 64 bytes, edition not 1, or tables misplaced or no whole number of records.
    BadContents = 1,
    /// The file, a table or the number of variables is above its most.
    TooLarge = 2,
    /// A string rule is broken.
    BadStrings = 3,
    /// A value or member rule is broken, or a value is too deep.
    BadValues = 4,
    /// A point or entity rule is broken.
    BadPoints = 5,
    /// A node rule is broken, or a node is too high.
    BadNodes = 6,
    /// The case has no such point.
    NoSuchPoint = 7,
    /// The case has no such node, or none that the call is about: a term; for rows an aggregate, too; for
    /// carried whatever is no Formerly, Previous or Since.
    NoSuchNode = 8,
    /// The starting bindings are malformed, or leave a parameter of the rule unbound.
    BadStart = 9,
    /// A limit is above its most.
    BadLimits = 10,
    /// The answer takes more steps than allowed.
    StepsExhausted = 11,
    /// The answer takes more rows than allowed.
    RoomExhausted = 12,
    /// A binder is no variable of the case.
    BadOutput = 13,
    /// The output lent for a case is too short; the crate lends one that is not.
    OutputTooShort = 14,
    /// The list lent for points is too short; the crate lends one that is not.
    ListTooShort = 15,
    /// A line of a JSON log is no JSON, or holds half of a surrogate pair.
    NotJson = 20,
    /// An object of a JSON log has a name twice.
    RepeatedName = 21,
    /// A number of a JSON log is no integer within 64 bits.
    BadNumber = 22,
    /// A field of an event is missing, unknown or of the wrong sort.
    BadField = 23,
    /// A value of a JSON log is more than 32 deep.
    TooDeep = 24,
    /// A point of the case has an object that a reader of JSON would take for an entity or a decimal.
    AmbiguousObject = 25,
}

impl Refusal {
    /// All refusals, in order.
    pub const ALL: &[Refusal] = &[
        Refusal::BadContents,
        Refusal::TooLarge,
        Refusal::BadStrings,
        Refusal::BadValues,
        Refusal::BadPoints,
        Refusal::BadNodes,
        Refusal::NoSuchPoint,
        Refusal::NoSuchNode,
        Refusal::BadStart,
        Refusal::BadLimits,
        Refusal::StepsExhausted,
        Refusal::RoomExhausted,
        Refusal::BadOutput,
        Refusal::OutputTooShort,
        Refusal::ListTooShort,
        Refusal::NotJson,
        Refusal::RepeatedName,
        Refusal::BadNumber,
        Refusal::BadField,
        Refusal::TooDeep,
        Refusal::AmbiguousObject,
    ];

    /// Its number: from 1 to 15, and from 20 to 25 for JSON logs.
    #[must_use]
    pub fn number(self) -> u8 {
        self as u8
    }

    /// What a call returned: None for 0, an answer.
    pub(crate) fn of_return(number: u64) -> Option<Refusal> {
        if number == 0 {
            return None;
        }
        let refusal = Refusal::ALL.iter().find(|refusal| u64::from(refusal.number()) == number);
        Some(*refusal.unwrap_or_else(|| panic!("libcapi.a returned {number}, which no call of galivodern.h does here")))
    }
}

impl fmt::Display for Refusal {
    fn fmt(&self, f: &mut fmt::Formatter) -> fmt::Result {
        f.write_str(match self {
            Refusal::BadContents => {
                "no case file: shorter than 64 bytes, not of edition 1, or its tables are misplaced or cut short"
            }
            Refusal::TooLarge => "the file, one of its tables or its number of variables is larger than allowed",
            Refusal::BadStrings => {
                "a string is not UTF-8, or the strings are not in rising order or do not fill the text"
            }
            Refusal::BadValues => "a value or a member breaks a rule of the case file, or a value is more than 32 deep",
            Refusal::BadPoints => "a point or one of its entities breaks a rule of the case file",
            Refusal::BadNodes => "a node breaks a rule of the case file, or a node is more than 64 high",
            Refusal::NoSuchPoint => "the case has no such point",
            Refusal::NoSuchNode => {
                "the case has no such node, or it is none that this call is about: a term, for rows a count or a sum, \
                 for carried what is no formerly, previous or since"
            }
            Refusal::BadStart => {
                "a starting binding is malformed: no such variable, no such value or string, an integer given as a \
                 value's number, or a parameter of the rule that is not bound"
            }
            Refusal::BadLimits => "more than 1,000,000,000 steps or room for more than 16,384 rows is asked for",
            Refusal::StepsExhausted => "the answer takes more steps than allowed",
            Refusal::RoomExhausted => "the answer takes more rows than allowed",
            Refusal::BadOutput => "rows are asked for a variable that the case does not have",
            Refusal::OutputTooShort => "what is to be written is longer than the output",
            Refusal::ListTooShort => "the list is too short for the points that made the answer",
            Refusal::NotJson => "a line of the log is no JSON, or half of a surrogate pair stands alone in it",
            Refusal::RepeatedName => "a name stands twice in one object of the log",
            Refusal::BadNumber => "a number of the log is no integer within 64 bits",
            Refusal::BadField => "a field of an event is missing, unknown or of the wrong sort",
            Refusal::TooDeep => "a value of the log is more than 32 deep",
            Refusal::AmbiguousObject => {
                "an object whose only member is named __entity or __extn would be read as an entity or a decimal"
            }
        })
    }
}

impl std::error::Error for Refusal {}

/// A refused question, with what was spent on it.
#[derive(Clone, Copy, Debug, PartialEq, Eq)]
#[non_exhaustive]
pub struct Refused {
    /// Why there is no answer.
    pub refusal: Refusal,
    /// The steps that were spent before: none, unless the walk had begun.
    pub steps: u64,
    /// The greatest number of rows that were held at once.
    pub held: usize,
}

/// Refused before anything was spent.
impl From<Refusal> for Refused {
    fn from(refusal: Refusal) -> Refused {
        Refused { refusal, steps: 0, held: 0 }
    }
}

impl fmt::Display for Refused {
    fn fmt(&self, f: &mut fmt::Formatter) -> fmt::Result {
        let Refused { refusal, steps, held } = self;
        write!(f, "{refusal}")?;
        if *refusal > Refusal::BadLimits && *refusal < Refusal::OutputTooShort {
            write!(f, " ({steps} spent, at most {held} rows held)", steps = counted(*steps, "step"))?;
        }
        Ok(())
    }
}

fn counted(number: u64, what: &str) -> String {
    format!("{number} {what}{}", if number == 1 { "" } else { "s" })
}

impl std::error::Error for Refused {
    fn source(&self) -> Option<&(dyn std::error::Error + 'static)> {
        Some(&self.refusal)
    }
}
