use std::fmt;

/// What a rule or a number answers: yes or no, or a number.
///
/// ```
/// # use galivodern::{Answer, Bindings, Case, Limits, PointNo};
/// let case = Case::from_text("point 5 Flash logged {n: 7}\nrule flashed = Flash()")?;
/// let flashed = case.rule("flashed").unwrap();
/// match case.ask(PointNo(0), flashed, &Bindings::new(), Limits::default())?.value {
///     Answer::Verdict(yes) => assert!(yes),
///     Answer::Number(number) => panic!("a rule is no number: {number}"),
/// }
/// # Ok::<(), Box<dyn std::error::Error>>(())
/// ```
#[derive(Clone, Copy, Debug, PartialEq, Eq)]
#[must_use = "an answer that nobody reads opens every gate"]
pub enum Answer {
    /// Whether a condition holds.
    Verdict(bool),
    /// A count, or a sum clamped to 64 bits.
    Number(i64),
}

impl Answer {
    /// The verdict, for those who know that they asked a condition.
    ///
    /// # Panics
    ///
    /// Where an aggregate was asked.
    #[must_use]
    #[track_caller]
    pub fn verdict(self) -> bool {
        match self {
            Answer::Verdict(yes) => yes,
            Answer::Number(number) => panic!("an aggregate was asked: it gave {number}, no verdict"),
        }
    }

    /// The number, for those who know that they asked an aggregate.
    ///
    /// # Panics
    ///
    /// Where a condition was asked.
    #[must_use]
    #[track_caller]
    pub fn number(self) -> i64 {
        match self {
            Answer::Number(number) => number,
            Answer::Verdict(yes) => panic!("a condition was asked: it gave {yes}, no number"),
        }
    }
}

/// `yes`, `no`, or the number.
impl fmt::Display for Answer {
    fn fmt(&self, f: &mut fmt::Formatter) -> fmt::Result {
        match self {
            Answer::Verdict(true) => f.write_str("yes"),
            Answer::Verdict(false) => f.write_str("no"),
            Answer::Number(number) => write!(f, "{number}"),
        }
    }
}

/// What was asked for, with what it took. It is meant to be looked at:
///
/// ```compile_fail
/// #![deny(unused_must_use)]
/// # use galivodern::{Bindings, Case, Limits, PointNo, Refused, RuleNo};
/// # fn gate(case: &Case, point: PointNo, rule: RuleNo) -> Result<(), Refused> {
/// case.ask(point, rule, &Bindings::new(), Limits::default())?; // an answer that nobody reads
/// # Ok(())
/// # }
/// ```
#[derive(Clone, Copy, Debug, PartialEq, Eq)]
#[must_use = "an answer that nobody reads opens every gate"]
#[non_exhaustive]
pub struct Answered<T> {
    /// What was said: an answer or rows.
    pub value: T,
    /// The steps that were spent.
    pub steps: u64,
    /// The greatest number of rows that were held at once.
    pub held: usize,
}

impl<T> Answered<T> {
    /// The same with another value.
    pub fn map<U>(self, change: impl FnOnce(T) -> U) -> Answered<U> {
        Answered { value: change(self.value), steps: self.steps, held: self.held }
    }
}

impl Answered<Answer> {
    /// The verdict, for those who know that they asked a condition.
    ///
    /// # Panics
    ///
    /// Where an aggregate was asked.
    #[must_use]
    #[track_caller]
    pub fn verdict(&self) -> bool {
        self.value.verdict()
    }

    /// The number, for those who know that they asked an aggregate.
    ///
    /// # Panics
    ///
    /// Where a condition was asked.
    #[must_use]
    #[track_caller]
    pub fn number(&self) -> i64 {
        self.value.number()
    }
}
