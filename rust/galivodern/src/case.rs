use std::fmt;
use std::io::Read;
use std::sync::{Mutex, TryLockError};

use crate::answer::{Answer, Answered};
use crate::bindings::Bindings;
use crate::carried::Carried;
use crate::json::{JsonLog, LogError};
use crate::limits::Limits;
use crate::names::{Fault, Names};
use crate::numbers::{PointNo, RuleNo, VariableNo};
use crate::points::{Point, Points};
use crate::records::{Records, Sort, Value};
use crate::refusal::{Refusal, Refused};
use crate::rows::Rows;
use crate::sys::{self, Checked, Question, Told};

/// The most variables that a case has.
const MOST_VARIABLES: usize = 16;

/// A case that has passed the check: a log of points, and rules over it as numbered nodes.
///
/// It owns its bytes and a workspace, which it uses again from question to question. It may be
/// shared between threads: where two ask at once, the second takes a workspace of its own.
pub struct Case {
    checked: Checked,
    names: Names,
    /// What questions use one after the other; locked while one is asked.
    spare: Mutex<Buffers>,
}

#[derive(Default)]
struct Buffers {
    workspace: Vec<u64>,
    output: Vec<u64>,
}

/// How much a case holds. Each kind of record is numbered from 0.
#[derive(Clone, Copy, Debug, PartialEq, Eq)]
#[non_exhaustive]
pub struct Contents {
    /// Variables.
    pub variables: usize,
    /// Strings.
    pub strings: usize,
    /// Values.
    pub values: usize,
    /// Points of the log.
    pub points: usize,
    /// Nodes: rules, numbers and their parts.
    pub nodes: usize,
}

impl Case {
    /// Checks a case file. What is wrong with it, if anything, is one of the first six refusals.
    ///
    /// ```
    /// use galivodern::{Case, Refusal};
    ///
    /// assert_eq!(Case::new(*b"no case").unwrap_err(), Refusal::BadContents);
    /// ```
    pub fn new(bytes: impl Into<Vec<u8>>) -> Result<Case, Refusal> {
        match Checked::new(bytes.into()) {
            Ok(checked) => Ok(Case { checked, names: Names::default(), spare: Mutex::default() }),
            Err(returned) => Err(Refusal::of_return(returned).expect("0 is no refusal")),
        }
    }

    /// Packs the text of a case and checks it. docs/CASE-TEXT.md describes the text. The names that
    /// it gives are kept: [`Case::rule`] and [`Case::variable`] find them.
    ///
    /// ```
    /// use galivodern::Case;
    ///
    /// let case = Case::from_text("point 5 Flash\nrule flashed = Flash()")?;
    /// assert!(case.rule("flashed").is_some());
    ///
    /// let fault = Case::from_text("point 5 Flash\nrule flashed = Flash(").unwrap_err();
    /// assert_eq!(fault.line, 2);
    /// # Ok::<(), galivodern::Fault>(())
    /// ```
    pub fn from_text(text: &str) -> Result<Case, Fault> {
        let mut made = None;
        let packed = casefile::text::pack_with(text, |unsorted| {
            let case = Case::from_unsorted(&unsorted.tables.encode(), &unsorted.marks).map_err(Fault::refused)?;
            let bytes = case.bytes().to_vec();
            made = Some(case);
            Ok(bytes)
        });
        let packed = packed.map_err(|mut faults| Fault::from(faults.swap_remove(0)))?;
        let case = made.expect("a text that packs was written");
        Ok(case.with_names(Names::of(&packed)))
    }

    /// Writes a case from an unsorted one: the bytes of a case file whose strings may stand in any order, be equal,
    /// overlap and leave gaps. Strings are sorted and joined, and every number of one becomes the new one.
    ///
    /// `marks` has a byte for each word of the lists, not 0 where the word is a string's number: a namespace, a
    /// path, an entity's type and id. [`CaseBuilder`] makes all this by method calls; docs/FORMAT.md in the
    /// repository describes the bytes.
    ///
    /// What is wrong is one of the first six refusals, and of the case as it would be: the first for marks that are not
    /// one for each list word, too, and 5 or 6 for a word that a point or a node uses against its mark.
    ///
    /// ```
    /// use galivodern::{Case, Refusal};
    ///
    /// let case = Case::from_text("point 5 Flash\nrule flashed = Flash()")?;
    /// // No word of the lists is used here: there are none. A checked case comes out as it is.
    /// assert_eq!(Case::from_unsorted(case.bytes(), &[])?.bytes(), case.bytes());
    /// assert_eq!(Case::from_unsorted(case.bytes(), &[1]).unwrap_err(), Refusal::BadContents);
    /// # Ok::<(), Box<dyn std::error::Error>>(())
    /// ```
    ///
    /// [`CaseBuilder`]: crate::CaseBuilder
    pub fn from_unsorted(unsorted: &[u8], marks: &[u8]) -> Result<Case, Refusal> {
        match sys::write(unsorted, marks) {
            Ok(bytes) => Case::new(bytes),
            Err(returned) => Err(Refusal::of_return(returned).expect("0 is no refusal")),
        }
    }

    /// Makes a case of the points of a JSON log, an event a line, and of rules as text. docs/JSON-LOGS.md describes the
    /// log, docs/CASE-TEXT.md the text. Point 0 is the log's first line. A text that has points of its own is refused.
    ///
    /// ```
    /// # use galivodern::{Bindings, Case, Limits, PointNo};
    /// let log = r#"
    /// {"time":100,"namespace":[],"action":"Review","kind":"request","logged":{"board":"b1"},"context":{},"entities":[]}
    /// {"time":110,"namespace":[],"action":"Flash","kind":"request","logged":{"board":"b1"},"context":{},"entities":[]}
    /// "#.trim_start();
    /// let rules = r#"rule release_ok = Flash(board: "b1") and formerly within 1h Review(board: "b1")"#;
    /// let case = Case::from_json_lines(rules, log.as_bytes())?;
    /// let release_ok = case.rule("release_ok").unwrap();
    /// assert!(case.ask(PointNo(1), release_ok, &Bindings::new(), Limits::default())?.verdict());
    /// # Ok::<(), Box<dyn std::error::Error>>(())
    /// ```
    pub fn from_json_lines(rules: &str, log: impl Read) -> Result<Case, LogError> {
        JsonLog::read(log)?.with_rules(rules)
    }

    /// The points as a JSON log: a line for each, its members in the order of their names. Imported again
    /// ([`JsonLog::case`]) they are the same points. Rules and what no point reaches are left out.
    ///
    /// Refused is a case with an object that a reader would take for an entity or a decimal ([`AmbiguousObject`]), and
    /// one whose text is longer than 1 GiB ([`OutputTooShort`]): values that points share are written for each.
    ///
    /// ```
    /// # use galivodern::Case;
    /// let case = Case::from_text(r#"point 5 Flash logged {board: "b1"}"#)?;
    /// let line = r#"{"time":5,"namespace":[],"action":"Flash","kind":"request","logged":{"board":"b1"},"context":{},"entities":[]}"#;
    /// assert_eq!(case.json_lines()?, format!("{line}\n"));
    /// # Ok::<(), Box<dyn std::error::Error>>(())
    /// ```
    ///
    /// [`AmbiguousObject`]: crate::Refusal::AmbiguousObject
    /// [`OutputTooShort`]: crate::Refusal::OutputTooShort
    pub fn json_lines(&self) -> Result<String, Refusal> {
        match sys::export(self.bytes()) {
            Ok(text) => Ok(String::from_utf8(text).expect("the strings of a checked case are UTF-8")),
            Err(returned) => Err(Refusal::of_return(returned).expect("0 is no refusal")),
        }
    }

    pub(crate) fn with_names(self, names: Names) -> Case {
        Case { names, ..self }
    }

    /// Asks a rule at a point: a condition says yes or no, a count or a sum gives its number.
    ///
    /// ```
    /// # use galivodern::{Answer, Bindings, Bound, Case, Limits, PointNo, Refusal};
    /// let case = Case::from_text(r#"
    ///     variables b
    ///     point 100 Review logged {board: "b1"}
    ///     point 105 Review logged {board: "b2"}
    ///     point 110 Flash logged {n: 7}
    ///     rule flashed(b) = Flash(n: b)
    ///     number boards = count for b where formerly within 1h Review(board: b)
    /// "#)?;
    /// let [flashed, boards] = ["flashed", "boards"].map(|name| case.rule(name).unwrap());
    /// let b = case.variable("b").unwrap();
    ///
    /// let seven = Bindings::new().with(b, Bound::Int(7));
    /// assert_eq!(case.ask(PointNo(2), flashed, &seven, Limits::default())?.value, Answer::Verdict(true));
    /// assert_eq!(case.ask(PointNo(2), boards, &Bindings::new(), Limits::default())?.number(), 2);
    ///
    /// let refused = case.ask(PointNo(2), flashed, &seven, Limits { steps: 0, room: 0 }).unwrap_err();
    /// assert_eq!(refused.refusal, Refusal::StepsExhausted);
    /// # Ok::<(), Box<dyn std::error::Error>>(())
    /// ```
    pub fn ask(
        &self,
        point: PointNo,
        rule: RuleNo,
        bindings: &Bindings,
        limits: Limits,
    ) -> Result<Answered<Answer>, Refused> {
        let told = self.asked(point, rule, self.complete(rule, bindings), limits, 0, |question, buffers| {
            self.checked.ask(question, buffers.workspace)
        });
        let said = |bits| if told.fourth == 1 { Answer::Number(bits as i64) } else { Answer::Verdict(bits == 1) };
        Ok(answered(told)?.map(said))
    }

    /// The rows that a condition finds at a point, on the variables in `binders`, each row once.
    ///
    /// ```
    /// # use galivodern::{Bindings, Bound, Case, Limits, PointNo, Value};
    /// let case = Case::from_text(r#"
    ///     variables b n
    ///     point 100 Review logged {board: "b1", n: 3}
    ///     point 105 Review logged {board: "b2", n: 3}
    ///     rule reviewed(b, n) = formerly within 1h Review(board: b, n: n)
    /// "#)?;
    /// let reviewed = case.rule("reviewed").unwrap();
    /// let binders = ["b", "n"].map(|name| case.variable(name).unwrap());
    /// let found = case.rows(PointNo(1), reviewed, &binders, &Bindings::new(), Limits::default())?.value;
    ///
    /// assert_eq!(found.len(), 2);
    /// let first = found.get(0).expect("there are two");
    /// assert_eq!(first.get(1), Some(Bound::Int(3)));
    /// let Some(Bound::Value(board)) = first.get(0) else { panic!("a board is a string") };
    /// assert_eq!(case.value(board), Some(Value::String("b1")));
    /// # Ok::<(), Box<dyn std::error::Error>>(())
    /// ```
    pub fn rows(
        &self,
        point: PointNo,
        rule: RuleNo,
        binders: &[VariableNo],
        bindings: &Bindings,
        limits: Limits,
    ) -> Result<Answered<Rows>, Refused> {
        // No more rows are given than are held, so the output takes whatever is found.
        let width = 2 * binders.len();
        let cells = width.saturating_mul(allowed_room(limits));
        let numbers: Vec<u32> = binders.iter().map(|binder| u32::from(binder.0)).collect();
        let mut given = Vec::new();
        let told = self.asked(point, rule, Some(bindings), limits, cells, |question, buffers| {
            let told = self.checked.rows(question, &numbers, buffers.workspace, buffers.output);
            given.extend_from_slice(&buffers.output[..width * told.answer as usize]);
            told
        });
        Ok(answered(told)?.map(|count| Rows::new(binders.len(), count as usize, given)))
    }

    /// Which event carried the yes: the verdict of a node that is itself a Formerly, Previous or Since,
    /// and the points that decided it. Other nodes are refused, [`NoSuchNode`].
    ///
    /// The limits hold for each verdict that the node asks of its parts at one point, not for all of
    /// them together: a long log may be answered here where [`Case::ask`] runs out of steps.
    ///
    /// ```
    /// # use galivodern::{Bindings, Case, Limits, PointNo};
    /// let case = Case::from_text(r#"
    ///     point 0    Review  logged {board: "b1"}
    ///     point 1200 Build   logged {board: "b1"}
    ///     point 1800 Finding logged {board: "b1"}
    ///     rule ready = not Finding(board: "b1") since within 1h Review(board: "b1")
    /// "#)?;
    /// let ready = case.rule("ready").unwrap();
    ///
    /// let carried = case.carried(PointNo(1), ready, &Bindings::new(), Limits::default())?;
    /// assert_eq!((carried.verdict, carried.by()), (true, Some(PointNo(0))));
    /// assert_eq!(carried.points, [PointNo(0), PointNo(1)]);
    ///
    /// let carried = case.carried(PointNo(2), ready, &Bindings::new(), Limits::default())?;
    /// assert!(!carried.verdict);
    /// let (reviewed, found) = carried.failed().next().expect("a review in vain");
    /// assert_eq!((reviewed, found), (PointNo(0), PointNo(2)));
    /// # Ok::<(), Box<dyn std::error::Error>>(())
    /// ```
    ///
    /// [`NoSuchNode`]: crate::Refusal::NoSuchNode
    pub fn carried(
        &self,
        point: PointNo,
        rule: RuleNo,
        bindings: &Bindings,
        limits: Limits,
    ) -> Result<Carried, Refused> {
        // A no of Since lists two cells for each point up to this one, and nothing lists more.
        let cells = 2 * (point.0.min(self.contents().points) + 1);
        let mut points = Vec::new();
        let told = self.asked(point, rule, self.complete(rule, bindings), limits, cells, |question, buffers| {
            let told = self.checked.carried(question, buffers.workspace, buffers.output);
            points.extend(buffers.output[..told.fourth as usize].iter().map(|&cell| PointNo(cell as usize)));
            told
        });
        Ok(Carried { verdict: answered(told)?.value == 1, points })
    }

    /// The bindings, if they bind every parameter of the rule.
    fn complete<'a>(&self, rule: RuleNo, bindings: &'a Bindings) -> Option<&'a Bindings> {
        self.parameters(rule).iter().all(|parameter| bindings.get(*parameter).is_some()).then_some(bindings)
    }

    /// Asks with a workspace as large as the limits need and an output of so many cells. Without
    /// bindings the call is refused: it is lent no starting cells, and a parameter is a variable.
    fn asked(
        &self,
        point: PointNo,
        rule: RuleNo,
        bindings: Option<&Bindings>,
        limits: Limits,
        output: usize,
        call: impl FnOnce(Question, Lent) -> Told,
    ) -> Told {
        let variables = self.contents().variables;
        let mut padded = [0; 2 * MOST_VARIABLES];
        let start = bindings.map_or(&[][..], |bindings| start_cells(bindings.cells(), variables, &mut padded));
        let workspace = 2 * variables * allowed_room(limits);
        let mut own = Buffers::default();
        let mut spare = match self.spare.try_lock() {
            Ok(spare) => Some(spare),
            // What a question that panicked left there is lent like any other cells.
            Err(TryLockError::Poisoned(spare)) => Some(spare.into_inner()),
            Err(TryLockError::WouldBlock) => None,
        };
        let buffers = spare.as_deref_mut().unwrap_or(&mut own);
        let lent = Lent {
            workspace: at_least(&mut buffers.workspace, workspace),
            output: at_least(&mut buffers.output, output),
        };
        call(Question { point: point.0, node: rule.0, start, limits }, lent)
    }

    /// How much the case holds.
    #[must_use]
    pub fn contents(&self) -> Contents {
        let [variables, strings, values, points, nodes] = self.checked.contents().map(|count| count as usize);
        Contents { variables, strings, values, points, nodes }
    }

    /// A rule, number or term by the name that the case's text gave it; a case file has no names.
    #[must_use]
    pub fn rule(&self, name: &str) -> Option<RuleNo> {
        self.rules().find(|(known, _)| *known == name).map(|(_, rule)| rule)
    }

    /// The rules, numbers and terms that the case's text names, in its order.
    #[must_use]
    pub fn rules(&self) -> impl ExactSizeIterator<Item = (&str, RuleNo)> {
        self.names.rules()
    }

    /// A variable by the name that the case's text gave it; a case file has no names.
    #[must_use]
    pub fn variable(&self, name: &str) -> Option<VariableNo> {
        self.names.variable(name)
    }

    /// The parameters that the case's text gives a rule or number, as `b` in `rule ready(b) = ..`. A
    /// question is refused, [`BadStart`], where one of them is not bound; rows are not.
    ///
    /// ```
    /// # use galivodern::{Bindings, Bound, Case, Limits, PointNo, Refusal};
    /// let case = Case::from_text("variables n\npoint 5 Flash logged {n: 7}\nrule flashed(n) = Flash(n: n)")?;
    /// let flashed = case.rule("flashed").unwrap();
    /// let refused = case.ask(PointNo(0), flashed, &Bindings::new(), Limits::default()).unwrap_err();
    /// assert_eq!(refused.refusal, Refusal::BadStart);
    ///
    /// let start = Bindings::new().with(case.parameters(flashed)[0], Bound::Int(7));
    /// assert!(case.ask(PointNo(0), flashed, &start, Limits::default())?.verdict());
    /// # Ok::<(), Box<dyn std::error::Error>>(())
    /// ```
    ///
    /// [`BadStart`]: crate::Refusal::BadStart
    #[must_use]
    pub fn parameters(&self, rule: RuleNo) -> &[VariableNo] {
        self.names.parameters(rule)
    }

    /// The last node, which is the last rule of a case that was packed from text.
    #[must_use]
    pub fn last_rule(&self) -> Option<RuleNo> {
        self.contents().nodes.checked_sub(1).map(|node| RuleNo(node as u32))
    }

    /// What a node is; None where there is none of this number.
    #[must_use]
    pub fn sort(&self, rule: RuleNo) -> Option<Sort> {
        ((rule.0 as usize) < self.contents().nodes).then(|| self.records().sort(rule.0))
    }

    /// The points of the log in their order: when each happened, what, and with which fields.
    ///
    /// ```
    /// # use galivodern::{Case, Value};
    /// let case = Case::from_text(r#"
    ///     point 100 Review logged {board: "b1"}
    ///     point 110 Flash logged {board: "b1", volts: decimal "3.30"}
    /// "#)?;
    /// for point in case.points() {
    ///     print!("{} {}", point.time(), point.action());
    ///     for (name, value) in point.fields() {
    ///         print!(" {name}={value:?}");
    ///     }
    ///     println!();
    /// }
    /// let last = case.points().next_back().unwrap();
    /// assert_eq!((last.time(), last.action()), (110, "Flash"));
    /// assert_eq!(last.field("volts"), Some(Value::Decimal("3.30")));
    /// # Ok::<(), galivodern::Fault>(())
    /// ```
    pub fn points(&self) -> Points<'_> {
        Points::new(self.records(), self.contents().points)
    }

    /// A point of the log; None where there is none of this number.
    #[must_use]
    pub fn point(&self, number: PointNo) -> Option<Point<'_>> {
        self.points().nth(number.0)
    }

    /// A value of the case; None where there is none of this number.
    #[must_use]
    pub fn value(&self, number: u32) -> Option<Value<'_>> {
        ((number as usize) < self.contents().values).then(|| self.records().value(number))
    }

    /// A string of the case; None where there is none of this number.
    #[must_use]
    pub fn string(&self, number: u32) -> Option<&str> {
        ((number as usize) < self.contents().strings).then(|| self.records().string(number))
    }

    fn records(&self) -> Records<'_> {
        Records { bytes: self.bytes() }
    }

    /// The case file.
    #[must_use]
    pub fn bytes(&self) -> &[u8] {
        self.checked.bytes()
    }

    /// The case file, given back.
    #[must_use]
    pub fn into_bytes(self) -> Vec<u8> {
        self.checked.into_bytes()
    }
}

impl Clone for Case {
    fn clone(&self) -> Case {
        Case { checked: self.checked.clone(), names: self.names.clone(), spare: Mutex::default() }
    }
}

impl fmt::Debug for Case {
    fn fmt(&self, f: &mut fmt::Formatter) -> fmt::Result {
        f.debug_struct("Case").field("bytes", &self.bytes().len()).field("contents", &self.contents()).finish()
    }
}

/// What a question may write to.
struct Lent<'a> {
    workspace: &'a mut [u64],
    output: &'a mut [u64],
}

/// The room that memory is set aside for: a call refuses more before it uses any.
fn allowed_room(limits: Limits) -> usize {
    limits.room.min(Limits::MOST_ROOM)
}

fn at_least(buffer: &mut Vec<u64>, cells: usize) -> &mut [u64] {
    if buffer.len() < cells {
        buffer.resize(cells, 0);
    }
    &mut buffer[..cells]
}

/// Two cells for each variable of the case; or more, where one is bound that the case does not
/// have, which the call refuses.
fn start_cells<'a>(bound: &'a [u64], variables: usize, padded: &'a mut [u64; 2 * MOST_VARIABLES]) -> &'a [u64] {
    if bound.len() > 2 * variables {
        return bound;
    }
    padded[..bound.len()].copy_from_slice(bound);
    &padded[..2 * variables]
}

fn answered(told: Told) -> Result<Answered<u64>, Refused> {
    let Told { returned, answer, steps, held, .. } = told;
    let held = held as usize;
    match Refusal::of_return(returned) {
        None => Ok(Answered { value: answer, steps, held }),
        Some(refusal) => Err(Refused { refusal, steps, held }),
    }
}
