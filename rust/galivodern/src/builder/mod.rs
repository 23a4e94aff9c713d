//! Cases made by method calls.

mod error;
mod handles;
mod parts;
mod rules;
mod why;

use std::sync::atomic::{AtomicU64, Ordering};

use casefile::binding::Binding;
use casefile::{Builder, Run};

use crate::case::Case;
use crate::names::{Named, Names};
use crate::numbers::{PointNo, RuleNo, VariableNo};

pub use error::BuildError;
use handles::Handle;
pub use handles::{AggregateId, ConditionId, ObjectId, OperandId, TermId, ValueId, VariableId};
pub use parts::{ArithmeticOp, CompareOp, NewPoint, Predicate, Within};

/// Makes a case by method calls: the values and points of a log, and rules over it.
///
/// What a method gives stands for what it made, and has a type of its own: a condition cannot stand
/// where a term belongs, nor a text where an object does. Names, strings and entities may come in any
/// order and as often as you like; the proved writer sorts and joins them. [`build`] gives a [`Case`]
/// that has passed the check, or says what is wrong.
///
/// ```
/// use galivodern::{Bindings, CaseBuilder, Limits, NewPoint, PointNo, Predicate, Within};
///
/// let mut builder = CaseBuilder::new();
/// let b1 = builder.text("b1");
/// let logged = builder.object(&[("board", b1)]);
/// builder.point(NewPoint::at(100, "Review").logged(logged));
/// builder.point(NewPoint::at(110, "Flash").logged(logged));
///
/// let board = builder.literal(b1);
/// let review = builder.predicate(Predicate::of("Review").argument(&["board"], board));
/// let reviewed = builder.formerly(Within::hours(1), review);
/// let reviewed = builder.rule("reviewed", reviewed);
///
/// let case = builder.build()?;
/// assert_eq!(case.rule("reviewed"), Some(reviewed));
/// assert!(case.ask(PointNo(1), reviewed, &Bindings::new(), Limits::default())?.verdict());
/// # Ok::<(), Box<dyn std::error::Error>>(())
/// ```
///
/// A term is no condition, and the compiler says so:
///
/// ```compile_fail,E0308
/// # use galivodern::CaseBuilder;
/// # let mut builder = CaseBuilder::new();
/// let anything = builder.wildcard();
/// builder.not(anything);
/// ```
///
/// [`build`]: CaseBuilder::build
#[derive(Debug)]
#[must_use = "a builder makes nothing unless it is built"]
pub struct CaseBuilder {
    /// What its handles bear, so that those of another builder are known.
    id: u64,
    builder: Builder,
    variables: Vec<String>,
    rules: Vec<(String, RuleNo)>,
    /// The object without members, once it is made.
    empty: Option<u32>,
    /// What was wrong first.
    fault: Option<BuildError>,
}

impl CaseBuilder {
    /// A builder of a case without points and rules.
    pub fn new() -> CaseBuilder {
        static BUILDERS: AtomicU64 = AtomicU64::new(0);
        CaseBuilder {
            id: BUILDERS.fetch_add(1, Ordering::Relaxed),
            builder: Builder::new(0),
            variables: Vec::new(),
            rules: Vec::new(),
            empty: None,
            fault: None,
        }
    }

    /// Keeps what is wrong, if nothing was before.
    fn wrong(&mut self, fault: BuildError) {
        self.fault.get_or_insert(fault);
    }

    /// The number that a handle stands for; what is another builder's is kept as a fault.
    fn number(&mut self, handle: impl Handle) -> u32 {
        if handle.builder() != self.id {
            self.wrong(BuildError::Foreign);
        }
        handle.number()
    }

    fn made<H: Handle>(&self, number: u32) -> H {
        H::new(self.id, number)
    }

    /// Nothing: what a field holds that has no value.
    pub fn null(&mut self) -> ValueId {
        let value = self.builder.value(casefile::Value::Null);
        self.made(value)
    }

    /// True or false.
    pub fn bool(&mut self, yes: bool) -> ValueId {
        let value = self.builder.value(casefile::Value::Bool(yes));
        self.made(value)
    }

    /// An integer.
    pub fn int(&mut self, number: i64) -> ValueId {
        let value = self.builder.int(number);
        self.made(value)
    }

    /// A decimal as it is written, as `1.50`.
    pub fn decimal(&mut self, written: &str) -> ValueId {
        let value = self.builder.decimal(written);
        self.made(value)
    }

    /// Text.
    pub fn text(&mut self, text: &str) -> ValueId {
        let value = self.builder.text(text);
        self.made(value)
    }

    /// An entity.
    pub fn entity(&mut self, ty: &str, id: &str) -> ValueId {
        let value = self.builder.entity(ty, id);
        self.made(value)
    }

    /// An array of values. A value may stand in many places.
    pub fn array(&mut self, items: &[ValueId]) -> ValueId {
        let items: Vec<u32> = items.iter().map(|&item| self.number(item)).collect();
        let value = self.builder.array(&items);
        self.made(value)
    }

    /// An object, its members in any order; none may be there twice.
    pub fn object(&mut self, members: &[(&str, ValueId)]) -> ObjectId {
        let members: Vec<(&str, u32)> = members.iter().map(|&(name, value)| (name, self.number(value))).collect();
        if let Some(name) = repeated(members.iter().map(|(name, _)| *name)) {
            self.wrong(BuildError::RepeatedName { name: name.to_string() });
        }
        let value = self.builder.object(&members);
        self.made(value)
    }

    /// Adds a point behind those that are there.
    pub fn point(&mut self, point: NewPoint) -> PointNo {
        let NewPoint { time, event, logged, context, principal, resource, entities } = point;
        let (logged, context) = (self.object_or_empty(logged), self.object_or_empty(context));
        let principal = principal.map(|value| self.number(value));
        let resource = resource.map(|value| self.number(value));
        let items: Vec<(&str, &str, u32)> =
            entities.iter().map(|(ty, id, object)| (ty.as_str(), id.as_str(), self.number(*object))).collect();
        if let Some((ty, id)) = repeated(items.iter().map(|(ty, id, _)| (*ty, *id))) {
            self.wrong(BuildError::RepeatedEntity { ty: ty.to_string(), id: id.to_string() });
        }
        let (namespace, entities) = (self.names(&event.namespace), self.builder.entities(&items));
        let (action, kind) = (self.builder.string(&event.action), self.builder.string(&event.kind));
        let record = casefile::Point { time, namespace, action, kind, logged, context, principal, resource, entities };
        PointNo(self.builder.point(record) as usize)
    }

    fn object_or_empty(&mut self, object: Option<ObjectId>) -> u32 {
        match (object, self.empty) {
            (Some(object), _) => self.number(object),
            (None, Some(empty)) => empty,
            (None, None) => {
                let empty = self.builder.object(&[]);
                self.empty = Some(empty);
                empty
            }
        }
    }

    fn names(&mut self, names: &[String]) -> Run {
        let names: Vec<&str> = names.iter().map(String::as_str).collect();
        self.builder.names(&names)
    }

    /// Writes the case, with the proved writer. Its rules and variables have the names that they were given; what a
    /// rule leaves unbound are its parameters ([`Case::parameters`]).
    pub fn build(self) -> Result<Case, BuildError> {
        if let Some(fault) = self.fault {
            return Err(fault);
        }
        let mut unsorted = self.builder.unsorted();
        unsorted.tables.variables = self.variables.len() as u32;
        let case = Case::from_unsorted(&unsorted.tables.encode(), &unsorted.marks)
            .map_err(|refusal| BuildError::Refused { refusal, why: why::why(refusal, &unsorted) })?;
        let binding = Binding::of(&unsorted.tables);
        // A case has at most 16 variables.
        let parameters = |rule: RuleNo| binding.free(rule.0).iter().map(|v| VariableNo(v as u16)).collect();
        let named = |(name, rule): (String, RuleNo)| Named { name, rule, parameters: parameters(rule) };
        let rules = self.rules.into_iter().map(named).collect();
        Ok(case.with_names(Names::new(rules, self.variables)))
    }
}

impl Default for CaseBuilder {
    fn default() -> CaseBuilder {
        CaseBuilder::new()
    }
}

/// An item that is there twice.
fn repeated<T: Ord + Copy>(items: impl Iterator<Item = T>) -> Option<T> {
    let mut items: Vec<T> = items.collect();
    items.sort();
    items.windows(2).find(|pair| pair[0] == pair[1]).map(|pair| pair[0])
}
