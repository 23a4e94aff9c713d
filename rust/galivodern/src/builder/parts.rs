//! What points and rules are made of.

use super::handles::{ObjectId, TermId, ValueId};

/// The kind that an event has where nothing else is said.
const USUAL_KIND: &str = "request";

/// What happened: namespace, action and kind.
#[derive(Clone, Debug, PartialEq, Eq)]
pub(crate) struct Event {
    pub namespace: Vec<String>,
    pub action: String,
    pub kind: String,
}

impl Event {
    fn of(action: &str) -> Event {
        Event { namespace: Vec::new(), action: action.to_string(), kind: USUAL_KIND.to_string() }
    }
}

/// A point that is to be added to a log.
#[derive(Clone, Debug, PartialEq, Eq)]
#[must_use = "a point is in no log before a builder has it"]
pub struct NewPoint {
    pub(crate) time: i64,
    pub(crate) event: Event,
    pub(crate) logged: Option<ObjectId>,
    pub(crate) context: Option<ObjectId>,
    pub(crate) principal: Option<ValueId>,
    pub(crate) resource: Option<ValueId>,
    pub(crate) entities: Vec<(String, String, ObjectId)>,
}

impl NewPoint {
    /// An action at a time, in seconds. Its kind is `request`; it has no fields and no context, no principal, no
    /// resource and no entities unless it is given some.
    pub fn at(time: i64, action: &str) -> NewPoint {
        NewPoint {
            time,
            event: Event::of(action),
            logged: None,
            context: None,
            principal: None,
            resource: None,
            entities: Vec::new(),
        }
    }

    /// The names before the action: `Motor`, `Line` of `Motor::Line::Flash`.
    pub fn namespace(mut self, names: &[&str]) -> NewPoint {
        self.event.namespace = names.iter().map(|name| name.to_string()).collect();
        self
    }

    /// Another kind than `request`.
    pub fn kind(mut self, kind: &str) -> NewPoint {
        self.event.kind = kind.to_string();
        self
    }

    /// The logged fields.
    pub fn logged(mut self, fields: ObjectId) -> NewPoint {
        self.logged = Some(fields);
        self
    }

    /// The context.
    pub fn context(mut self, fields: ObjectId) -> NewPoint {
        self.context = Some(fields);
        self
    }

    /// Who acted.
    pub fn principal(mut self, value: ValueId) -> NewPoint {
        self.principal = Some(value);
        self
    }

    /// What was acted on.
    pub fn resource(mut self, value: ValueId) -> NewPoint {
        self.resource = Some(value);
        self
    }

    /// Adds an entity whose attributes are known at this point.
    pub fn entity(mut self, ty: &str, id: &str, attributes: ObjectId) -> NewPoint {
        self.entities.push((ty.to_string(), id.to_string(), attributes));
        self
    }
}

/// Which events a condition is about, and what their logged fields must be.
#[derive(Clone, Debug, PartialEq, Eq)]
#[must_use = "a predicate is in no rule before a builder has it"]
pub struct Predicate {
    pub(crate) event: Event,
    pub(crate) arguments: Vec<(Vec<String>, TermId)>,
}

impl Predicate {
    /// Events with this action, of kind `request` and without a namespace unless one is given.
    pub fn of(action: &str) -> Predicate {
        Predicate { event: Event::of(action), arguments: Vec::new() }
    }

    /// The names before the action.
    pub fn namespace(mut self, names: &[&str]) -> Predicate {
        self.event.namespace = names.iter().map(|name| name.to_string()).collect();
        self
    }

    /// Another kind than `request`.
    pub fn kind(mut self, kind: &str) -> Predicate {
        self.event.kind = kind.to_string();
        self
    }

    /// Adds a demand: the logged field at this path is there and equals the term. A variable that is not bound takes
    /// its value.
    pub fn argument(mut self, path: &[&str], term: TermId) -> Predicate {
        self.arguments.push((path.iter().map(|name| name.to_string()).collect(), term));
        self
    }
}

/// How far back a rule looks. A negative one reaches nothing.
#[derive(Clone, Copy, Debug, PartialEq, Eq, Hash)]
pub struct Within(pub(crate) casefile::Within);

impl Within {
    /// So many seconds.
    #[must_use]
    pub fn seconds(amount: i64) -> Within {
        Within(casefile::Within { amount, unit: 0 })
    }

    /// So many minutes.
    #[must_use]
    pub fn minutes(amount: i64) -> Within {
        Within(casefile::Within { amount, unit: 1 })
    }

    /// So many hours.
    #[must_use]
    pub fn hours(amount: i64) -> Within {
        Within(casefile::Within { amount, unit: 2 })
    }

    /// So many days.
    #[must_use]
    pub fn days(amount: i64) -> Within {
        Within(casefile::Within { amount, unit: 3 })
    }
}

/// How two sides are compared. The first four hold of integers only.
#[derive(Clone, Copy, Debug, PartialEq, Eq, Hash)]
#[repr(u32)]
#[non_exhaustive]
pub enum CompareOp {
    /// At most.
    Le = 0,
    /// Below.
    Lt = 1,
    /// At least.
    Ge = 2,
    /// Above.
    Gt = 3,
    /// Equal; in a search for rows it binds a variable that is not bound.
    Eq = 4,
    /// Not equal; no where a side has no value.
    NotEq = 5,
}

/// What is reckoned of two integers; what 64 bits do not hold becomes the nearest number that they do.
#[derive(Clone, Copy, Debug, PartialEq, Eq, Hash)]
#[repr(u32)]
#[non_exhaustive]
pub enum ArithmeticOp {
    /// Their sum.
    Add = 0,
    /// The first less the second.
    Subtract = 1,
    /// Their product.
    Multiply = 2,
}
