//! From a case's tables to the Rust's trace and conditions.

use std::collections::BTreeMap;

use casefile::{Node, Point, Run, Tables, Value, Within};
use dogwood::error::Span;
use dogwood::extension::temporal::ast::{
    AggExpr, AggExprKind, ArithOp, BinderSlot, CmpOp, Condition, ConditionKind, Interval, NamedArg, Predicate, Term,
    TimeUnit, Type, TypedBinder, WithinSpec,
};
use dogwood::interpreter::value::{self as rust, EntityRecord, EventData, Scope, Trace};

/// The Rust's name of a variable. Two digits, so that names sort as numbers do.
pub fn variable_name(variable: u32) -> String {
    format!("v{variable:02}")
}

/// Reads a checked case.
pub struct Converter<'a> {
    pub tables: &'a Tables,
}

impl Converter<'_> {
    pub fn trace(&self) -> Trace {
        Trace { points: self.tables.points.iter().map(|words| self.event(Point::read(*words))).collect() }
    }

    pub fn text(&self, string: u32) -> String {
        String::from_utf8(self.tables.string(string).to_vec()).expect("a checked case has UTF-8 strings")
    }

    pub fn value(&self, number: u32) -> rust::Value {
        match Value::read(self.tables.values[number as usize]).expect("a checked case has known value kinds") {
            Value::Null => rust::Value::Null,
            Value::Bool(b) => rust::Value::Bool(b),
            Value::Int(n) => rust::Value::Int(n),
            Value::Decimal(text) => rust::Value::Decimal(self.text(text)),
            Value::String(text) => rust::Value::String(self.text(text)),
            Value::Entity(ty, id) => rust::Value::Entity { ty: self.text(ty), id: self.text(id) },
            Value::Array(run) => {
                rust::Value::Array(self.tables.members[run.places()].iter().map(|m| self.value(m[1])).collect())
            }
            Value::Object(_) => rust::Value::Object(self.object(number)),
        }
    }

    fn object(&self, number: u32) -> BTreeMap<String, rust::Value> {
        let [_, first, count, _] = self.tables.values[number as usize];
        let members = &self.tables.members[Run { first, count }.places()];
        members.iter().map(|[name, value]| (self.text(*name), self.value(*value))).collect()
    }

    fn names(&self, run: Run) -> Vec<String> {
        self.tables.lists[run.places()].iter().map(|&name| self.text(name)).collect()
    }

    fn event(&self, point: Point) -> rust::Event {
        let first = point.entities.first as usize;
        let words = &self.tables.lists[first..first + 3 * point.entities.count as usize];
        let entities = words
            .chunks(3)
            .map(|entity| {
                let uid = rust::uid(&self.text(entity[0]), &self.text(entity[1]));
                (uid, EntityRecord { attrs: self.object(entity[2]), parents: Vec::new() })
            })
            .collect();
        let data = EventData {
            namespace: self.names(point.namespace),
            action: self.text(point.action),
            kind: self.text(point.kind),
            logged: self.object(point.logged),
            request_context: self.object(point.context),
            entities,
        };
        let root = |value: Option<u32>| value.map(|number| self.value(number));
        rust::event(point.time, Scope { principal: root(point.principal), resource: root(point.resource) }, data)
    }

    fn node(&self, number: u32) -> Node {
        Node::read(self.tables.nodes[number as usize]).expect("a checked case has known node kinds")
    }

    pub fn condition(&self, number: u32) -> Condition {
        let boxed = |node: u32| Box::new(self.condition(node));
        let kind = match self.node(number) {
            Node::And { left, right } => ConditionKind::And { left: boxed(left), right: boxed(right) },
            Node::Or { left, right } => ConditionKind::Or { left: boxed(left), right: boxed(right) },
            Node::Not { inner } => ConditionKind::Not { inner: boxed(inner) },
            Node::Formerly { within, body } => ConditionKind::Formerly { within: window(within), body: boxed(body) },
            Node::Previous { within, body } => ConditionKind::Previous { within: window(within), body: boxed(body) },
            Node::Since { left, right, within } => {
                ConditionKind::Since { left: boxed(left), within: window(within), right: boxed(right) }
            }
            Node::Predicate { namespace, action, kind, arguments } => ConditionKind::Predicate(Predicate {
                span: Span,
                namespace: self.names(namespace),
                action: self.text(action),
                kind: self.text(kind),
                args: self.arguments(arguments),
            }),
            Node::Comparison { op, left, right } => {
                let op = [CmpOp::Le, CmpOp::Lt, CmpOp::Ge, CmpOp::Gt, CmpOp::Eq, CmpOp::NotEq][op as usize];
                ConditionKind::Comparison { op, left: self.term(left), right: self.term(right) }
            }
            Node::Exists { variable, body } => ConditionKind::Exists { var: binder(variable), body: boxed(body) },
            Node::Tp { variable } => ConditionKind::Tp { var: slot(variable) },
            other => unreachable!("{other:?} is no condition"),
        };
        Condition { span: Span, kind }
    }

    fn arguments(&self, run: Run) -> Vec<NamedArg> {
        let words = &self.tables.lists[run.first as usize..run.first as usize + 3 * run.count as usize];
        words
            .chunks(3)
            .map(|argument| {
                let path = self.names(Run { first: argument[0], count: argument[1] });
                NamedArg { name: path.join("."), value: self.term(argument[2]) }
            })
            .collect()
    }

    fn term(&self, number: u32) -> Term {
        match self.node(number) {
            Node::Literal { value } => literal(self.value(value)),
            Node::Context { path } => Term::ContextField(self.names(path)),
            Node::Scope { root, path } => {
                let root = ["principal", "resource"][root as usize].to_string();
                Term::ScopeField([vec![root], self.names(path)].concat())
            }
            Node::Variable { variable } => Term::Var(variable_name(variable)),
            Node::Wildcard => Term::Wildcard,
            Node::Aggregate { aggregate } => Term::Agg(Box::new(self.aggregate(aggregate))),
            Node::Arithmetic { op, left, right } => Term::Arith {
                op: [ArithOp::Add, ArithOp::Sub, ArithOp::Mul][op as usize],
                left: Box::new(self.term(left)),
                right: Box::new(self.term(right)),
            },
            other => unreachable!("{other:?} is no term"),
        }
    }

    pub fn aggregate(&self, number: u32) -> AggExpr {
        let for_vars = |run: Run| self.tables.lists[run.places()].iter().map(|&v| binder(v)).collect();
        let kind = match self.node(number) {
            Node::Sum { variable, binders, body } => AggExprKind::Sum {
                bound_var: slot(variable),
                for_vars: for_vars(binders),
                body: Box::new(self.condition(body)),
            },
            Node::Count { binders, body } => {
                AggExprKind::Count { for_vars: for_vars(binders), body: Box::new(self.condition(body)) }
            }
            other => unreachable!("{other:?} is no aggregate"),
        };
        AggExpr { span: Span, kind }
    }
}

fn literal(value: rust::Value) -> Term {
    match value {
        rust::Value::Bool(b) => Term::Bool(b),
        rust::Value::Int(n) => Term::Integer(n),
        rust::Value::Decimal(text) => Term::Decimal(text),
        rust::Value::String(text) => Term::String(text),
        rust::Value::Entity { ty, id } => Term::Entity { ty, id },
        rust::Value::Array(items) => Term::Array(items.into_iter().map(literal).collect()),
        rust::Value::Null | rust::Value::Object(_) => unreachable!("a literal holds no Null and no Object"),
    }
}

pub fn window(within: Within) -> WithinSpec {
    let unit = [TimeUnit::Seconds, TimeUnit::Minutes, TimeUnit::Hours, TimeUnit::Days][within.unit as usize];
    WithinSpec::Concrete(Interval { amount: within.amount, unit })
}

fn slot(variable: u32) -> BinderSlot {
    BinderSlot::Name(variable_name(variable))
}

/// Binder types are parsed and never looked at by evaluation.
pub fn binder(variable: u32) -> TypedBinder {
    TypedBinder { slot: slot(variable), ty: Type::Timepoint }
}
