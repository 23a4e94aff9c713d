//! A case as read from text, before strings and values have their numbers.

use std::collections::HashMap;

use crate::builder::Builder;
use crate::records::{Node, Point, Run, Value, Within};
use crate::unsorted::Unsorted;

/// A value; arrays and objects hold provisional numbers.
#[derive(Clone, Debug, PartialEq, Eq, Hash, PartialOrd, Ord)]
pub enum PlainValue {
    Null,
    Bool(bool),
    Int(i64),
    Decimal(String),
    Text(String),
    Entity(String, String),
    Array(Vec<u32>),
    Object(Vec<(String, u32)>),
}

/// Values in the order met, each once.
#[derive(Default)]
pub struct PlainValues {
    pub values: Vec<PlainValue>,
    numbers: HashMap<PlainValue, u32>,
    pub depths: Vec<u32>,
    /// Whether a value may stand in a literal: no Null and no Object in it.
    pub literal: Vec<bool>,
}

impl PlainValues {
    pub fn add(&mut self, value: PlainValue) -> u32 {
        if let Some(&number) = self.numbers.get(&value) {
            return number;
        }
        let children = children(&value);
        let literal = !matches!(value, PlainValue::Null | PlainValue::Object(_))
            && children.iter().all(|&child| self.literal[child as usize]);
        self.depths.push(1 + children.iter().map(|&child| self.depths[child as usize]).max().unwrap_or(0));
        self.literal.push(literal);
        let number = self.values.len() as u32;
        self.values.push(value.clone());
        self.numbers.insert(value, number);
        number
    }

    /// Adds the values to a builder and gives each its number there. The order is by depth and
    /// then by contents, so that it does not depend on where a value was written or named.
    fn build(&self, builder: &mut Builder) -> Vec<u32> {
        let mut final_number = vec![0; self.values.len()];
        for depth in 1..=self.depths.iter().copied().max().unwrap_or(0) {
            let mut level: Vec<(PlainValue, usize)> = (0..self.values.len())
                .filter(|&k| self.depths[k] == depth)
                .map(|k| (renumbered(&self.values[k], &final_number), k))
                .collect();
            level.sort();
            for (value, k) in level {
                final_number[k] = build_value(builder, &value);
            }
        }
        final_number
    }
}

fn children(value: &PlainValue) -> Vec<u32> {
    match value {
        PlainValue::Array(items) => items.clone(),
        PlainValue::Object(members) => members.iter().map(|(_, value)| *value).collect(),
        _ => Vec::new(),
    }
}

fn renumbered(value: &PlainValue, number: &[u32]) -> PlainValue {
    match value {
        PlainValue::Array(items) => PlainValue::Array(items.iter().map(|&item| number[item as usize]).collect()),
        PlainValue::Object(members) => {
            PlainValue::Object(members.iter().map(|(name, v)| (name.clone(), number[*v as usize])).collect())
        }
        scalar => scalar.clone(),
    }
}

fn build_value(builder: &mut Builder, value: &PlainValue) -> u32 {
    match value {
        PlainValue::Null => builder.value(Value::Null),
        PlainValue::Bool(b) => builder.value(Value::Bool(*b)),
        PlainValue::Int(n) => builder.int(*n),
        PlainValue::Decimal(text) => builder.decimal(text),
        PlainValue::Text(text) => builder.text(text),
        PlainValue::Entity(ty, id) => builder.entity(ty, id),
        PlainValue::Array(items) => builder.array(items),
        PlainValue::Object(members) => {
            let members: Vec<(&str, u32)> = members.iter().map(|(name, v)| (name.as_str(), *v)).collect();
            builder.object(&members)
        }
    }
}

/// Namespace, action and kind of a point or a predicate.
#[derive(Clone, Debug)]
pub struct Action {
    pub namespace: Vec<String>,
    pub action: String,
    pub kind: String,
}

pub struct PlainPoint {
    pub time: i64,
    pub action: Action,
    /// Both are there once the point is read.
    pub logged: Option<u32>,
    pub context: Option<u32>,
    pub principal: Option<u32>,
    pub resource: Option<u32>,
    pub entities: Vec<(String, String, u32)>,
}

/// A node; values are provisional numbers, nodes are final ones.
pub enum PlainNode {
    And(u32, u32),
    Or(u32, u32),
    Not(u32),
    Formerly(Within, u32),
    Previous(Within, u32),
    Since(u32, u32, Within),
    Predicate(Action, Vec<(Vec<String>, u32)>),
    Comparison(u32, u32, u32),
    Exists(u32, u32),
    Tp(u32),
    Literal(u32),
    Context(Vec<String>),
    Scope(u32, Vec<String>),
    Variable(u32),
    Wildcard,
    Aggregate(u32),
    Arithmetic(u32, u32, u32),
    Sum(u32, Vec<u32>, u32),
    Count(Vec<u32>, u32),
}

impl PlainNode {
    pub fn children(&self) -> Vec<u32> {
        match self {
            PlainNode::And(left, right) | PlainNode::Or(left, right) | PlainNode::Since(left, right, _) => {
                vec![*left, *right]
            }
            PlainNode::Comparison(_, left, right) | PlainNode::Arithmetic(_, left, right) => vec![*left, *right],
            PlainNode::Not(body)
            | PlainNode::Formerly(_, body)
            | PlainNode::Previous(_, body)
            | PlainNode::Exists(_, body)
            | PlainNode::Aggregate(body)
            | PlainNode::Sum(_, _, body)
            | PlainNode::Count(_, body) => vec![*body],
            PlainNode::Predicate(_, arguments) => arguments.iter().map(|(_, term)| *term).collect(),
            _ => Vec::new(),
        }
    }
}

/// A whole case, its strings in the order in which they came.
pub fn build(variables: u32, values: &PlainValues, points: &[PlainPoint], nodes: &[PlainNode]) -> Unsorted {
    let mut builder = Builder::new(variables);
    let number = values.build(&mut builder);
    for point in points {
        build_point(&mut builder, point, &number);
    }
    for node in nodes {
        build_node(&mut builder, node, &number);
    }
    builder.unsorted()
}

fn names(builder: &mut Builder, names: &[String]) -> Run {
    let names: Vec<&str> = names.iter().map(String::as_str).collect();
    builder.names(&names)
}

fn build_point(builder: &mut Builder, point: &PlainPoint, number: &[u32]) {
    let value = |v: u32| number[v as usize];
    let entities: Vec<(&str, &str, u32)> =
        point.entities.iter().map(|(ty, id, v)| (ty.as_str(), id.as_str(), value(*v))).collect();
    let record = Point {
        time: point.time,
        namespace: names(builder, &point.action.namespace),
        action: builder.string(&point.action.action),
        kind: builder.string(&point.action.kind),
        logged: value(point.logged.expect("the point is read")),
        context: value(point.context.expect("the point is read")),
        principal: point.principal.map(value),
        resource: point.resource.map(value),
        entities: builder.entities(&entities),
    };
    builder.point(record);
}

fn build_node(builder: &mut Builder, node: &PlainNode, number: &[u32]) {
    let record = match node {
        PlainNode::And(left, right) => Node::And { left: *left, right: *right },
        PlainNode::Or(left, right) => Node::Or { left: *left, right: *right },
        PlainNode::Not(inner) => Node::Not { inner: *inner },
        PlainNode::Formerly(within, body) => Node::Formerly { within: *within, body: *body },
        PlainNode::Previous(within, body) => Node::Previous { within: *within, body: *body },
        PlainNode::Since(left, right, within) => Node::Since { left: *left, right: *right, within: *within },
        PlainNode::Predicate(action, arguments) => {
            let namespace = names(builder, &action.namespace);
            let paths: Vec<(Run, u32)> = arguments.iter().map(|(path, term)| (names(builder, path), *term)).collect();
            Node::Predicate {
                namespace,
                action: builder.string(&action.action),
                kind: builder.string(&action.kind),
                arguments: builder.arguments(&paths),
            }
        }
        PlainNode::Comparison(op, left, right) => Node::Comparison { op: *op, left: *left, right: *right },
        PlainNode::Exists(variable, body) => Node::Exists { variable: *variable, body: *body },
        PlainNode::Tp(variable) => Node::Tp { variable: *variable },
        PlainNode::Literal(value) => Node::Literal { value: number[*value as usize] },
        PlainNode::Context(path) => Node::Context { path: names(builder, path) },
        PlainNode::Scope(root, path) => Node::Scope { root: *root, path: names(builder, path) },
        PlainNode::Variable(variable) => Node::Variable { variable: *variable },
        PlainNode::Wildcard => Node::Wildcard,
        PlainNode::Aggregate(aggregate) => Node::Aggregate { aggregate: *aggregate },
        PlainNode::Arithmetic(op, left, right) => Node::Arithmetic { op: *op, left: *left, right: *right },
        PlainNode::Sum(variable, binders, body) => {
            Node::Sum { variable: *variable, binders: builder.binders(binders), body: *body }
        }
        PlainNode::Count(binders, body) => Node::Count { binders: builder.binders(binders), body: *body },
    };
    builder.node(record);
}
