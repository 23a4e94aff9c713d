//! What the text of a case has for points, values and nodes.

use super::printer::{Printed, Printer};
use super::{is_identifier, is_of_word, ARITHMETIC, COMPARISONS, KEYWORDS, ROOTS, UNITS, USUAL_KIND};
use crate::records::{Node, Point, Run, Value, Within};
use crate::tables::NONE;
use crate::time;

/// Smaller times are seconds of a bench's own count; from 1973 on the date stands behind them as a comment.
const LEAST_CLOCK: i64 = 100_000_000;

impl Printer<'_> {
    pub fn point(&self, point: &Point) -> Printed<String> {
        let action = self.action(point.namespace, point.action, point.kind)?;
        let clock = if point.time < LEAST_CLOCK { None } else { time::written(point.time) };
        let clock = clock.map_or(String::new(), |clock| format!("  # {clock}"));
        let mut text = format!("point {} {action}{clock}\n", point.time);
        let mut field = |name: &str, value: String| text.push_str(&format!("  {name} {value}\n"));
        field("logged", self.value(point.logged)?);
        field("context", self.value(point.context)?);
        if let Some(principal) = point.principal {
            field("principal", self.value(principal)?);
        }
        if let Some(resource) = point.resource {
            field("resource", self.value(resource)?);
        }
        for entity in self.list(point.entities.first, 3 * point.entities.count as usize)?.chunks(3) {
            let uid = self.entity(entity[0], entity[1])?;
            field("entity", format!("{uid} {}", self.value(entity[2])?));
        }
        Ok(text)
    }

    fn action(&self, namespace: Run, action: u32, kind: u32) -> Printed<String> {
        let mut names: Vec<String> = self.names(namespace)?.into_iter().map(plain).collect();
        names.push(plain(self.string(action)?));
        let kind = self.string(kind)?;
        let kind = if kind == USUAL_KIND { String::new() } else { format!("/{}", plain(kind)) };
        Ok(names.join("::") + &kind)
    }

    fn entity(&self, ty: u32, id: u32) -> Printed<String> {
        let ty = self.string(ty)?;
        let words: Vec<String> = ty.split("::").map(plain).collect();
        let bare = words.iter().all(|word| is_identifier(word));
        let ty = if bare { words.join("::") } else { quoted(ty) };
        Ok(format!("{ty}::{}", quoted(self.string(id)?)))
    }

    fn value(&self, number: u32) -> Printed<String> {
        match self.value_named.get(number as usize) {
            Some(true) => Ok(format!("@v{number}")),
            _ => self.value_inside(number),
        }
    }

    pub fn value_inside(&self, number: u32) -> Printed<String> {
        let value = self.values.get(number as usize).ok_or(format!("there is no value {number}"))?;
        Ok(match *value {
            Value::Null => "null".to_string(),
            Value::Bool(b) => b.to_string(),
            Value::Int(n) => n.to_string(),
            Value::Decimal(text) => format!("decimal {}", quoted(self.string(text)?)),
            Value::String(text) => quoted(self.string(text)?),
            Value::Entity(ty, id) => self.entity(ty, id)?,
            Value::Array(_) => {
                let items: Printed<Vec<String>> =
                    self.members(number)?.iter().map(|[_, item]| self.value(*item)).collect();
                format!("[{}]", items?.join(", "))
            }
            Value::Object(_) => {
                let mut members = Vec::new();
                for [name, value] in self.members(number)? {
                    if *name == NONE {
                        return Err(format!("a member of object {number} bears no name"));
                    }
                    members.push(format!("{}: {}", word(self.string(*name)?), self.value(*value)?));
                }
                format!("{{{}}}", members.join(", "))
            }
        })
    }

    /// A node where another refers to it: by name, or bracketed.
    fn node(&self, number: u32) -> Printed<String> {
        if self.node_named[number as usize] {
            return Ok(format!("@{}", self.named(number).1));
        }
        let inside = self.node_inside(number)?;
        Ok(match self.nodes[number as usize] {
            Node::Predicate { .. } | Node::Tp { .. } => inside,
            Node::Arithmetic { .. } | Node::Sum { .. } | Node::Count { .. } => format!("({inside})"),
            node if node.is_condition() => format!("({inside})"),
            _ => inside,
        })
    }

    pub fn node_inside(&self, number: u32) -> Printed<String> {
        Ok(match self.nodes[number as usize] {
            Node::And { left, right } => format!("{} and {}", self.node(left)?, self.node(right)?),
            Node::Or { left, right } => format!("{} or {}", self.node(left)?, self.node(right)?),
            Node::Not { inner } => format!("not {}", self.node(inner)?),
            Node::Formerly { within, body } => format!("formerly {} {}", window(within)?, self.node(body)?),
            Node::Previous { within, body } => format!("previous {} {}", window(within)?, self.node(body)?),
            Node::Since { left, right, within } => {
                format!("{} since {} {}", self.node(left)?, window(within)?, self.node(right)?)
            }
            Node::Predicate { namespace, action, kind, arguments } => {
                let mut inside = Vec::new();
                for (path, term) in self.arguments(arguments)? {
                    inside.push(format!("{}: {}", field(&self.names(path)?), self.node(term)?));
                }
                format!("{}({})", self.action(namespace, action, kind)?, inside.join(", "))
            }
            Node::Comparison { op, left, right } => {
                format!("{} {} {}", self.node(left)?, sign(&COMPARISONS, op)?, self.node(right)?)
            }
            Node::Exists { variable: v, body } => format!("exists {} {}", self.variable(v), self.node(body)?),
            Node::Tp { variable: v } => format!("tp {}", self.variable(v)),
            Node::Literal { value } => self.value(value)?,
            Node::Context { path } => format!("context.{}", behind_dot(&self.names(path)?)),
            Node::Scope { root, path } if path.count == 0 => sign(&ROOTS, root)?.to_string(),
            Node::Scope { root, path } => format!("{}.{}", sign(&ROOTS, root)?, behind_dot(&self.names(path)?)),
            Node::Variable { variable: v } => self.variable(v),
            Node::Wildcard => "*".to_string(),
            Node::Aggregate { aggregate } => self.node(aggregate)?,
            Node::Arithmetic { op, left, right } => {
                format!("{} {} {}", self.node(left)?, sign(&ARITHMETIC, op)?, self.node(right)?)
            }
            Node::Sum { variable: v, binders, body } => {
                format!("sum {}{} where {}", self.variable(v), self.binders(binders)?, self.node(body)?)
            }
            Node::Count { binders, body } => format!("count{} where {}", self.binders(binders)?, self.node(body)?),
        })
    }

    fn binders(&self, run: Run) -> Printed<String> {
        let names: Vec<String> = self.list(run.first, run.count as usize)?.iter().map(|&v| self.variable(v)).collect();
        Ok(if names.is_empty() { String::new() } else { format!(" for {}", names.join(", ")) })
    }
}

fn window(within: Within) -> Printed<String> {
    Ok(format!("within {}{}", within.amount, sign(&UNITS, within.unit)?))
}

fn sign(signs: &[&'static str], number: u32) -> Printed<&'static str> {
    signs.get(number as usize).copied().ok_or(format!("operator, unit or root {number} is unknown"))
}

/// A name where keywords, too, may stand bare.
pub fn word(name: &str) -> String {
    if is_identifier(name) {
        name.to_string()
    } else {
        quoted(name)
    }
}

/// The names of a path behind a dot, where a number, too, stands bare.
pub fn behind_dot(names: &[impl AsRef<str>]) -> String {
    let written = |name: &str| {
        let bare = !name.is_empty() && name.chars().all(is_of_word);
        if bare {
            name.to_string()
        } else {
            quoted(name)
        }
    };
    names.iter().map(|name| written(name.as_ref())).collect::<Vec<_>>().join(".")
}

/// The path of a predicate's field.
fn field(names: &[&str]) -> String {
    match names {
        [] => String::new(),
        [first] => word(first),
        [first, rest @ ..] => format!("{}.{}", word(first), behind_dot(rest)),
    }
}

/// A name where a keyword must be quoted.
fn plain(name: &str) -> String {
    if KEYWORDS.contains(&name) {
        quoted(name)
    } else {
        word(name)
    }
}

/// A text in quotation marks, as it is read again.
pub fn quoted(text: &str) -> String {
    let mut out = String::from("\"");
    for c in text.chars() {
        match c {
            '"' => out.push_str("\\\""),
            '\\' => out.push_str("\\\\"),
            '\n' => out.push_str("\\n"),
            '\t' => out.push_str("\\t"),
            c if c.is_control() => out.push_str(&format!("\\u{{{:x}}}", c as u32)),
            c => out.push(c),
        }
    }
    out.push('"');
    out
}
