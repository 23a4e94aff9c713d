//! `--bind VARIABLE=VALUE`: a value as in a case's text, looked up in the case.

use casefile::binding::Binding;
use casefile::text::pack;
use casefile::{Tables, Value, Variables};
use galivodern::{Bindings, Bound, VariableNo};

use crate::failure::Failure;
use crate::opened::{Asked, Opened};

/// The starting bindings, and the variables that they bind.
pub fn bindings(opened: &Opened, binds: &[&str]) -> Result<(Bindings, Variables), Failure> {
    let (mut bindings, mut variables) = (Bindings::new(), Variables::default());
    for bind in binds {
        let (name, value) = bind
            .split_once('=')
            .ok_or_else(|| Failure::usage(format!("`--bind {bind}` has no `=`: it is written --bind v=X")))?;
        let variable = opened.variable(name)?;
        if variables.contains(variable.into()) {
            return Err(Failure::usage(format!("`{name}` is bound twice")));
        }
        let bound = bound(opened, value).ok_or_else(|| {
            let how = "a binding names an integer, or a value or string that the case holds";
            Failure::of_file(&opened.file, format!("there is no value {value} in the case: {how}"))
        })?;
        variables = variables.with(variable.into());
        bindings = bindings.with(VariableNo(variable), bound);
    }
    Ok((bindings, variables))
}

/// What is to be warned of: variables that are bound and do not stand free in what is asked.
pub fn bound_names(opened: &Opened, asked: &Asked, bound: Variables) -> Vec<String> {
    let idle = bound.but(Binding::of(&opened.tables).free(asked.node));
    let told = |variable| {
        let name = opened.variable_name(variable);
        format!("{} does not depend on `{name}`, which is bound", asked.shown())
    };
    idle.iter().map(told).collect()
}

fn bound(opened: &Opened, value: &str) -> Option<Bound> {
    if let Some(number) = value.strip_prefix("value:") {
        return number.parse().ok().map(Bound::Value);
    }
    if let Some(number) = value.strip_prefix("string:") {
        return number.parse().ok().map(Bound::Part);
    }
    let given = as_value(value);
    let last = given.values.len() as u32 - 1;
    if let Some(Value::Int(number)) = read(&given, last) {
        return Some(Bound::Int(number));
    }
    let tables = &opened.tables;
    let known = (0..tables.values.len() as u32).find(|&number| same(&given, last, tables, number));
    known.map(Bound::Value).or_else(|| {
        // A string that is no value may still be an entity's id or type.
        let Some(Value::String(text)) = read(&given, last) else { return None };
        let string = (0..tables.strings.len() as u32).find(|&k| tables.string(k) == given.string(text))?;
        Some(Bound::Part(string))
    })
}

/// The tables of a case that has this value last. What is no value is a plain word: a string.
fn as_value(value: &str) -> Tables {
    let packed = pack(&format!("value given = {value}"));
    let only_value = |tables: &Tables| tables.points.is_empty() && tables.nodes.is_empty();
    match packed.map(|packed| packed.tables) {
        Ok(tables) if only_value(&tables) => tables,
        _ => {
            let mut builder = casefile::Builder::new(0);
            builder.text(value);
            builder.unsorted().tables
        }
    }
}

fn read(tables: &Tables, value: u32) -> Option<Value> {
    Value::read(tables.values[value as usize])
}

/// Whether two values are written the same.
fn same(a: &Tables, in_a: u32, b: &Tables, in_b: u32) -> bool {
    let text = |x: u32, y: u32| a.string(x) == b.string(y);
    match (read(a, in_a), read(b, in_b)) {
        (Some(Value::Null), Some(Value::Null)) => true,
        (Some(Value::Bool(x)), Some(Value::Bool(y))) => x == y,
        (Some(Value::Int(x)), Some(Value::Int(y))) => x == y,
        (Some(Value::Decimal(x)), Some(Value::Decimal(y))) => text(x, y),
        (Some(Value::String(x)), Some(Value::String(y))) => text(x, y),
        (Some(Value::Entity(t, i)), Some(Value::Entity(u, j))) => text(t, u) && text(i, j),
        (Some(Value::Array(x)), Some(Value::Array(y))) | (Some(Value::Object(x)), Some(Value::Object(y))) => {
            let named = |m: u32, n: u32| m == n && m == casefile::NONE || m != casefile::NONE && text(m, n);
            let members = a.members[x.places()].iter().zip(&b.members[y.places()]);
            x.count == y.count && members.into_iter().all(|(m, n)| named(m[0], n[0]) && same(a, m[1], b, n[1]))
        }
        _ => false,
    }
}
