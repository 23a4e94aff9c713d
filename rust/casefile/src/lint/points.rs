//! Points against a schema.

use super::known::{event, Fields, Kinds, Known};
use super::{About, Warning};
use crate::records::{Point, Value};
use crate::tables::{Tables, NONE};
use crate::text::behind_dot;

/// What the points have that a schema does not.
pub fn points(tables: &Tables, known: &Known) -> Vec<Warning> {
    let mut warnings = Vec::new();
    for (number, point) in tables.points.iter().map(|words| Point::read(*words)).enumerate() {
        let (action, kind) = event(tables, &point);
        let mut tell = |message| warnings.push(Warning { about: About::Point(number as u32), message });
        match known.actions.get(&action).and_then(|kinds| kinds.get(&kind)) {
            Some(fields) => {
                unfit(tables, point.logged, fields, "")
                    .into_iter()
                    .for_each(|what| tell(format!("`{action}/{kind}`: {what}")));
            }
            None => tell(format!("the schema has no action `{action}/{kind}`")),
        }
        unfit(tables, point.context, &known.context, "context.").into_iter().for_each(tell);
    }
    warnings
}

/// The members of an object that the fields do not have, or not of this kind.
fn unfit(tables: &Tables, object: u32, fields: &Fields, before: &str) -> Vec<String> {
    let Some(Value::Object(run)) = Value::read(tables.values[object as usize]) else { return Vec::new() };
    let mut told = Vec::new();
    for [name, value] in tables.members[run.places()].iter().filter(|[name, _]| *name != NONE) {
        let name = String::from_utf8_lossy(tables.string(*name)).into_owned();
        let field = format!("{before}{}", behind_dot(&[&name]));
        let kinds = Kinds::of(tables.values[*value as usize]);
        match fields.0.get(&name) {
            None => told.push(format!("the schema has no field `{field}`")),
            Some((wanted, _)) if !wanted.meets(kinds) => {
                told.push(format!("`{field}` is {wanted} in the schema, and {kinds} here"));
            }
            Some((wanted, inside)) if *wanted == Kinds::OBJECT => {
                told.extend(unfit(tables, *value, inside, &format!("{field}.")));
            }
            Some(_) => {}
        }
    }
    told
}
