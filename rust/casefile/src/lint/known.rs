//! What is known of actions, context and entities: from the points of a log, or from a schema.

use std::collections::BTreeMap;
use std::fmt;

use crate::records::{Point, Value};
use crate::tables::{Tables, NONE};

const NAMES: [&str; 8] = ["Null", "Bool", "Int", "Decimal", "String", "Entity", "Array", "Object"];

/// What lies deeper inside a field may be anything.
const MOST_DEPTH: usize = 6;

/// Kinds of values, by document 01's numbers.
#[derive(Clone, Copy, Debug, Default, PartialEq, Eq)]
pub struct Kinds(u8);

impl Kinds {
    pub const ALL: Kinds = Kinds(255);
    pub const INT: Kinds = Kinds(1 << 2);
    pub const STRING: Kinds = Kinds(1 << 4);
    pub const ENTITY: Kinds = Kinds(1 << 5);
    pub const OBJECT: Kinds = Kinds(1 << 7);

    /// Of a word in a schema.
    pub fn named(name: &str) -> Option<Kinds> {
        let any = (name == "Any").then_some(Kinds::ALL);
        any.or_else(|| NAMES.iter().position(|known| *known == name).map(|kind| Kinds(1 << kind)))
    }

    pub fn of(value: [u32; 4]) -> Kinds {
        Kinds(1u8.checked_shl(value[0]).unwrap_or(0))
    }

    pub fn or(self, other: Kinds) -> Kinds {
        Kinds(self.0 | other.0)
    }

    pub fn meets(self, other: Kinds) -> bool {
        self.0 & other.0 != 0
    }

    pub fn none(self) -> bool {
        self.0 == 0
    }
}

impl fmt::Display for Kinds {
    fn fmt(&self, f: &mut fmt::Formatter) -> fmt::Result {
        let names: Vec<&str> = (0..8).filter(|kind| self.0 >> kind & 1 == 1).map(|kind| NAMES[kind]).collect();
        f.write_str(&names.join(" or "))
    }
}

/// Fields by name: the kinds that they have, and the fields inside them.
#[derive(Clone, Debug, Default)]
pub struct Fields(pub BTreeMap<String, (Kinds, Fields)>);

impl Fields {
    /// The kinds at a path. An error has the names that are known at the name which is not.
    pub fn at(&self, path: &[String]) -> Result<Kinds, (usize, Vec<&str>)> {
        let mut fields = self;
        let mut kinds = Kinds::OBJECT;
        for (k, name) in path.iter().enumerate() {
            match fields.0.get(name) {
                Some((found, inside)) => (kinds, fields) = (*found, inside),
                // What may be anything may hold any name.
                None if kinds == Kinds::ALL && k > 0 => return Ok(Kinds::ALL),
                None => return Err((k, fields.0.keys().map(String::as_str).collect())),
            }
        }
        Ok(kinds)
    }

    /// The kinds at a path whose names, joined by dots, are the key of a chain of members: those of all such
    /// chains, since each point has its own. An error has the names that are known where none goes on.
    pub fn joined(&self, path: &[String]) -> Result<Kinds, (usize, Vec<&str>)> {
        let mut found = Kinds::default();
        let mut unknown = (0, self.0.keys().map(String::as_str).collect());
        for count in 1..=path.len() {
            let Some((kinds, inside)) = self.0.get(&path[..count].join(".")) else { continue };
            if count == path.len() {
                found = found.or(*kinds);
                continue;
            }
            match inside.joined(&path[count..]) {
                Ok(kinds) => found = found.or(kinds),
                // What may be anything may hold any name.
                Err(_) if *kinds == Kinds::ALL => return Ok(Kinds::ALL),
                Err((at, names)) if count + at >= unknown.0 => unknown = (count + at, names),
                Err(_) => {}
            }
        }
        if found.none() {
            return Err(unknown);
        }
        Ok(found)
    }

    /// Adds the members of an object. Shared objects could be followed on so many ways that it ends somewhere.
    fn add(&mut self, tables: &Tables, object: u32, depth: usize) {
        let Some(Value::Object(run)) = Value::read(tables.values[object as usize]) else { return };
        for [name, value] in tables.members[run.places()].iter().filter(|[name, _]| *name != NONE) {
            let name = String::from_utf8_lossy(tables.string(*name)).into_owned();
            let (kinds, inside) = self.0.entry(name).or_default();
            let own = Kinds::of(tables.values[*value as usize]);
            *kinds = kinds.or(if own == Kinds::OBJECT && depth == MOST_DEPTH { Kinds::ALL } else { own });
            if depth < MOST_DEPTH {
                inside.add(tables, *value, depth + 1);
            }
        }
    }
}

/// What is known, and by what.
#[derive(Clone, Debug)]
pub struct Known {
    /// By the action's name with its namespace, and by its kind.
    pub actions: BTreeMap<String, BTreeMap<String, Fields>>,
    pub context: Fields,
    /// Attributes of all entities.
    pub attributes: Fields,
    /// Of principal and resource.
    pub roots: [Kinds; 2],
    pub by_schema: bool,
}

impl Known {
    pub fn nothing(by_schema: bool) -> Known {
        let fields = Fields::default();
        let roots = [Kinds::default(); 2];
        Known { actions: BTreeMap::new(), context: fields.clone(), attributes: fields, roots, by_schema }
    }

    /// What the points of a checked case have.
    pub fn of_log(tables: &Tables) -> Known {
        let mut known = Known::nothing(false);
        // Equal objects are looked at once for each place: a log repeats them.
        let mut seen = std::collections::HashSet::new();
        for point in tables.points.iter().map(|words| Point::read(*words)) {
            let (action, kind) = event(tables, &point);
            let fields = known.actions.entry(action.clone()).or_default().entry(kind.clone()).or_default();
            if seen.insert((action, kind, point.logged)) {
                fields.add(tables, point.logged, 1);
            }
            if seen.insert((String::new(), String::new(), point.context)) {
                known.context.add(tables, point.context, 1);
            }
            let roots = [point.principal, point.resource];
            for (kinds, root) in known.roots.iter_mut().zip(roots) {
                *kinds = kinds.or(root.map_or(Kinds::default(), |value| Kinds::of(tables.values[value as usize])));
            }
            let entities =
                tables.lists.iter().skip(point.entities.first as usize).take(3 * point.entities.count as usize);
            for attributes in entities.copied().skip(2).step_by(3) {
                if seen.insert(("entity".to_string(), String::new(), attributes)) {
                    known.attributes.add(tables, attributes, 1);
                }
            }
        }
        known
    }

    /// Who knows it, in a message.
    pub fn source(&self) -> &'static str {
        if self.by_schema {
            "the schema has no"
        } else {
            "no point of the log has"
        }
    }
}

/// Action with namespace, and kind, of a point.
pub fn event(tables: &Tables, point: &Point) -> (String, String) {
    let text = |string: u32| String::from_utf8_lossy(tables.string(string)).into_owned();
    let mut names: Vec<String> = tables.lists[point.namespace.places()].iter().map(|&name| text(name)).collect();
    names.push(text(point.action));
    (names.join("::"), text(point.kind))
}
