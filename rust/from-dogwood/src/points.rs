//! A trace's points as records.

use casefile::Point;

use crate::conversion::Conversion;
use crate::error::Error;
use crate::theirs::{EventData, Trace, Value};
use crate::uid;

impl Conversion {
    pub(crate) fn point(&mut self, trace: &Trace, i: usize) -> Result<(), Error> {
        let (event, scope) = (trace.event(i), trace.scope(i));
        let record = Point {
            time: trace.ts(i),
            namespace: self.names(&event.namespace),
            action: self.builder.string(&event.action),
            kind: self.builder.string(&event.kind),
            logged: self.value(&Value::Object(event.logged.clone())),
            context: self.value(&Value::Object(event.request_context.clone())),
            principal: self.root(scope.principal.as_ref())?,
            resource: self.root(scope.resource.as_ref())?,
            entities: self.entities(event),
        };
        self.builder.point(record);
        Ok(())
    }

    /// Dogwood looks a root's attributes up by the text `Type::"id"`, which a quotation mark in the
    /// type would make ambiguous.
    fn root(&mut self, root: Option<&Value>) -> Result<Option<u32>, Error> {
        match root {
            Some(Value::Entity { ty, .. }) if ty.contains('"') => Err(Error::EntityType(ty.clone())),
            root => Ok(root.map(|value| self.value(value))),
        }
    }

    fn entities(&mut self, event: &EventData) -> casefile::Run {
        let mut found = Vec::new();
        for (key, record) in &event.entities {
            if let Some((ty, id)) = uid::parts(key) {
                found.push((ty, id, self.value(&Value::Object(record.attrs.clone()))));
            }
        }
        let items: Vec<(&str, &str, u32)> = found.iter().map(|(ty, id, value)| (*ty, id.as_str(), *value)).collect();
        self.builder.entities(&items)
    }
}
