//! Reads points.

use super::lexer::Place;
use super::parser::{Parsed, Parser};
use super::plain::{Action, PlainPoint, PlainValue};
use super::USUAL_KIND;

impl Parser {
    pub fn point(&mut self, at: Place) -> Parsed<()> {
        let time = self.integer("the point's time")?;
        let action = self.action("the point's action")?;
        let mut point = PlainPoint {
            time,
            action,
            logged: None,
            context: None,
            principal: None,
            resource: None,
            entities: Vec::new(),
        };
        while self.part(&mut point)? {}
        if point.logged.is_none() || point.context.is_none() {
            // What is left out is the empty object.
            let empty = Some(self.values.add(PlainValue::Object(Vec::new())));
            point.logged = point.logged.or(empty);
            point.context = point.context.or(empty);
        }
        self.points.push(point);
        self.places.points.push(at);
        Ok(())
    }

    /// One part of a point, if there is one more.
    fn part(&mut self, point: &mut PlainPoint) -> Parsed<bool> {
        let place = self.place();
        let once = |already: bool, what: &str| match already {
            true => place.fault(format!("this point has its `{what}` twice: leave one out, or join them")),
            false => Ok(()),
        };
        if self.word("logged") {
            once(point.logged.is_some(), "logged")?;
            point.logged = Some(self.object(place)?);
        } else if self.word("context") {
            once(point.context.is_some(), "context")?;
            point.context = Some(self.object(place)?);
        } else if self.word("principal") {
            once(point.principal.is_some(), "principal")?;
            point.principal = Some(self.value()?);
        } else if self.word("resource") {
            once(point.resource.is_some(), "resource")?;
            point.resource = Some(self.value()?);
        } else if self.word("entity") {
            self.entity_record(point, place)?;
        } else {
            return Ok(false);
        }
        Ok(true)
    }

    fn object(&mut self, place: Place) -> Parsed<u32> {
        let value = self.value()?;
        match self.values.values[value as usize] {
            PlainValue::Object(_) => Ok(value),
            _ => place.fault("an object is wanted here: { name: value, .. }"),
        }
    }

    fn entity_record(&mut self, point: &mut PlainPoint, place: Place) -> Parsed<()> {
        let (ty, id) = self.entity()?;
        if ty.contains('"') {
            return place.fault("an entity's type holds no quotation mark here");
        }
        if point.entities.iter().any(|(t, i, _)| (t, i) == (&ty, &id)) {
            return place.fault("this entity has its record twice at this point");
        }
        let attributes = self.object(place)?;
        point.entities.push((ty, id, attributes));
        Ok(())
    }

    /// `Namespace::Action/kind`; the kind is `request` where it is left out.
    pub fn action(&mut self, what: &str) -> Parsed<Action> {
        let mut names = vec![self.name(what)?];
        while self.sign("::") {
            names.push(self.name("a name after `::`")?);
        }
        let kind = if self.sign("/") { self.name("a kind")? } else { USUAL_KIND.to_string() };
        let action = names.pop().expect("at least one name was read");
        Ok(Action { namespace: names, action, kind })
    }
}
