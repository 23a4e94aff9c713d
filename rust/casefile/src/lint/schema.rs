//! Reads a schema: the actions with their fields and types, the context, the entities.

use super::known::{Fields, Kinds, Known};
use crate::near::did_you_mean;
use crate::text::{Fault, Parsed, Parser, Token};

const STATEMENTS: [&str; 5] = ["action", "context", "entity", "principal", "resource"];

/// What a schema says, or what is wrong with it.
pub fn schema(text: &str) -> Result<Known, Vec<Fault>> {
    let (mut parser, faults) = Parser::of(text);
    if !faults.is_empty() {
        return Err(faults);
    }
    let mut known = Known::nothing(true);
    while parser.token() != &Token::End {
        statement(&mut parser, &mut known).map_err(|fault| vec![fault])?;
    }
    Ok(known)
}

fn statement(parser: &mut Parser, known: &mut Known) -> Parsed<()> {
    let place = parser.place();
    if parser.word("action") {
        let action = parser.action("an action")?;
        let mut names = action.namespace;
        names.push(action.action);
        let kinds = known.actions.entry(names.join("::")).or_default();
        if kinds.insert(action.kind, fields(parser)?).is_some() {
            return place.fault("this action is here twice");
        }
    } else if parser.word("context") {
        known.context.0.extend(fields(parser)?.0);
    } else if parser.word("entity") {
        parser.name("an entity's type")?;
        while parser.sign("::") {
            parser.name("a name after `::`")?;
        }
        known.attributes.0.extend(fields(parser)?.0);
    } else if parser.word("principal") {
        known.roots[0] = kinds(parser)?.0;
    } else if parser.word("resource") {
        known.roots[1] = kinds(parser)?.0;
    } else {
        let near = match parser.token() {
            Token::Word(word) => did_you_mean(word, STATEMENTS),
            _ => String::new(),
        };
        return place.fault(format!("expected action, context, entity, principal or resource{near}"));
    }
    Ok(())
}

/// `{name: Type, ..}`
fn fields(parser: &mut Parser) -> Parsed<Fields> {
    let mut fields = Fields::default();
    parser.expect_sign("{")?;
    while !parser.is_sign("}") {
        let place = parser.place();
        let name = parser.name("a field's name")?;
        parser.expect_sign(":")?;
        if fields.0.insert(name, kinds(parser)?).is_some() {
            return place.fault("this field is here twice");
        }
        if !parser.sign(",") {
            break;
        }
    }
    parser.expect_sign("}")?;
    Ok(fields)
}

/// A type: one of document 01's kinds, `Any`, or the fields of an object.
fn kinds(parser: &mut Parser) -> Parsed<(Kinds, Fields)> {
    if parser.is_sign("{") {
        return Ok((Kinds::OBJECT, parser.deeper(fields)?));
    }
    let place = parser.place();
    let name = parser.name("a type")?;
    let types = "a type is Null, Bool, Int, Decimal, String, Entity, Array, Object, Any or {name: Type, ..}";
    match Kinds::named(&name) {
        Some(kinds) => Ok((kinds, Fields::default())),
        None => place.fault(format!("there is no type `{name}`; {types}")),
    }
}
