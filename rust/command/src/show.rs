//! What a variable is bound to, as text and as JSON.

use casefile::text::word;
use galivodern::{Bound, Case, Value};

use crate::json;

/// Values may share their parts many times over; what is longer than this is named by its number.
const MOST_CHARACTERS: usize = 2_000;

/// A text in quotation marks, as a case's text has it; what is no plain character goes by its number, so that it is
/// seen and does nothing to a terminal.
pub fn quoted(text: &str) -> String {
    let mut shown = String::from("\"");
    for c in text.chars() {
        match c {
            '\'' => shown.push(c),
            '\0' | '\r' => shown.push_str(&format!("\\u{{{:x}}}", c as u32)),
            c => shown.extend(c.escape_debug()),
        }
    }
    shown.push('"');
    shown
}

/// A name as a case's text has it: a plain word, or quoted, so that it is taken for nothing else.
pub fn name(name: &str) -> String {
    if word(name) == name {
        name.to_string()
    } else {
        quoted(name)
    }
}

/// An entity's type: plain words with `::` between them, or quoted.
fn type_words(ty: &str) -> String {
    if ty.split("::").all(|part| word(part) == part) {
        ty.to_string()
    } else {
        quoted(ty)
    }
}

/// As in a case's text; `-` for nothing.
pub fn text(case: &Case, bound: Option<Bound>) -> String {
    match bound {
        None => "-".to_string(),
        Some(Bound::Int(number)) => number.to_string(),
        Some(Bound::Part(string)) => quoted(case.string(string).unwrap_or_default()),
        Some(Bound::Value(value)) => {
            let mut shown = String::new();
            push_text(case, value, &mut shown);
            shown
        }
        Some(other) => format!("{other:?}"),
    }
}

fn push_text(case: &Case, number: u32, shown: &mut String) {
    if shown.len() > MOST_CHARACTERS {
        return shown.push_str(&format!("value:{number}"));
    }
    match case.value(number) {
        None => shown.push_str(&format!("value:{number}")),
        Some(Value::Null) => shown.push_str("null"),
        Some(Value::Bool(b)) => shown.push_str(&b.to_string()),
        Some(Value::Int(n)) => shown.push_str(&n.to_string()),
        Some(Value::Decimal(text)) => shown.push_str(&format!("decimal {}", quoted(text))),
        Some(Value::String(text)) => shown.push_str(&quoted(text)),
        Some(Value::Entity { ty, id }) => shown.push_str(&format!("{}::{}", type_words(ty), quoted(id))),
        Some(Value::Array(items)) => {
            push_all(shown, "[]", items, |shown, item| push_text(case, item, shown));
        }
        Some(Value::Object(members)) => push_all(shown, "{}", members, |shown, (name, value)| {
            shown.push_str(&format!("{}: ", quoted(name)));
            push_text(case, value, shown);
        }),
        Some(other) => shown.push_str(&format!("{other:?}")),
    }
}

/// JSON; decimals and entities are objects of their own kind.
pub fn json(case: &Case, bound: Bound) -> String {
    match bound {
        Bound::Int(number) => number.to_string(),
        Bound::Part(string) => json::string(case.string(string).unwrap_or_default()),
        Bound::Value(value) => {
            let mut shown = String::new();
            push_json(case, value, &mut shown);
            shown
        }
        other => json::string(&format!("{other:?}")),
    }
}

fn push_json(case: &Case, number: u32, shown: &mut String) {
    if shown.len() > MOST_CHARACTERS {
        return shown.push_str(&format!(r#"{{"value":{number}}}"#));
    }
    match case.value(number) {
        None | Some(Value::Null) => shown.push_str("null"),
        Some(Value::Bool(b)) => shown.push_str(&b.to_string()),
        Some(Value::Int(n)) => shown.push_str(&n.to_string()),
        Some(Value::Decimal(text)) => shown.push_str(&format!(r#"{{"decimal":{}}}"#, json::string(text))),
        Some(Value::String(text)) => shown.push_str(&json::string(text)),
        Some(Value::Entity { ty, id }) => {
            shown.push_str(&format!(r#"{{"type":{},"id":{}}}"#, json::string(ty), json::string(id)));
        }
        Some(Value::Array(items)) => {
            push_all(shown, "[]", items, |shown, item| push_json(case, item, shown));
        }
        Some(Value::Object(members)) => push_all(shown, "{}", members, |shown, (name, value)| {
            shown.push_str(&json::string(name));
            shown.push(':');
            push_json(case, value, shown);
        }),
        Some(other) => shown.push_str(&json::string(&format!("{other:?}"))),
    }
}

/// All items with commas between them, inside brackets.
fn push_all<T>(shown: &mut String, brackets: &str, items: Vec<T>, push: impl Fn(&mut String, T)) {
    let (open, close) = brackets.split_at(1);
    shown.push_str(open);
    for (k, item) in items.into_iter().enumerate() {
        if k > 0 {
            shown.push_str(", ");
        }
        push(shown, item);
    }
    shown.push_str(close);
}
