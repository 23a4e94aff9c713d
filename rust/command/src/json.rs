//! Pieces of JSON.

use std::fmt::Display;

use crate::warn::Warned;

/// An object that grows member by member.
#[derive(Default)]
pub struct Object(Vec<String>);

impl Object {
    pub fn new() -> Object {
        Object::default()
    }

    /// A member whose value is JSON already.
    pub fn plain(mut self, name: &str, value: impl Display) -> Object {
        self.0.push(format!("{}:{value}", string(name)));
        self
    }

    pub fn text(self, name: &str, text: &str) -> Object {
        self.plain(name, string(text))
    }

    pub fn list(self, name: &str, items: impl Iterator<Item = String>) -> Object {
        self.plain(name, format!("[{}]", items.collect::<Vec<_>>().join(",")))
    }

    /// A member that is left out where there is nothing to tell.
    pub fn some(self, name: &str, text: Option<&str>) -> Object {
        match text {
            Some(text) => self.text(name, text),
            None => self,
        }
    }

    /// The members of another object behind these.
    pub fn with(mut self, other: &Object) -> Object {
        self.0.extend(other.0.iter().cloned());
        self
    }

    pub fn warnings(self, warnings: &[Warned]) -> Object {
        self.list("warnings", warnings.iter().map(|warning| warning.json().to_string()))
    }

    pub fn done(self) -> String {
        format!("{{{}}}", self.0.join(","))
    }
}

/// A string with its quotes.
pub fn string(text: &str) -> String {
    let mut quoted = String::from("\"");
    for character in text.chars() {
        match character {
            '"' => quoted.push_str("\\\""),
            '\\' => quoted.push_str("\\\\"),
            '\n' => quoted.push_str("\\n"),
            '\t' => quoted.push_str("\\t"),
            control if control < ' ' => quoted.push_str(&format!("\\u{:04x}", u32::from(control))),
            other => quoted.push(other),
        }
    }
    quoted.push('"');
    quoted
}

#[cfg(test)]
mod tests {
    #[test]
    fn strings_are_escaped() {
        assert_eq!(super::string("a\"b\\c\nd\te\u{1}é"), r#""a\"b\\c\nd\te\u0001é""#);
    }
}
