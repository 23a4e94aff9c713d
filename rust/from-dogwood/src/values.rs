//! Dogwood's values as records, each of them once.

use std::collections::HashMap;

use casefile::{Builder, Value as Record};

use crate::theirs::Value;

/// What tells a value from others; parts and texts are numbers already.
#[derive(Clone, PartialEq, Eq, Hash)]
enum Key {
    Leaf(Record),
    Array(Vec<u32>),
    Object(Vec<(String, u32)>),
}

#[derive(Default)]
pub struct Values {
    known: HashMap<Key, u32>,
}

impl Values {
    pub fn add(&mut self, builder: &mut Builder, value: &Value) -> u32 {
        let key = self.key(builder, value);
        if let Some(&number) = self.known.get(&key) {
            return number;
        }
        let number = match &key {
            Key::Leaf(record) => builder.value(*record),
            Key::Array(items) => builder.array(items),
            Key::Object(members) => {
                let members: Vec<(&str, u32)> = members.iter().map(|(name, value)| (name.as_str(), *value)).collect();
                builder.object(&members)
            }
        };
        self.known.insert(key, number);
        number
    }

    fn key(&mut self, builder: &mut Builder, value: &Value) -> Key {
        Key::Leaf(match value {
            Value::Null => Record::Null,
            Value::Bool(b) => Record::Bool(*b),
            Value::Int(n) => Record::Int(*n),
            Value::Decimal(text) => Record::Decimal(builder.string(text)),
            Value::String(text) => Record::String(builder.string(text)),
            Value::Entity { ty, id } => Record::Entity(builder.string(ty), builder.string(id)),
            Value::Array(items) => return Key::Array(items.iter().map(|item| self.add(builder, item)).collect()),
            Value::Object(members) => {
                let member = |(name, value): (&String, &Value)| (name.clone(), self.add(builder, value));
                return Key::Object(members.iter().map(member).collect());
            }
        })
    }
}
