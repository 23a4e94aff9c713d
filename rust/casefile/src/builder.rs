//! Builds the tables record by record. Strings are given as text in any order, and numbered as they come:
//! `unsorted` gives them so, `finish` sorted.

use std::collections::HashMap;

use crate::records::{Node, Point, Run, Value};
use crate::tables::{Tables, NONE};
use crate::unsorted::Unsorted;

/// An entity of a point's list: type, id, attribute object.
pub type EntityItem<'a> = (&'a str, &'a str, u32);

#[derive(Clone, Debug, Default)]
pub struct Builder {
    variables: u32,
    strings: Vec<String>,
    numbers: HashMap<String, u32>,
    values: Vec<Value>,
    members: Vec<[u32; 2]>,
    points: Vec<Point>,
    nodes: Vec<Node>,
    lists: Vec<ListWord>,
}

/// A list word names a string or is a plain number.
#[derive(Clone, Copy, Debug)]
enum ListWord {
    String(u32),
    Number(u32),
}

impl Builder {
    pub fn new(variables: u32) -> Builder {
        Builder { variables, ..Builder::default() }
    }

    /// The number of a string among those that came so far.
    pub fn string(&mut self, text: &str) -> u32 {
        if let Some(&number) = self.numbers.get(text) {
            return number;
        }
        let number = self.strings.len() as u32;
        self.strings.push(text.to_string());
        self.numbers.insert(text.to_string(), number);
        number
    }

    pub fn value(&mut self, value: Value) -> u32 {
        self.values.push(value);
        self.values.len() as u32 - 1
    }

    pub fn int(&mut self, n: i64) -> u32 {
        self.value(Value::Int(n))
    }

    pub fn decimal(&mut self, text: &str) -> u32 {
        let text = self.string(text);
        self.value(Value::Decimal(text))
    }

    pub fn text(&mut self, text: &str) -> u32 {
        let text = self.string(text);
        self.value(Value::String(text))
    }

    pub fn entity(&mut self, ty: &str, id: &str) -> u32 {
        let (ty, id) = (self.string(ty), self.string(id));
        self.value(Value::Entity(ty, id))
    }

    pub fn array(&mut self, items: &[u32]) -> u32 {
        let first = self.members.len() as u32;
        self.members.extend(items.iter().map(|&item| [NONE, item]));
        self.value(Value::Array(Run { first, count: items.len() as u32 }))
    }

    /// Members are put in byte order of their names.
    pub fn object(&mut self, members: &[(&str, u32)]) -> u32 {
        let mut members = members.to_vec();
        members.sort();
        let first = self.members.len() as u32;
        for (name, value) in &members {
            let name = self.string(name);
            self.members.push([name, *value]);
        }
        self.value(Value::Object(Run { first, count: members.len() as u32 }))
    }

    pub fn point(&mut self, point: Point) -> u32 {
        self.points.push(point);
        self.points.len() as u32 - 1
    }

    pub fn node(&mut self, node: Node) -> u32 {
        self.nodes.push(node);
        self.nodes.len() as u32 - 1
    }

    /// A run of strings: a namespace or a path.
    pub fn names(&mut self, names: &[&str]) -> Run {
        let words: Vec<ListWord> = names.iter().map(|name| ListWord::String(self.string(name))).collect();
        self.list(&words, 1)
    }

    /// A run of variables.
    pub fn binders(&mut self, variables: &[u32]) -> Run {
        let words: Vec<ListWord> = variables.iter().map(|&v| ListWord::Number(v)).collect();
        self.list(&words, 1)
    }

    /// A point's entities, put in order by (type, id).
    pub fn entities(&mut self, entities: &[EntityItem]) -> Run {
        let mut entities = entities.to_vec();
        entities.sort();
        let mut words = Vec::new();
        for (ty, id, attributes) in entities {
            words.push(ListWord::String(self.string(ty)));
            words.push(ListWord::String(self.string(id)));
            words.push(ListWord::Number(attributes));
        }
        self.list(&words, 3)
    }

    /// A Predicate's arguments: path and term each.
    pub fn arguments(&mut self, arguments: &[(Run, u32)]) -> Run {
        let words: Vec<ListWord> =
            arguments.iter().flat_map(|&(path, term)| [path.first, path.count, term]).map(ListWord::Number).collect();
        self.list(&words, 3)
    }

    fn list(&mut self, words: &[ListWord], item: usize) -> Run {
        let first = self.lists.len() as u32;
        self.lists.extend(words);
        Run { first, count: (words.len() / item) as u32 }
    }

    pub fn values(&self) -> &[Value] {
        &self.values
    }

    pub fn nodes(&self) -> &[Node] {
        &self.nodes
    }

    pub fn point_count(&self) -> usize {
        self.points.len()
    }

    /// The tables with the strings in the order in which they came, and a mark for each list word that names one.
    pub fn unsorted(self) -> Unsorted {
        let (mut strings, mut text) = (Vec::new(), Vec::new());
        for string in &self.strings {
            strings.push([text.len() as u32, string.len() as u32]);
            text.extend(string.bytes());
        }
        let (lists, marks) = self.lists.iter().map(|word| word.marked()).unzip();
        let tables = Tables {
            variables: self.variables,
            strings,
            values: self.values.iter().map(|value| value.words()).collect(),
            members: self.members,
            points: self.points.iter().map(|point| point.words()).collect(),
            nodes: self.nodes.iter().map(|node| node.words()).collect(),
            lists,
            text,
        };
        Unsorted { tables, marks }
    }

    /// The tables of the case, by this crate's own sorting.
    pub fn finish(self) -> Tables {
        self.unsorted().sorted()
    }
}

impl ListWord {
    /// The word, and 1 where it names a string.
    fn marked(self) -> (u32, u8) {
        match self {
            ListWord::String(number) => (number, 1),
            ListWord::Number(number) => (number, 0),
        }
    }
}
