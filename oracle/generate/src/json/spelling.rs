//! An event spelled as a line: fields and members in any order, blanks, escapes; and where its parts stand.

use model::json::{Event, Json, Members};

use crate::random::Random;

/// What may be changed at a place, and with what effect.
pub(super) enum What {
    /// A value of any sort at this level.
    Any { level: u32 },
    /// A value that must begin with one of these bytes.
    Due { begins: &'static [u8] },
    /// Behind a value.
    After,
    /// An object: its names and where they stand; whether it takes other names.
    Object { names: Vec<(usize, Vec<u8>)>, open: bool },
    /// An item of the entity list.
    Entity,
}

pub(super) struct Site {
    pub what: What,
    pub start: usize,
    pub end: usize,
    /// Whether it stands inside a Cedar form.
    pub in_form: bool,
}

pub(super) struct Spelling<'a> {
    pub random: &'a mut Random,
    pub text: Vec<u8>,
    pub sites: Vec<Site>,
    in_form: bool,
    /// How often, in a hundred, something is spelled in an unusual way.
    unusual: usize,
}

/// A line that says what the event says, without its end.
pub fn spelled_line(random: &mut Random, event: &Event) -> Vec<u8> {
    let mut spelling = Spelling::new(random);
    spelling.event(event, None);
    spelling.text
}

const NUMBER: &[u8] = b"-0123456789";

impl<'a> Spelling<'a> {
    pub fn new(random: &'a mut Random) -> Spelling<'a> {
        let unusual = random.pick(&[0, 2, 10, 40]);
        Spelling { random, text: Vec::new(), sites: Vec::new(), in_form: false, unusual }
    }

    fn site(&mut self, what: What, start: usize) {
        let (end, in_form) = (self.text.len(), self.in_form);
        self.sites.push(Site { what, start, end, in_form });
    }

    fn blanks(&mut self) {
        while self.random.percent(self.unusual) {
            let blank = self.random.pick(b" \t\r");
            self.text.push(blank);
        }
    }

    fn put(&mut self, byte: u8) {
        self.blanks();
        self.text.push(byte);
    }

    fn shuffled(&mut self, count: usize) -> Vec<usize> {
        let mut order: Vec<usize> = (0..count).collect();
        if self.random.percent(70) {
            for k in (1..count).rev() {
                order.swap(k, self.random.below(k + 1));
            }
        }
        order
    }

    /// The fields but one that is left out.
    pub fn event(&mut self, event: &Event, left_out: Option<&str>) {
        self.blanks();
        let fields = ["time", "namespace", "action", "kind", "logged", "context", "principal", "resource", "entities"];
        let there = |field: &&str| match *field {
            "principal" => event.principal.is_some(),
            "resource" => event.resource.is_some(),
            field => Some(field) != left_out,
        };
        let fields: Vec<&str> = fields.into_iter().filter(there).collect();
        let order = self.shuffled(fields.len());
        let names: Vec<&[u8]> = order.iter().map(|&k| fields[k].as_bytes()).collect();
        self.object_of(&names, false, |spelling, k| spelling.field(event, fields[order[k]]));
        self.blanks();
    }

    fn field(&mut self, event: &Event, field: &str) {
        match field {
            "time" => {
                let start = self.begin();
                self.number(event.time);
                self.site(What::Due { begins: NUMBER }, start);
            }
            "namespace" => {
                let start = self.begin();
                self.items(event.namespace.len(), |spelling, k| spelling.text_due(&event.namespace[k]));
                self.site(What::Due { begins: b"[" }, start);
            }
            "action" => self.text_due(&event.action),
            "kind" => self.text_due(&event.kind),
            "logged" => self.record(&event.logged),
            "context" => self.record(&event.context),
            "principal" => self.value(event.principal.as_ref().expect("it is there"), 1),
            "resource" => self.value(event.resource.as_ref().expect("it is there"), 1),
            _ => {
                let start = self.begin();
                self.items(event.entities.len(), |spelling, k| spelling.entity(&event.entities[k]));
                self.site(What::Due { begins: b"[" }, start);
            }
        }
        let start = self.text.len();
        self.site(What::After, start);
    }

    fn begin(&mut self) -> usize {
        self.blanks();
        self.text.len()
    }

    fn entity(&mut self, (ty, id, attributes): &(Vec<u8>, Vec<u8>, Members)) {
        let start = self.begin();
        self.items(3, |spelling, k| match k {
            0 => spelling.text_due(ty),
            1 => spelling.text_due(id),
            _ => spelling.record(attributes),
        });
        self.site(What::Entity, start);
        self.site(What::Due { begins: b"[" }, start);
    }

    fn text_due(&mut self, text: &[u8]) {
        let start = self.begin();
        self.string(text);
        self.site(What::Due { begins: b"\"" }, start);
    }

    fn record(&mut self, members: &Members) {
        let start = self.begin();
        self.object(members, 1);
        self.site(What::Due { begins: b"{" }, start);
    }

    fn items(&mut self, count: usize, mut item: impl FnMut(&mut Self, usize)) {
        self.put(b'[');
        for k in 0..count {
            if k > 0 {
                self.put(b',');
            }
            item(self, k);
        }
        self.put(b']');
    }

    fn object_of(&mut self, names: &[&[u8]], open: bool, mut member: impl FnMut(&mut Self, usize)) {
        self.put(b'{');
        let start = self.text.len() - 1;
        let mut places = Vec::new();
        for (k, name) in names.iter().enumerate() {
            if k > 0 {
                self.put(b',');
            }
            places.push((self.begin(), name.to_vec()));
            self.string(name);
            self.put(b':');
            member(self, k);
        }
        self.put(b'}');
        self.site(What::Object { names: places, open }, start);
    }

    fn object(&mut self, members: &Members, level: u32) {
        let order = self.shuffled(members.len());
        let names: Vec<&[u8]> = order.iter().map(|&k| &members[k].0[..]).collect();
        self.object_of(&names, true, |spelling, k| spelling.value(&members[order[k]].1, level + 1));
    }

    fn value(&mut self, value: &Json, level: u32) {
        let start = self.begin();
        match value {
            Json::Null => self.text.extend(b"null"),
            Json::Bool(yes) => self.text.extend(yes.to_string().bytes()),
            Json::Int(number) => self.number(*number),
            Json::Decimal(text) => self.form("__extn", ["fn", "arg"], [b"decimal", text]),
            Json::String(text) => self.string(text),
            Json::Entity(ty, id) => self.form("__entity", ["type", "id"], [ty, id]),
            Json::Array(items) => self.items(items.len(), |spelling, k| spelling.value(&items[k], level + 1)),
            Json::Object(members) => self.object(members, level),
        }
        self.site(What::Any { level }, start);
        let end = self.text.len();
        self.site(What::After, end);
    }

    fn form(&mut self, form: &str, names: [&str; 2], parts: [&[u8]; 2]) {
        self.in_form = true;
        self.put(b'{');
        self.blanks();
        self.string(form.as_bytes());
        self.put(b':');
        let order = self.shuffled(2);
        let spelled: Vec<&[u8]> = order.iter().map(|&k| names[k].as_bytes()).collect();
        self.object_of(&spelled, false, |spelling, k| spelling.text_due(parts[order[k]]));
        self.put(b'}');
        self.in_form = false;
    }

    fn number(&mut self, number: i64) {
        let minus = number == 0 && self.random.percent(self.unusual);
        self.text.extend(if minus { "-0".to_string() } else { number.to_string() }.bytes());
    }

    pub fn string(&mut self, text: &[u8]) {
        self.text.push(b'"');
        let text = std::str::from_utf8(text).expect("events are made of characters");
        for character in text.chars() {
            let must = matches!(character, '"' | '\\' | '\0'..='\u{1f}');
            if must || self.random.percent(self.unusual) {
                self.escaped(character);
            } else {
                self.text.extend(character.encode_utf8(&mut [0; 4]).bytes());
            }
        }
        self.text.push(b'"');
    }

    fn escaped(&mut self, character: char) {
        let short = match character {
            '"' => "\\\"",
            '\\' => "\\\\",
            '/' => "\\/",
            '\u{8}' => "\\b",
            '\u{c}' => "\\f",
            '\n' => "\\n",
            '\r' => "\\r",
            '\t' => "\\t",
            _ => "",
        };
        if !short.is_empty() && self.random.percent(50) {
            self.text.extend(short.bytes());
            return;
        }
        for unit in character.encode_utf16(&mut [0; 2]) {
            let upper = self.random.percent(50);
            let escape = if upper { format!("\\u{unit:04X}") } else { format!("\\u{unit:04x}") };
            self.text.extend(escape.bytes());
        }
    }
}
