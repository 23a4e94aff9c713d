//! The reader: from left to right, to the first fault (J1 to J15).

use std::collections::HashMap;

use super::{Event, Json, Members, Refused};
use crate::variant::Variant;
use crate::MOST_DEPTH;

/// Every line of a text.
pub fn events(variant: Variant, text: &[u8]) -> Result<Vec<Event>, Refused> {
    let mut events = Vec::new();
    let mut at = if variant == Variant::JsonMarkSkipped && text.starts_with(b"\xEF\xBB\xBF") { 3 } else { 0 };
    while at < text.len() {
        let end = text[at..].iter().position(|&byte| byte == b'\n').map_or(text.len(), |length| at + length);
        let blank = text[at..end].iter().all(|&byte| is_blank(byte));
        if !(blank && variant == Variant::JsonBlankLineSkipped) {
            let shift = usize::from(variant == Variant::JsonPlaceOffByOne);
            let line = Reader { text, at, end, variant }.line();
            events.push(line.map_err(|refused| Refused { place: refused.place + shift, ..refused })?);
        }
        at = end + 1;
    }
    Ok(events)
}

/// What the first byte of a value tells.
#[derive(Clone, Copy, PartialEq, Eq)]
enum Sort {
    Null,
    Bool,
    Number,
    String,
    Array,
    Object,
}

#[derive(Clone, Copy, PartialEq, Eq)]
enum Form {
    Entity,
    Extension,
}

const FIELDS: [&str; 9] =
    ["time", "namespace", "action", "kind", "logged", "context", "principal", "resource", "entities"];

fn is_blank(byte: u8) -> bool {
    matches!(byte, b' ' | b'\t' | b'\r')
}

/// One line, read up to `at`.
#[derive(Clone)]
struct Reader<'a> {
    text: &'a [u8],
    at: usize,
    /// Where the line ends.
    end: usize,
    variant: Variant,
}

type Read<T> = Result<T, Refused>;

fn refused<T>(refusal: u32, place: usize) -> Read<T> {
    Err(Refused { refusal, place, first: None })
}

impl Reader<'_> {
    fn is(&self, variant: Variant) -> bool {
        self.variant == variant
    }

    fn peek(&self) -> Option<u8> {
        (self.at < self.end).then(|| self.text[self.at])
    }

    fn next_is(&self, byte: u8) -> bool {
        self.peek() == Some(byte)
    }

    /// No JSON: the byte here cannot stand, or the line ends here.
    fn not_json<T>(&self) -> Read<T> {
        refused(20, self.at)
    }

    fn blanks(&mut self) {
        while self.peek().is_some_and(is_blank) {
            self.at += 1;
        }
    }

    /// Blanks and then this byte.
    fn due(&mut self, byte: u8) -> Read<()> {
        self.blanks();
        if !self.next_is(byte) {
            return self.not_json();
        }
        self.at += 1;
        Ok(())
    }

    /// The sort of the value that begins after the blanks.
    fn sort(&mut self) -> Read<Sort> {
        self.blanks();
        Ok(match self.peek() {
            Some(b'n') => Sort::Null,
            Some(b't' | b'f') => Sort::Bool,
            Some(b'-' | b'0'..=b'9') => Sort::Number,
            Some(b'"') => Sort::String,
            Some(b'[') => Sort::Array,
            Some(b'{') => Sort::Object,
            _ => return self.not_json(),
        })
    }

    /// A value of this sort begins after the blanks.
    fn want(&mut self, sort: Sort) -> Read<()> {
        if self.sort()? != sort {
            return refused(23, self.at);
        }
        Ok(())
    }

    fn line(&mut self) -> Read<Event> {
        self.want(Sort::Object)?;
        let event = self.event()?;
        self.blanks();
        if self.at < self.end {
            return self.not_json();
        }
        Ok(event)
    }

    fn event(&mut self) -> Read<Event> {
        let mut event = Event::default();
        let mut met = Vec::new();
        let known: &[&str] = if self.is(Variant::JsonUnknownSkipped) { &[] } else { &FIELDS };
        let close = self.members(known, |reader, name| {
            met.push(String::from_utf8_lossy(name).into_owned());
            reader.field(name, &mut event)
        })?;
        let optional = |field: &str| {
            field == "principal"
                || field == "resource"
                || (field == "entities" && self.is(Variant::JsonEntitiesOptional))
        };
        let missing = FIELDS.iter().any(|field| !optional(field) && !met.iter().any(|name| name == field));
        if missing {
            return refused(23, close);
        }
        Ok(event)
    }

    fn field(&mut self, name: &[u8], event: &mut Event) -> Read<()> {
        match name {
            b"time" => {
                self.want(Sort::Number)?;
                event.time = self.number()?;
            }
            b"namespace" => {
                self.want(Sort::Array)?;
                self.items(|reader| {
                    event.namespace.push(reader.text_due()?);
                    Ok(())
                })?;
            }
            b"action" => event.action = self.text_due()?,
            b"kind" => event.kind = self.text_due()?,
            b"logged" => event.logged = self.object_due()?,
            b"context" => event.context = self.object_due()?,
            b"principal" => event.principal = self.optional()?,
            b"resource" => event.resource = self.optional()?,
            b"entities" => {
                self.want(Sort::Array)?;
                self.items(|reader| {
                    event.entities.push(reader.entity()?);
                    Ok(())
                })?;
            }
            _ => {
                self.value(1)?;
            }
        }
        Ok(())
    }

    fn optional(&mut self) -> Read<Option<Json>> {
        let value = self.value(1)?;
        Ok((value != Json::Null || !self.is(Variant::JsonNullIsNone)).then_some(value))
    }

    fn text_due(&mut self) -> Read<Vec<u8>> {
        self.want(Sort::String)?;
        self.string()
    }

    /// Logged, context or attributes: an object at level 1 that is no Cedar form.
    fn object_due(&mut self) -> Read<Members> {
        self.want(Sort::Object)?;
        if self.form().is_some() && !self.is(Variant::JsonFormIsRecord) {
            return refused(23, self.at);
        }
        self.object(1)
    }

    /// Type, id and attributes in brackets.
    fn entity(&mut self) -> Read<(Vec<u8>, Vec<u8>, Members)> {
        self.want(Sort::Array)?;
        self.at += 1;
        self.blanks();
        if self.next_is(b']') {
            return refused(23, self.at);
        }
        let ty = self.text_due()?;
        self.item_follows()?;
        let id = self.text_due()?;
        self.item_follows()?;
        let attributes = self.object_due()?;
        self.blanks();
        if self.next_is(b',') {
            let later = usize::from(self.is(Variant::JsonFourthAtItem));
            return refused(23, self.at + later);
        }
        self.due(b']')?;
        Ok((ty, id, attributes))
    }

    /// A comma: another item of an entity is to come.
    fn item_follows(&mut self) -> Read<()> {
        self.blanks();
        if self.next_is(b']') {
            return refused(23, self.at);
        }
        self.due(b',')
    }

    /// The items of an array, from its bracket on.
    fn items(&mut self, mut item: impl FnMut(&mut Self) -> Read<()>) -> Read<()> {
        self.at += 1;
        self.blanks();
        if self.next_is(b']') {
            self.at += 1;
            return Ok(());
        }
        loop {
            item(self)?;
            self.blanks();
            match self.peek() {
                Some(b',') => self.at += 1,
                Some(b']') => break,
                _ => return self.not_json(),
            }
        }
        self.at += 1;
        Ok(())
    }

    /// The members of an object, from its brace on; gives where it closes. No `known` names: any is.
    fn members(&mut self, known: &[&str], mut member: impl FnMut(&mut Self, &[u8]) -> Read<()>) -> Read<usize> {
        let mut names = HashMap::new();
        self.at += 1;
        self.blanks();
        if self.next_is(b'}') {
            self.at += 1;
            return Ok(self.at - 1);
        }
        loop {
            self.blanks();
            let place = self.at;
            let name = self.string()?;
            let compared =
                if self.is(Variant::JsonNamesRaw) { self.text[place + 1..self.at - 1].to_vec() } else { name.clone() };
            let first = *names.entry(compared).or_insert(place);
            let again = Refused { refusal: 21, place, first: Some(first) };
            let late = self.is(Variant::JsonRepeatedLate);
            let repeated = first != place && !self.is(Variant::JsonSecondDropped);
            if repeated && !late {
                return Err(again);
            }
            if !known.is_empty() && !known.iter().any(|known| known.as_bytes() == name) {
                return refused(23, place);
            }
            self.due(b':')?;
            member(self, &name)?;
            if repeated {
                return Err(again);
            }
            self.blanks();
            match self.peek() {
                Some(b',') => self.at += 1,
                Some(b'}') => break,
                _ => return self.not_json(),
            }
        }
        self.at += 1;
        Ok(self.at - 1)
    }

    fn value(&mut self, level: u32) -> Read<Json> {
        let sort = self.sort()?;
        if level > MOST_DEPTH + u32::from(self.is(Variant::JsonDepth33)) {
            return refused(24, self.at);
        }
        Ok(match sort {
            Sort::Null => {
                self.word("null")?;
                Json::Null
            }
            Sort::Bool => {
                let yes = self.next_is(b't');
                self.word(if yes { "true" } else { "false" })?;
                Json::Bool(yes)
            }
            Sort::Number => Json::Int(self.number()?),
            Sort::String => Json::String(self.string()?),
            Sort::Array => {
                let mut items = Vec::new();
                self.items(|reader| {
                    items.push(reader.value(level + 1)?);
                    Ok(())
                })?;
                Json::Array(items)
            }
            Sort::Object => match self.form() {
                Some(_) if self.is(Variant::JsonFormTwoLevels) && level == MOST_DEPTH => return refused(24, self.at),
                Some(form) => self.cedar(form)?,
                None => Json::Object(self.object(level)?),
            },
        })
    }

    fn object(&mut self, level: u32) -> Read<Members> {
        let mut members: Members = Vec::new();
        self.members(&[], |reader, name| {
            let value = reader.value(level + 1)?;
            let dropped = reader.is(Variant::JsonSecondDropped) && members.iter().any(|(other, _)| other == name);
            if !dropped {
                members.push((name.to_vec(), value));
            }
            Ok(())
        })?;
        Ok(members)
    }

    /// Whether the brace here opens a Cedar form: told by looking ahead (J15).
    fn form(&self) -> Option<Form> {
        let mut ahead = self.clone();
        ahead.at += 1;
        ahead.blanks();
        let place = ahead.at;
        let mut name = ahead.string().ok()?;
        if self.is(Variant::JsonFormRawName) {
            name = self.text[place + 1..ahead.at - 1].to_vec();
        }
        let form = match &name[..] {
            b"__entity" => Form::Entity,
            b"__extn" => Form::Extension,
            _ => return None,
        };
        ahead.due(b':').ok()?;
        let only = ahead.stop() == Some(b'}');
        (only || (self.is(Variant::JsonFormWithSecond) && form == Form::Entity)).then_some(form)
    }

    /// The first comma or closing bracket outside all strings and brackets.
    fn stop(&mut self) -> Option<u8> {
        let mut open = 0;
        while let Some(byte) = self.peek() {
            self.at += 1;
            match byte {
                b'"' => self.pass_string(),
                b'{' | b'[' => open += 1,
                b',' | b'}' | b']' if open == 0 => return Some(byte),
                b'}' | b']' => open -= 1,
                _ => {}
            }
        }
        None
    }

    /// To behind the closing quotation mark; a backslash hides the byte after it.
    fn pass_string(&mut self) {
        while let Some(byte) = self.peek() {
            self.at += if byte == b'\\' && !self.is(Variant::JsonLookBlind) { 2 } else { 1 };
            if byte == b'"' {
                return;
            }
        }
    }

    /// A Cedar form, from its brace on.
    fn cedar(&mut self, form: Form) -> Read<Json> {
        self.at += 1;
        self.blanks();
        self.string()?;
        self.due(b':')?;
        self.want(Sort::Object)?;
        let names = if form == Form::Entity { ["type", "id"] } else { ["fn", "arg"] };
        let mut parts = [None, None];
        let close = self.members(&names, |reader, name| {
            reader.want(Sort::String)?;
            let place = reader.at;
            let part = reader.string()?;
            if name == b"fn" && part != b"decimal" && !reader.is(Variant::JsonAnyFunction) {
                return refused(23, place);
            }
            parts[usize::from(name == names[1].as_bytes())] = Some(part);
            Ok(())
        })?;
        if self.is(Variant::JsonFormWithSecond) {
            self.blanks();
            while self.next_is(b',') {
                self.at += 1;
                self.blanks();
                self.string()?;
                self.due(b':')?;
                self.value(2)?;
                self.blanks();
            }
        }
        let [Some(first), Some(second)] = parts else {
            return refused(23, close);
        };
        self.due(b'}')?;
        Ok(if form == Form::Entity { Json::Entity(first, second) } else { Json::Decimal(second) })
    }

    fn word(&mut self, word: &str) -> Read<()> {
        for &byte in word.as_bytes() {
            if !self.next_is(byte) {
                return self.not_json();
            }
            self.at += 1;
        }
        Ok(())
    }

    /// One digit or more.
    fn digits(&mut self) -> Read<()> {
        if !self.peek().is_some_and(|byte| byte.is_ascii_digit()) {
            return self.not_json();
        }
        while self.peek().is_some_and(|byte| byte.is_ascii_digit()) {
            self.at += 1;
        }
        Ok(())
    }

    fn number(&mut self) -> Read<i64> {
        let place = self.at;
        if self.next_is(b'-') {
            self.at += 1;
        }
        if self.next_is(b'0') && !self.is(Variant::JsonLeadingZero) {
            self.at += 1;
        } else {
            self.digits()?;
        }
        let whole = self.at;
        if self.next_is(b'.') {
            if self.is(Variant::JsonNumberEarly) {
                return refused(22, place);
            }
            self.at += 1;
            self.digits()?;
        }
        let fraction = self.at > whole;
        if let Some(b'e' | b'E') = self.peek() {
            self.at += 1;
            if let Some(b'+' | b'-') = self.peek() {
                self.at += 1;
            }
            self.digits()?;
            return refused(22, place);
        }
        if fraction && !self.is(Variant::JsonFractionCut) {
            return refused(22, place);
        }
        self.integer(place, whole)
    }

    /// The integer spelled from `place` to `whole`.
    fn integer(&self, place: usize, whole: usize) -> Read<i64> {
        let negative = self.text[place] == b'-';
        let mut number: i128 = 0;
        for &digit in &self.text[place + usize::from(negative)..whole] {
            let unit = i128::from(digit - b'0');
            number = 10 * number + if negative { -unit } else { unit };
            if self.is(Variant::JsonOverflowWraps) {
                number = i128::from(number as i64);
            }
            if number < i128::from(i64::MIN) || number > i128::from(i64::MAX) {
                return refused(22, place);
            }
        }
        if number == i128::from(i64::MIN) && self.is(Variant::JsonLeastRefused) {
            return refused(22, place);
        }
        Ok(number as i64)
    }

    /// A string, from its quotation mark to behind the other: the bytes that it stands for.
    fn string(&mut self) -> Read<Vec<u8>> {
        let mut bytes = Vec::new();
        if !self.next_is(b'"') {
            return self.not_json();
        }
        self.at += 1;
        loop {
            match self.peek() {
                Some(b'"') => break,
                Some(b'\\') => self.escape(&mut bytes)?,
                Some(0..=31) if !self.is(Variant::JsonControlTaken) => return self.not_json(),
                Some(first) => self.character(first, &mut bytes)?,
                None => return self.not_json(),
            }
        }
        self.at += 1;
        Ok(bytes)
    }

    /// A character of UTF-8 as RFC 3629 gives it.
    fn character(&mut self, first: u8, bytes: &mut Vec<u8>) -> Read<()> {
        let (length, second) = match first {
            0x00..=0x7F => (1, 0x80..=0xBF),
            0xC0..=0xC1 if self.is(Variant::JsonOverlong) => (2, 0x80..=0xBF),
            0xC2..=0xDF => (2, 0x80..=0xBF),
            0xE0 => (3, 0xA0..=0xBF),
            0xED => (3, 0x80..=0x9F),
            0xE1..=0xEF => (3, 0x80..=0xBF),
            0xF0 => (4, 0x90..=0xBF),
            0xF1..=0xF3 => (4, 0x80..=0xBF),
            0xF4 => (4, 0x80..=0x8F),
            _ => return self.not_json(),
        };
        let start = self.at;
        bytes.push(first);
        self.at += 1;
        for k in 1..length {
            let fits = if k == 1 { second.clone() } else { 0x80..=0xBF };
            match self.peek() {
                Some(byte) if fits.contains(&byte) => bytes.push(byte),
                _ if self.is(Variant::JsonUtf8AtStart) => return refused(20, start),
                _ => return self.not_json(),
            }
            self.at += 1;
        }
        Ok(())
    }

    fn escape(&mut self, bytes: &mut Vec<u8>) -> Read<()> {
        let backslash = self.at;
        self.at += 1;
        let stands_for = match self.peek() {
            Some(byte @ (b'"' | b'\\' | b'/')) => byte,
            Some(b'b') => 8,
            Some(b'f') => 12,
            Some(b'n') => 10,
            Some(b'r') => 13,
            Some(b't') => 9,
            Some(b'u') => {
                self.at += 1;
                let code = self.four_digits()?;
                return self.unit(backslash, code, bytes);
            }
            _ => return self.not_json(),
        };
        self.at += 1;
        bytes.push(stands_for);
        Ok(())
    }

    fn four_digits(&mut self) -> Read<u32> {
        let mut code = 0;
        for _ in 0..4 {
            let Some(digit) = self.peek().and_then(|byte| char::from(byte).to_digit(16)) else {
                return self.not_json();
            };
            code = 16 * code + digit;
            self.at += 1;
        }
        Ok(code)
    }

    /// What an escaped unit stands for, with its other half if it is a high one.
    fn unit(&mut self, backslash: usize, code: u32, bytes: &mut Vec<u8>) -> Read<()> {
        let low = if (0xD800..=0xDBFF).contains(&code) { self.low_half() } else { None };
        let scalar = low.map_or(code, |low| 0x10000 + ((code - 0xD800) << 10) + (low - 0xDC00));
        let Some(character) = char::from_u32(scalar) else {
            if self.is(Variant::JsonLoneSurrogate) {
                bytes.extend([0xED, 0x80 | (code >> 6 & 0x3F) as u8, 0x80 | (code & 0x3F) as u8]);
                return Ok(());
            }
            return refused(20, backslash);
        };
        bytes.extend(character.encode_utf8(&mut [0; 4]).bytes());
        Ok(())
    }

    /// An escaped low half, if one stands here.
    fn low_half(&mut self) -> Option<u32> {
        let mut ahead = self.clone();
        ahead.word("\\u").ok()?;
        let code = ahead.four_digits().ok()?;
        if !(0xDC00..=0xDFFF).contains(&code) {
            return None;
        }
        self.at = ahead.at;
        Some(code)
    }
}
