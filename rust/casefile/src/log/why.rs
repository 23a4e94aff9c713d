//! What a fault in a line of a log is about, in words. The import alone says whether and where a line is refused; this
//! looks at the bytes there and explains it.

use super::Place;
use crate::near::near_or_all;

const FIELDS: [&str; 9] =
    ["time", "namespace", "action", "kind", "logged", "context", "principal", "resource", "entities"];
/// Fields that an event may lack.
const OPTIONAL: [&str; 2] = ["principal", "resource"];
/// No more of a number is shown.
const MOST_SHOWN: usize = 40;

/// Where a reader of a line stands: inside these, the outermost first.
enum Inside {
    /// The names read so far; whether the value of the last is due or was read.
    Object { names: Vec<String>, valued: bool },
    /// How many items were begun.
    Array { items: usize },
}

/// Why a refusal from 20 to 24 is given at a place of a log.
pub fn why(number: u8, log: &[u8], place: Place) -> String {
    let (line, at) = (place.line_in(log), place.in_line());
    match number {
        20 => not_json(log, line, at),
        21 => format!("the name {} stands twice in one object: leave one out", string_at(line, at)),
        22 => format!(
            "{} is no integer within 64 bits; a decimal is written {{\"__extn\":{{\"fn\":\"decimal\",\"arg\":\"1.50\"}}}}",
            number_at(line, at)
        ),
        23 => bad_field(line, at),
        _ => "values nest to at most 32 levels: logged, context, principal and resource are at level 1".to_string(),
    }
}

fn not_json(log: &[u8], line: &[u8], at: usize) -> String {
    let rest = &line[at..];
    let blank = |bytes: &[u8]| bytes.iter().all(|byte| b" \t\r".contains(byte));
    if log.starts_with(&[0xef, 0xbb, 0xbf]) && rest.len() == log.len().min(line.len()) && at == 0 {
        return "a byte order mark: save the log as UTF-8 without one".to_string();
    }
    if log.starts_with(&[0xff, 0xfe]) || log.starts_with(&[0xfe, 0xff]) {
        return "this is UTF-16: save the log as UTF-8".to_string();
    }
    let Some(&byte) = rest.first() else {
        return if blank(line) {
            "a blank line: each line is an event, so take it out".to_string()
        } else {
            "the line ends here, before its event does: an event stands on one line".to_string()
        };
    };
    match byte {
        b'\\' => escape(rest),
        0x80.. => {
            format!("byte {byte:#04x} is no UTF-8 here, perhaps it is Latin-1: save the log as UTF-8 (iconv -t UTF-8)")
        }
        0..=31 if inside_string(line, at) => format!("a control character stands in a string: write it \\u{byte:04x}"),
        0..=31 => format!("the control character {byte:#04x} cannot stand here"),
        b'\'' => "a single quotation mark cannot stand here: JSON has \"..\"".to_string(),
        b'N' | b'I' | b'-' if !inside_string(line, at) && !blank(rest) && byte != b'-' => {
            "JSON has no NaN and no Infinity".to_string()
        }
        b'#' | b'/' => "JSON has no comments".to_string(),
        b'0'..=b'9' if at > 0 && line[at - 1] == b'0' => "a number has no 0 before its digits".to_string(),
        b'}' | b']' if before(line, at) == Some(b',') => {
            format!("a `{}` cannot follow a comma: take the comma out", byte as char)
        }
        _ if before(line, at) == Some(b'}') && outside(line, at) => {
            "something follows the event: one event stands on a line".to_string()
        }
        _ => format!("`{}` cannot stand here: this is no JSON", shown(byte)),
    }
}

fn shown(byte: u8) -> String {
    (byte as char).to_string()
}

/// At a backslash.
fn escape(rest: &[u8]) -> String {
    let half = |digits: &[u8]| {
        digits.len() == 4
            && matches!(digits[0], b'd' | b'D')
            && matches!(digits[1], b'8' | b'9' | b'a'..=b'f' | b'A'..=b'F')
    };
    if rest.get(1) == Some(&b'u') && rest.get(2..6).is_some_and(half) {
        return "half of a surrogate pair stands alone: a character above U+FFFF is written as two, \\uD83D\\uDE00"
            .to_string();
    }
    "a backslash cannot stand here".to_string()
}

/// The byte before a place, blanks passed over.
fn before(line: &[u8], at: usize) -> Option<u8> {
    line[..at].iter().rev().copied().find(|byte| !b" \t\r".contains(byte))
}

fn inside_string(line: &[u8], at: usize) -> bool {
    scan(line, at).1
}

fn outside(line: &[u8], at: usize) -> bool {
    scan(line, at).0.is_empty()
}

/// What a reader of the line is inside at a place, and whether that is a string. What stands before a fault is JSON.
fn scan(line: &[u8], to: usize) -> (Vec<Inside>, bool) {
    let mut inside: Vec<Inside> = Vec::new();
    let mut at = 0;
    while at < to {
        match line[at] {
            b'{' => {
                begun(&mut inside);
                inside.push(Inside::Object { names: Vec::new(), valued: true });
            }
            b'[' => {
                begun(&mut inside);
                inside.push(Inside::Array { items: 0 });
            }
            b'}' | b']' => drop(inside.pop()),
            b'"' => {
                let end = string_end(line, at);
                if end > to {
                    return (inside, true);
                }
                match inside.last_mut() {
                    Some(Inside::Object { names, valued }) if *valued => {
                        names.push(unquoted(&line[at..end]));
                        *valued = false;
                    }
                    _ => begun(&mut inside),
                }
                at = end;
                continue;
            }
            b'-' | b'0'..=b'9' | b'a'..=b'z' => {
                begun(&mut inside);
                let word = |byte: &u8| matches!(byte, b'-' | b'+' | b'.' | b'E' | b'0'..=b'9' | b'a'..=b'z');
                at += line[at..].iter().take_while(|byte| word(byte)).count();
                continue;
            }
            _ => {}
        }
        at += 1;
    }
    (inside, false)
}

/// A value begins.
fn begun(inside: &mut [Inside]) {
    match inside.last_mut() {
        Some(Inside::Object { valued, .. }) => *valued = true,
        Some(Inside::Array { items }) => *items += 1,
        None => {}
    }
}

/// Where a string ends that begins at a quotation mark; beyond the line where it does not end in it.
fn string_end(line: &[u8], from: usize) -> usize {
    let mut at = from + 1;
    while at < line.len() {
        match line[at] {
            b'\\' => at += 2,
            b'"' => return at + 1,
            _ => at += 1,
        }
    }
    line.len() + 1
}

/// The text of a string without escapes; one with escapes as it is spelt.
fn unquoted(string: &[u8]) -> String {
    String::from_utf8_lossy(&string[1..string.len() - 1]).into_owned()
}

fn string_at(line: &[u8], at: usize) -> String {
    String::from_utf8_lossy(&line[at..string_end(line, at).min(line.len())]).into_owned()
}

fn number_at(line: &[u8], at: usize) -> String {
    let number = |byte: &&u8| matches!(byte, b'-' | b'+' | b'.' | b'e' | b'E' | b'0'..=b'9');
    let digits: String = line[at..].iter().take_while(number).map(|&byte| byte as char).collect();
    if digits.len() > MOST_SHOWN {
        format!("{}..", &digits[..MOST_SHOWN])
    } else {
        digits
    }
}

/// What a first byte begins.
fn sort(byte: u8) -> &'static str {
    match byte {
        b'{' => "an object",
        b'[' => "an array",
        b'"' => "a string",
        b't' | b'f' => "true or false",
        b'n' => "null",
        _ => "a number",
    }
}

fn bad_field(line: &[u8], at: usize) -> String {
    let (inside, _) = scan(line, at);
    let byte = line.get(at).copied().unwrap_or(b' ');
    let depth = inside.len();
    match (inside.last(), byte) {
        (None, _) => format!("an event is an object, and this is {}", sort(byte)),
        (Some(Inside::Object { names, .. }), b'}') if depth == 1 => missing(names),
        (Some(Inside::Object { valued: true, .. }), b'"') if depth == 1 => {
            let name = string_at(line, at);
            format!("an event has no field {name}{}", near_or_all(name.trim_matches('"'), FIELDS))
        }
        (Some(Inside::Object { names, valued: false }), _) if depth == 1 => {
            let name = names.last().map_or("", String::as_str);
            if byte == b'{' && ["logged", "context"].contains(&name) {
                return format!("{name} has fields, and an object with this one member is one of Cedar's forms");
            }
            format!("{name} is {}, and this is {}", due(name), sort(byte))
        }
        _ => in_field(&inside, line, at, byte),
    }
}

/// What a field has to be.
fn due(name: &str) -> &'static str {
    match name {
        "time" => "an integer, the seconds",
        "namespace" => "an array of strings",
        "entities" => "an array of [type, id, {attributes}]",
        "logged" | "context" => "an object",
        _ => "a string",
    }
}

fn missing(names: &[String]) -> String {
    let required = FIELDS.iter().filter(|field| !OPTIONAL.contains(field));
    let missing: Vec<&str> = required.copied().filter(|field| !names.iter().any(|name| name == field)).collect();
    format!("the event has no {}", missing.join(", no "))
}

/// Inside a field: namespaces, entities, and Cedar's forms.
fn in_field(inside: &[Inside], line: &[u8], at: usize, byte: u8) -> String {
    let Some(Inside::Object { names, .. }) = inside.first() else { return "this is of the wrong sort".to_string() };
    let field = names.last().map_or("", String::as_str);
    match (field, inside.len(), inside.last()) {
        ("namespace", 2, _) => format!("a namespace holds strings, and this is {}", sort(byte)),
        ("entities", 2, _) => format!("an entity is [type, id, {{attributes}}], and this is {}", sort(byte)),
        ("entities", 3, Some(Inside::Array { items })) => match (byte, items) {
            (b']', _) => "an entity is [type, id, {attributes}]: an item is missing".to_string(),
            (b',', _) => "an entity is [type, id, {attributes}]: a fourth item stands here".to_string(),
            (b'{', 2) => "attributes are an object of their own, not one of Cedar's forms".to_string(),
            _ => format!("an entity is [type, id, {{attributes}}], and this is {}", sort(byte)),
        },
        _ => form(inside, line, at, byte),
    }
}

fn form(inside: &[Inside], line: &[u8], at: usize, byte: u8) -> String {
    let of = inside.iter().rev().take(2).find_map(|inside| match inside {
        Inside::Object { names, .. } => names.iter().find(|name| ["__entity", "__extn"].contains(&name.as_str())),
        Inside::Array { .. } => None,
    });
    let written = match of.map(String::as_str) {
        Some("__entity") => "{\"__entity\":{\"type\":\"..\",\"id\":\"..\"}}",
        Some(_) => "{\"__extn\":{\"fn\":\"decimal\",\"arg\":\"..\"}}",
        None => return format!("this is {}, which cannot stand here", sort(byte)),
    };
    let what = match byte {
        b'}' => "a part of this form is missing".to_string(),
        b'"' => format!("{} does not belong here", string_at(line, at)),
        _ => format!("{} cannot stand here", sort(byte)),
    };
    format!("{what}: an object with this one member is written {written}")
}
