//! Logs for request #112: random events, spelled in many ways, with faults whose place is known, and damaged.

mod damage;
mod events;
mod faults;
mod spelling;

pub use damage::{damaged_line, random_line};
pub use events::{canonical, is_ambiguous, random_event, sorted, Manner};
pub use faults::{faulty_line, Foretold};
pub use spelling::spelled_line;

/// Bytes with a mark before one of them, and before the first of two equal names.
pub struct Marked {
    pub bytes: Vec<u8>,
    pub place: Option<usize>,
    pub first: Option<usize>,
}

/// What a text with marks says: `@` before the byte that a refusal names, `~` before the first of
/// two equal names, `<HH>` for a byte.
pub fn marked(text: &[u8]) -> Result<Marked, String> {
    let mut marked = Marked { bytes: Vec::new(), place: None, first: None };
    let mut at = 0;
    while at < text.len() {
        match text[at] {
            b'@' => marked.place = Some(marked.bytes.len()),
            b'~' => marked.first = Some(marked.bytes.len()),
            b'<' => {
                let digits = text.get(at + 1..at + 3).and_then(|digits| std::str::from_utf8(digits).ok());
                let byte = digits.and_then(|digits| u8::from_str_radix(digits, 16).ok());
                marked.bytes.push(byte.ok_or("`<` without a byte")?);
                at += 3;
            }
            byte => marked.bytes.push(byte),
        }
        at += 1;
    }
    Ok(marked)
}
