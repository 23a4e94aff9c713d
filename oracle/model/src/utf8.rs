//! UTF-8 as RFC 3629 gives it, byte by byte.

/// Whether the bytes are well-formed; `surrogates` lets U+D800 to U+DFFF pass.
pub fn well_formed(bytes: &[u8], surrogates: bool) -> bool {
    let mut rest = bytes;
    while !rest.is_empty() {
        match character(rest, surrogates) {
            Some(length) => rest = &rest[length..],
            None => return false,
        }
    }
    true
}

/// The length of the character at the start, if it is well-formed.
fn character(bytes: &[u8], surrogates: bool) -> Option<usize> {
    let within = |k: usize, low: u8, high: u8| bytes.get(k).is_some_and(|b| (low..=high).contains(b));
    let tail = |from: usize, to: usize| (from..to).all(|k| within(k, 0x80, 0xBF));
    let second = |low: u8, high: u8, length: usize| (within(1, low, high) && tail(2, length)).then_some(length);
    match bytes[0] {
        0x00..=0x7F => Some(1),
        0xC2..=0xDF => second(0x80, 0xBF, 2),
        0xE0 => second(0xA0, 0xBF, 3),
        0xED if !surrogates => second(0x80, 0x9F, 3),
        0xE1..=0xEF => second(0x80, 0xBF, 3),
        0xF0 => second(0x90, 0xBF, 4),
        0xF1..=0xF3 => second(0x80, 0xBF, 4),
        0xF4 => second(0x80, 0x8F, 4),
        _ => None,
    }
}
