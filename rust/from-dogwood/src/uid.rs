//! Dogwood's keys of entities, `Type::"id"` with the id escaped.

/// Type and id of a key. None where no lookup can ever find it: it is not written as Dogwood writes
/// the key of a type without a quotation mark.
pub fn parts(key: &str) -> Option<(&str, String)> {
    let (ty, rest) = key.split_once("::\"")?;
    let escaped = rest.strip_suffix('"')?;
    let id = unescaped(escaped)?;
    let canonical = !ty.contains('"') && id.escape_debug().to_string() == escaped;
    canonical.then_some((ty, id))
}

/// What `str::escape_debug` made this of.
fn unescaped(text: &str) -> Option<String> {
    let mut plain = String::new();
    let mut rest = text.chars();
    while let Some(c) = rest.next() {
        plain.push(if c == '\\' { escaped(&mut rest)? } else { c });
    }
    Some(plain)
}

/// The character that is written after a backslash.
fn escaped(rest: &mut std::str::Chars) -> Option<char> {
    Some(match rest.next()? {
        't' => '\t',
        'r' => '\r',
        'n' => '\n',
        '0' => '\0',
        'u' => {
            let (digits, after) = rest.as_str().strip_prefix('{')?.split_once('}')?;
            *rest = after.chars();
            char::from_u32(u32::from_str_radix(digits, 16).ok()?)?
        }
        same => same,
    })
}

#[cfg(test)]
mod tests {
    use super::parts;

    #[test]
    fn keys_are_read_as_dogwood_writes_them() {
        for id in ["ann", "", "a\"b", "a\\b", "it's", "\u{1}\n\t\r\0", "é", "a::\"b", "\u{301}", "\\u{e9}"] {
            let key = dogwood::interpreter::value::uid("Motor::User", id);
            assert_eq!(parts(&key), Some(("Motor::User", id.to_string())), "{key}");
        }
    }

    #[test]
    fn what_no_lookup_finds_is_left_out() {
        for key in ["ann", "User::ann", "User::\"ann", "User::\"a\"b\"", "User::\"\n\"", "User::\"\\q\"", "U\"::\"a\""]
        {
            assert_eq!(parts(key), None, "{key}");
        }
        assert_eq!(parts("User::\"\\u{6e}\""), None);
        assert_eq!(parts("User::\"\\u{110000}\""), None);
    }
}
