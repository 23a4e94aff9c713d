//! Equality of bindings and values; decimals by scaled number where both read.

use crate::file::File;
use crate::variant::Variant;
use crate::walk::Binding;

/// The decimal's number of ten-thousandths: optional minus, digits, point, 1 to 4 digits, fits 64 bits.
pub fn decimal(text: &[u8]) -> Option<i64> {
    scaled(text, 4)
}

fn scaled(text: &[u8], most_digits: usize) -> Option<i64> {
    let (negative, unsigned) = match text.strip_prefix(b"-") {
        Some(rest) => (true, rest),
        None => (false, text),
    };
    let point = unsigned.iter().position(|&b| b == b'.')?;
    let (whole, fraction) = (&unsigned[..point], &unsigned[point + 1..]);
    if whole.is_empty() || fraction.is_empty() || fraction.len() > most_digits {
        return None;
    }
    let mut digits = [whole, fraction].concat();
    digits.resize(whole.len() + most_digits, b'0');
    let mut number: i128 = 0;
    for digit in digits {
        if !digit.is_ascii_digit() {
            return None;
        }
        // Past 64 bits the number can only grow, so it may stop growing here.
        number = (number * 10 + (digit - b'0') as i128).min(1 << 100);
    }
    i64::try_from(if negative { -number } else { number }).ok()
}

/// Whether two bindings are equal.
pub fn bindings_equal(file: File, variant: Variant, a: Binding, b: Binding) -> bool {
    match (a, b) {
        (Binding::Int(a), Binding::Int(b)) => a == b,
        (Binding::Value(a), Binding::Value(b)) => values_equal(file, variant, a, b),
        (Binding::Part(a), Binding::Part(b)) => a == b,
        (Binding::Value(value), Binding::Part(part)) | (Binding::Part(part), Binding::Value(value)) => {
            variant != Variant::PartIsNoString && file.value(value) == [4, part, 0, 0]
        }
        (Binding::Int(_), _) | (_, Binding::Int(_)) => false,
    }
}

/// Whether two values of the table are equal: arrays and objects by parts.
pub fn values_equal(file: File, variant: Variant, a: u32, b: u32) -> bool {
    let (left, right) = (file.value(a), file.value(b));
    if left[0] != right[0] {
        return false;
    }
    match left[0] {
        3 => decimals_equal(variant, file.string(left[1]), file.string(right[1])),
        6 | 7 => {
            let (items, others) = (file.members(left[1], left[2]), file.members(right[1], right[2]));
            items.len() == others.len()
                && items.iter().zip(&others).all(|([name, item], [other_name, other])| {
                    name == other_name && values_equal(file, variant, *item, *other)
                })
        }
        _ => left == right,
    }
}

fn decimals_equal(variant: Variant, a: &[u8], b: &[u8]) -> bool {
    let read = |text: &[u8]| match variant {
        Variant::DecimalByText => None,
        // Scaled by a hundred thousand, so that five digits are whole.
        Variant::DecimalFiveDigits => scaled(text, 5),
        _ => decimal(text),
    };
    match (read(a), read(b)) {
        (Some(a), Some(b)) => a == b,
        _ => a == b,
    }
}
