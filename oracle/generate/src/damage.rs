//! Damaged copies of a case.

use crate::random::Random;

/// A copy with one or two small wounds, most of them inside the tables.
pub fn damaged(random: &mut Random, case: &[u8]) -> Vec<u8> {
    let mut copy = case.to_vec();
    for _ in 0..random.between(1, 2) {
        wound(random, &mut copy);
    }
    copy
}

fn wound(random: &mut Random, copy: &mut Vec<u8>) {
    let words = copy.len() / 4;
    let at = if words > 16 && random.percent(90) { random.between(16, words - 1) } else { random.below(words.max(1)) };
    let place = (4 * at).min(copy.len());
    match random.below(12) {
        0 => copy.truncate(random.below(copy.len() + 1)),
        1 => copy.insert(random.below(copy.len() + 1), 0),
        2 if !copy.is_empty() => {
            let bit = random.below(8 * copy.len());
            copy[bit / 8] ^= 1 << (bit % 8);
        }
        3 if words > 1 => {
            let other = 4 * random.below(words);
            for k in 0..4 {
                copy.swap(place + k, other + k);
            }
        }
        _ if place + 4 <= copy.len() => {
            let old = u32::from_le_bytes([copy[place], copy[place + 1], copy[place + 2], copy[place + 3]]);
            let word = match random.below(6) {
                0 => old.wrapping_add(1),
                1 => old.wrapping_sub(1),
                2 => u32::MAX,
                3 => random.below(40) as u32,
                4 => random.bits() as u32,
                _ => 0,
            };
            copy[place..place + 4].copy_from_slice(&word.to_le_bytes());
        }
        _ => {}
    }
}
