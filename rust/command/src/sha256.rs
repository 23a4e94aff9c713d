//! SHA-256 (FIPS 180-4), in hexadecimal as `sha256sum` writes it.

/// The first 32 bits of the fractional parts of the roots of the first primes: square roots of 8, cube roots of 64.
fn roots() -> ([u32; 8], [u32; 64]) {
    let primes = (2u64..).filter(|&n| (2..n).take_while(|d| d * d <= n).all(|d| n % d != 0));
    let (mut squares, mut cubes) = ([0; 8], [0; 64]);
    for (k, prime) in primes.take(64).enumerate() {
        if k < 8 {
            squares[k] = fraction(u128::from(prime) << 64, |root| root * root);
        }
        cubes[k] = fraction(u128::from(prime) << 96, |root| root * root * root);
    }
    (squares, cubes)
}

/// The lower 32 bits of the greatest number whose power is at most `of`.
fn fraction(of: u128, power: impl Fn(u128) -> u128) -> u32 {
    let mut root: u128 = 0;
    for bit in (0..36).rev() {
        if power(root | 1 << bit) <= of {
            root |= 1 << bit;
        }
    }
    root as u32
}

pub fn sha256(bytes: &[u8]) -> String {
    let (mut state, rounds) = roots();
    let mut padded = bytes.to_vec();
    padded.push(0x80);
    padded.resize(
        padded.len().next_multiple_of(64) + if padded.len() % 64 > 56 || padded.len() % 64 == 0 { 64 } else { 0 },
        0,
    );
    let length = padded.len();
    padded[length - 8..].copy_from_slice(&(8 * bytes.len() as u64).to_be_bytes());
    for block in padded.chunks(64) {
        compress(&mut state, &rounds, block);
    }
    state.iter().map(|word| format!("{word:08x}")).collect()
}

fn compress(state: &mut [u32; 8], rounds: &[u32; 64], block: &[u8]) {
    let mut words = [0u32; 64];
    for (word, bytes) in words.iter_mut().zip(block.chunks(4)) {
        *word = bytes.iter().fold(0, |word, byte| word << 8 | u32::from(*byte));
    }
    for k in 16..64 {
        let (a, b) = (words[k - 15], words[k - 2]);
        let low = a.rotate_right(7) ^ a.rotate_right(18) ^ a >> 3;
        let high = b.rotate_right(17) ^ b.rotate_right(19) ^ b >> 10;
        words[k] = words[k - 16].wrapping_add(low).wrapping_add(words[k - 7]).wrapping_add(high);
    }
    let mut turning = *state;
    for (word, round) in words.iter().zip(rounds) {
        let [a, b, c, _, e, f, g, h] = turning;
        let high = e.rotate_right(6) ^ e.rotate_right(11) ^ e.rotate_right(25);
        let first = h.wrapping_add(high).wrapping_add(e & f ^ !e & g).wrapping_add(*round).wrapping_add(*word);
        let low = a.rotate_right(2) ^ a.rotate_right(13) ^ a.rotate_right(22);
        let second = low.wrapping_add(a & b ^ a & c ^ b & c);
        turning.rotate_right(1);
        turning[0] = first.wrapping_add(second);
        turning[4] = turning[4].wrapping_add(first);
    }
    for (word, turned) in state.iter_mut().zip(turning) {
        *word = word.wrapping_add(turned);
    }
}

#[cfg(test)]
mod tests {
    use super::sha256;

    #[test]
    fn known_hashes() {
        assert_eq!(sha256(b""), "e3b0c44298fc1c149afbf4c8996fb92427ae41e4649b934ca495991b7852b855");
        assert_eq!(sha256(b"abc"), "ba7816bf8f01cfea414140de5dae2223b00361a396177a9cb410ff61f20015ad");
        let long = "abcdbcdecdefdefgefghfghighijhijkijkljklmklmnlmnomnopnopq";
        assert_eq!(sha256(long.as_bytes()), "248d6a61d20638b8e5c026930c3e6039a33ce45964ff2167f6ecedd419db06c1");
        let million = vec![b'a'; 1_000_000];
        assert_eq!(sha256(&million), "cdc76e5c9914fb9281a1c7e284d73e67f1809a48a497200e046d39ccc7112cd0");
        let sixty = vec![b'a'; 64];
        assert_eq!(sha256(&sixty), "ffe054fe7ae0cb6dc65c3af9b61d5209f439851db43d0ba5997337df154668eb");
    }
}
