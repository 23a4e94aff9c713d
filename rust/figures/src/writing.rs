//! The writer's time beside Rust's `sort` and `dedup` of the same strings, and beside a plain copy of the bytes.

use std::hint::black_box;

use casefile::Tables;
use generate::Random;

use crate::timing::{by_itself, by_turns};
use crate::written::write;

const STRINGS: usize = 16_384;
const MANY: usize = 500_000;
const MOST_BYTES: usize = 4_194_304;
/// What an empty room is refused with.
const NO_ROOM: u32 = 10;

/// What is written: its name, and its strings.
type Shape = (&'static str, fn() -> Vec<String>);

/// The rows of the aim.
const SHAPES: [Shape; 8] = [
    ("16,384 strings, rising", || (0..STRINGS).map(numbered).collect()),
    ("16,384 strings, falling", || (0..STRINGS).rev().map(numbered).collect()),
    ("16,384 strings, random", random),
    ("16,384 strings, random, 60 bytes in common", || prefixed(60, random())),
    ("16,384 strings of 200 bytes, random, 190 in common", || prefixed(190, random())),
    ("500,000 records of ten texts", || (0..MANY).map(|k| numbered(k * 7_919 % 10)).collect()),
    ("500,000 records of ten texts, 60 bytes in common", || {
        prefixed(60, (0..MANY).map(|k| numbered(k * 7_919 % 10)).collect())
    }),
    ("500,000 records of 16,384 texts", || {
        (0..MANY).map(|k| numbered(k.wrapping_mul(2_654_435_761) % STRINGS)).collect()
    }),
];

/// Other kinds of strings, and other orders.
const OTHERS: [Shape; 41] = [
    ("two ways to begin", || begun(2)),
    ("eight ways to begin", || begun(8)),
    ("60 ways to begin", || begun(60)),
    ("1,000 ways to begin, of 30 bytes", || {
        shuffled((0..STRINGS).map(|k| format!("{:030}/{:06}", k % 1_000, k / 1_000)).collect())
    }),
    ("half rising, half falling", || runs_of(2, true)),
    ("half rising, half falling, by turns", || {
        let (rising, falling) = ((0..STRINGS).step_by(2), (1..STRINGS).step_by(2).rev());
        rising.chain(falling).map(numbered).collect()
    }),
    ("4 runs", || runs_of(4, false)),
    ("16 runs", || runs_of(16, false)),
    ("64 runs", || runs_of(64, false)),
    ("512 runs", || runs_of(512, false)),
    ("rising and falling by turns, 16 runs", || runs_of(16, true)),
    ("rising but for 2 swaps", || swapped(2)),
    ("rising but for 20 swaps", || swapped(20)),
    ("rising but for 500 swaps", || swapped(500)),
    ("rising, each text twice", || (0..STRINGS).map(|k| numbered(k / 2)).collect()),
    ("rising, each text thrice, 49,152 records", || (0..3 * STRINGS).map(|k| numbered(k / 3)).collect()),
    ("rising twice, 20,000 records", || (0..20_000).map(|k| numbered(k % STRINGS)).collect()),
    ("2 texts in 16,384 records", || records(STRINGS, 2)),
    ("20 texts", || records(STRINGS, 20)),
    ("200 texts", || records(STRINGS, 200)),
    ("200 texts of 28 bytes", || prefixed(16, records(STRINGS, 200))),
    ("2,000 texts", || records(STRINGS, 2_000)),
    ("8,000 texts", || records(STRINGS, 8_000)),
    ("2 texts in 20,000 records", || records(20_000, 2)),
    ("2,000 texts in 20,000 records", || records(20_000, 2_000)),
    ("16,384 texts in 17,000 records", || records(17_000, STRINGS)),
    ("16,384 texts in 20,000 records", || records(20_000, STRINGS)),
    ("200 texts in 65,536 records", || records(65_536, 200)),
    ("8,000 texts in 65,536 records", || records(65_536, 8_000)),
    ("200 texts in 500,000 records", || records(MANY, 200)),
    ("2,000 texts in 500,000 records", || records(MANY, 2_000)),
    ("random lengths to 40, random bytes", || {
        drawn(STRINGS, |random| {
            let long = random.below(40);
            (0..long).map(|_| (b'a' + random.below(26) as u8) as char).collect()
        })
    }),
    ("random lengths to 40, two letters", || {
        drawn(STRINGS, |random| {
            let long = random.below(40);
            (0..long).map(|_| (b'a' + random.below(2) as u8) as char).collect()
        })
    }),
    ("letters above 127", || {
        drawn(STRINGS, |random| {
            (0..12).map(|_| char::from_u32(0x400 + random.below(256) as u32).unwrap_or('x')).collect()
        })
    }),
    ("a byte repeated up to 255 times", || shuffled((0..STRINGS).map(|k| "a".repeat(k % 255)).collect())),
    ("numbers without zeros in front", || shuffled((0..STRINGS).map(|k| k.to_string()).collect())),
    ("600 strings", || shuffled((0..600).map(numbered).collect())),
    ("600 records of 200 texts", || records(600, 200)),
    ("2,000 strings", || shuffled((0..2_000).map(numbered).collect())),
    ("5,000 strings", || shuffled((0..5_000).map(numbered).collect())),
    ("300 strings", || shuffled((0..300).map(numbered).collect())),
];

fn numbered(k: usize) -> String {
    format!("board-{k:06}")
}

fn random() -> Vec<String> {
    shuffled((0..STRINGS).map(numbered).collect())
}

fn shuffled(mut strings: Vec<String>) -> Vec<String> {
    let mut random = Random::new(101);
    (1..strings.len()).for_each(|k| strings.swap(k, random.below(k + 1)));
    strings
}

/// Strings that begin in so many ways and go on alike.
fn begun(ways: usize) -> Vec<String> {
    shuffled(
        (0..STRINGS)
            .map(|k| format!("{}-number-{:06}", "user".repeat(1 + k % ways % 8) + &(k % ways).to_string(), k / ways))
            .collect(),
    )
}

/// So many runs that rise; or every other one falls.
fn runs_of(many: usize, turning: bool) -> Vec<String> {
    let long = STRINGS / many;
    let at = |run: usize, k: usize| if turning && run % 2 == 1 { long - 1 - k } else { k };
    (0..many)
        .flat_map(|run| (0..long).map(move |k| (run, k)))
        .map(|(run, k)| numbered(at(run, k) * many + run))
        .collect()
}

fn swapped(many: usize) -> Vec<String> {
    let mut random = Random::new(25);
    let mut strings: Vec<String> = (0..STRINGS).map(numbered).collect();
    (0..many).for_each(|_| strings.swap(random.below(STRINGS), random.below(STRINGS)));
    strings
}

/// So many records of so many texts.
fn records(many: usize, texts: usize) -> Vec<String> {
    shuffled((0..many).map(|k| numbered(k % texts)).collect())
}

fn drawn(many: usize, one: fn(&mut Random) -> String) -> Vec<String> {
    let mut random = Random::new(7);
    (0..many).map(|_| one(&mut random)).collect()
}

fn prefixed(common: usize, strings: Vec<String>) -> Vec<String> {
    let start = "x".repeat(common);
    strings.into_iter().map(|string| format!("{start}{string}")).collect()
}

/// An unsorted case of these strings and nothing else.
fn unsorted(strings: &[String]) -> Vec<u8> {
    let mut tables = Tables::default();
    for string in strings {
        tables.strings.push([tables.text.len() as u32, string.len() as u32]);
        tables.text.extend(string.bytes());
    }
    tables.encode()
}

struct Lent {
    room: Vec<u8>,
    output: Vec<u8>,
}

impl Lent {
    fn new() -> Lent {
        Lent { room: vec![1; MOST_BYTES], output: vec![1; MOST_BYTES] }
    }

    fn written(&mut self, unsorted: &[u8]) -> Result<usize, u32> {
        write(unsorted, &[], &mut self.room, &mut self.output)
    }
}

/// The call with no room: it sorts and joins, and then refuses 10.
fn sorted_alone(unsorted: &[u8]) -> Result<usize, u32> {
    write(unsorted, &[], &mut [], &mut [])
}

/// The different strings, as Rust sorts them: slices of the same text.
fn sorted<'a>(strings: &[&'a [u8]]) -> Vec<&'a [u8]> {
    let mut strings = strings.to_vec();
    strings.sort();
    strings.dedup();
    strings
}

/// Milliseconds of processor time.
pub fn print_table() -> Result<bool, String> {
    println!("| strings | the writer | its sorting | Rust's sort and dedup | sorting to Rust | a copy of the bytes |");
    println!("|---|---|---|---|---|---|");
    for (name, strings) in SHAPES.into_iter().chain(OTHERS) {
        let strings = strings();
        let bytes = unsorted(&strings);
        let slices: Vec<&[u8]> = strings.iter().map(|string| string.as_bytes()).collect();
        let mut lent = Lent::new();
        let length = lent.written(&bytes).map_err(|refusal| format!("{name}: refused {refusal}"))?;
        let different = sorted(&slices).len();
        let written = Tables::decode(&lent.output[..length])?.strings.len();
        if written != different {
            return Err(format!("{name}: {written} strings written, {different} are different"));
        }
        if sorted_alone(&bytes) != Err(NO_ROOM) {
            return Err(format!("{name}: an empty room is not refused"));
        }
        let whole = by_itself(|| lent.written(&bytes));
        let (ours, theirs) = by_turns(|| sorted_alone(&bytes), || sorted(&slices));
        let mut copy = vec![1; bytes.len()];
        let copied = by_itself(|| {
            copy.copy_from_slice(black_box(&bytes));
            black_box(&mut copy)[0]
        });
        let shown = |time: f64| format!("{:.2}", time / 1e6);
        let [whole, sorting, rust, copied] = [whole, ours, theirs, copied].map(shown);
        println!("| {name} | {whole} | {sorting} | {rust} | {:.2} | {copied} |", ours / theirs);
    }
    Ok(true)
}

/// One shape so many times: for a profiler.
pub fn once(shape: usize, times: u64) -> Result<bool, String> {
    let (name, strings) = SHAPES.get(shape).ok_or_else(|| format!("there are {} shapes", SHAPES.len()))?;
    let bytes = unsorted(&strings());
    let mut lent = Lent::new();
    for _ in 0..times {
        black_box(lent.written(&bytes)).map_err(|refusal| format!("{name}: refused {refusal}"))?;
    }
    println!("{name}: {times} times");
    Ok(true)
}
