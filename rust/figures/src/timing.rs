//! Times two ways of doing the same, by turns, so that both see the same machine. Processor time is
//! taken, and the least of all samples: what else runs on the machine only adds to it.

use std::hint::black_box;
use std::time::Duration;

/// A sample lasts at least this long.
const SAMPLE: Duration = Duration::from_millis(20);
/// Samples of each; fewer where one call takes longer than `LONG`.
const SAMPLES: usize = 9;
const FEW_SAMPLES: usize = 3;
const LONG: Duration = Duration::from_millis(300);

/// The C library's `struct timespec` on 64-bit Linux.
#[repr(C)]
struct Timespec {
    seconds: i64,
    nanoseconds: i64,
}

const CLOCK_PROCESS_CPUTIME_ID: i32 = 2;

extern "C" {
    // The standard library links it, but has no call for processor time.
    fn clock_gettime(clock: i32, time: *mut Timespec) -> i32;
}

/// Processor time of this process.
fn processor_time() -> Duration {
    let mut time = Timespec { seconds: 0, nanoseconds: 0 };
    // SAFETY: the struct is live and laid out as the C library's.
    let failed = unsafe { clock_gettime(CLOCK_PROCESS_CPUTIME_ID, &mut time) };
    assert_eq!(failed, 0, "there is no clock of processor time");
    Duration::new(time.seconds as u64, time.nanoseconds as u32)
}

/// The least time of one call of each, in nanoseconds.
pub fn by_turns<A, B>(mut ours: impl FnMut() -> A, mut theirs: impl FnMut() -> B) -> (f64, f64) {
    let our_calls = calls_for_a_sample(&mut ours);
    let their_calls = calls_for_a_sample(&mut theirs);
    let (mut least, mut their_least) = (sample(&mut ours, our_calls), sample(&mut theirs, their_calls));
    let longest = least.max(their_least);
    for _ in 1..samples(longest) {
        least = least.min(sample(&mut ours, our_calls));
        their_least = their_least.min(sample(&mut theirs, their_calls));
    }
    (least, their_least)
}

/// The time of this one call, in nanoseconds.
pub fn once<A>(mut call: impl FnMut() -> A) -> f64 {
    sample(&mut call, 1)
}

/// The least time of one call, in nanoseconds.
pub fn by_itself<A>(mut call: impl FnMut() -> A) -> f64 {
    let calls = calls_for_a_sample(&mut call);
    let first = sample(&mut call, calls);
    (1..samples(first)).fold(first, |least, _| least.min(sample(&mut call, calls)))
}

fn samples(longest: f64) -> usize {
    if longest > LONG.as_nanos() as f64 {
        FEW_SAMPLES
    } else {
        SAMPLES
    }
}

/// Nanoseconds a call, over so many calls.
fn sample<A>(call: &mut impl FnMut() -> A, calls: u32) -> f64 {
    spent(call, calls).as_nanos() as f64 / f64::from(calls)
}

fn spent<A>(call: &mut impl FnMut() -> A, calls: u32) -> Duration {
    let begun = processor_time();
    for _ in 0..calls {
        black_box(call());
    }
    processor_time() - begun
}

fn calls_for_a_sample<A>(call: &mut impl FnMut() -> A) -> u32 {
    let mut calls = 1;
    while spent(call, calls) < SAMPLE && calls < 1 << 24 {
        calls *= 2;
    }
    calls
}
