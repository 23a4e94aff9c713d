//! Counts visits, and ends a walk that would make more than its limit.

use std::cell::Cell;
use std::panic::{catch_unwind, resume_unwind, AssertUnwindSafe};

thread_local! {
    static SPENT: Cell<u64> = const { Cell::new(0) };
    static LIMIT: Cell<u64> = const { Cell::new(0) };
}

struct Exhausted;

pub(crate) fn visit() {
    let spent = SPENT.get();
    if spent == LIMIT.get() {
        resume_unwind(Box::new(Exhausted));
    }
    SPENT.set(spent + 1);
}

/// What the walk gives, with its visits; None where it would make more than `limit`.
pub fn counted<T>(limit: u64, walk: impl FnOnce() -> T) -> Option<(T, u64)> {
    SPENT.set(0);
    LIMIT.set(limit);
    match catch_unwind(AssertUnwindSafe(walk)) {
        Ok(answer) => Some((answer, SPENT.get())),
        Err(thrown) if thrown.is::<Exhausted>() => None,
        Err(thrown) => resume_unwind(thrown),
    }
}
