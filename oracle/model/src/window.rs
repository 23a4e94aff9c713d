//! Request #105: where a time lies, seen from another. Written from its reading, with exact numbers.

/// The three ways, each with the difference.
#[derive(Clone, Copy, Debug, PartialEq, Eq)]
pub enum Window {
    Inside(i64),
    TooOld(i64),
    Later(i64),
}

/// Time `to`, seen from time `from`, under `amount` of a unit: 0 seconds, 1 minutes, 2 hours, 3 days.
pub fn window(amount: i64, unit: usize, from: i64, to: i64) -> Window {
    let span = nearest(i128::from(amount) * [1, 60, 3_600, 86_400][unit]);
    let difference = nearest(i128::from(from) - i128::from(to));
    if difference < 0 {
        Window::Later(difference)
    } else if difference <= span {
        Window::Inside(difference)
    } else {
        Window::TooOld(difference)
    }
}

/// The nearest number that 64 bits hold.
fn nearest(exact: i128) -> i64 {
    exact.clamp(i128::from(i64::MIN), i128::from(i64::MAX)) as i64
}
