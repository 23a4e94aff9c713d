use crate::sys;

/// Where a time lies, seen from another, with the seconds between the two: the time seen from minus
/// the time seen, or the nearest number that 64 bits hold. It is how Formerly, Since and Previous
/// tell a point of their window from one that they pass over, so that a front end can say why:
///
/// ```
/// use galivodern::Window;
///
/// let (within, reviewed, flashed) = (3_600, 1_000, 4_640);
/// match Window::of(within, flashed, reviewed) {
///     Window::Inside(seconds) => panic!("reviewed {seconds} s before"),
///     Window::TooOld(seconds) => assert_eq!(seconds - within, 40), // 40 s too old
///     Window::Later(seconds) => panic!("stamped {} s ahead", -seconds),
/// }
/// ```
#[derive(Clone, Copy, Debug, PartialEq, Eq)]
pub enum Window {
    /// At least 0 seconds before, and at most the window's span.
    Inside(i64),
    /// Further back.
    TooOld(i64),
    /// Stamped after the time seen from: the seconds are negative.
    Later(i64),
}

impl Window {
    /// Where time `to` lies, seen from time `from`, in a window of `span` seconds: an amount times its
    /// unit, or the nearest number that 64 bits hold. Under a negative span nothing is inside.
    #[must_use]
    pub fn of(span: i64, from: i64, to: i64) -> Window {
        let seconds = sys::difference(from, to);
        match sys::window(span, from, to) {
            0 => Window::Inside(seconds),
            1 => Window::TooOld(seconds),
            _ => Window::Later(seconds),
        }
    }
}
