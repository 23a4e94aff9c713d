use crate::numbers::PointNo;

/// The verdict of a Formerly, Previous or Since, and the points of the log that decided it: what
/// [`Case::carried`] gives.
///
/// [`Case::carried`]: crate::Case::carried
#[derive(Clone, Debug, PartialEq, Eq)]
#[must_use = "an answer that nobody reads opens every gate"]
#[non_exhaustive]
pub struct Carried {
    /// Whether it holds.
    pub verdict: bool,
    /// The points, in the order in which they were looked at.
    ///
    /// Of a yes the first is the point that carried it, the latest one that does. Behind it stand, for
    /// Since, all later points up to the one asked about: at each of them left held.
    ///
    /// Of a no of Since they are pairs, the latest first: a point of the window at which right held,
    /// and the first point after it at which left failed. Any other no has none.
    pub points: Vec<PointNo>,
}

impl Carried {
    /// The point that carried the yes; None for a no.
    #[must_use]
    pub fn by(&self) -> Option<PointNo> {
        self.points.first().copied().filter(|_| self.verdict)
    }

    /// The points at which right of a Since held in vain, the latest first, each with the first point
    /// after it at which left failed. There are none where the answer is yes.
    #[must_use]
    pub fn failed(&self) -> impl ExactSizeIterator<Item = (PointNo, PointNo)> + '_ {
        let pairs = if self.verdict { &[][..] } else { &self.points[..] };
        pairs.chunks_exact(2).map(|pair| (pair[0], pair[1]))
    }
}
