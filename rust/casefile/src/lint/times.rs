//! Times that fall from point to point, or lie ahead of the point asked about.

use super::{About, Warning};
use crate::records::Point;
use crate::tables::Tables;

fn times(tables: &Tables) -> Vec<i64> {
    tables.points.iter().map(|words| Point::read(*words).time).collect()
}

/// The first point whose time is before that of the point above it; the others are counted.
pub fn falling(tables: &Tables) -> Option<Warning> {
    let times = times(tables);
    let falls: Vec<usize> = (1..times.len()).filter(|&k| times[k] < times[k - 1]).collect();
    let &first = falls.first()?;
    let more = if falls.len() > 1 { format!("; {} more fall", falls.len() - 1) } else { String::new() };
    let message = format!(
        "the time falls here, from {} to {}: a window reaches by time, not by order; sort the points{more}",
        times[first - 1],
        times[first]
    );
    Some(Warning { about: About::Point(first as u32), message })
}

/// The points before the one asked about whose time is after its time: no window reaches them.
pub fn ahead(tables: &Tables, asked: usize) -> Option<Warning> {
    let times = times(tables);
    let now = *times.get(asked)?;
    let ahead: Vec<usize> = (0..asked).filter(|&k| times[k] > now).collect();
    let &first = ahead.first()?;
    let more = if ahead.len() > 1 { format!(" ({} points are)", ahead.len()) } else { String::new() };
    let message = format!(
        "point {first}, at {}, is ahead of point {asked}, which is asked about, at {now}: no window reaches it, so look at its time{more}",
        times[first]
    );
    Some(Warning { about: About::Point(first as u32), message })
}
