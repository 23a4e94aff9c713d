//! A line of a log with carets under its places. Lines of logs are long, so one is cut around them.

use casefile::log::Place;

/// So many characters of a line are shown.
const WIDTH: usize = 76;
/// Two places further apart are shown one after the other.
const APART: usize = WIDTH - 16;

/// The line that the places stand in, all in one.
pub fn excerpt(log: &[u8], places: &[Place]) -> String {
    let columns = || places.iter().map(|place| place.column - 1);
    let (Some(low), Some(high)) = (columns().min(), columns().max()) else { return String::new() };
    if high - low > APART {
        let each = places.iter().map(|place| excerpt(log, &[*place]));
        return each.collect::<Vec<_>>().join("\n");
    }
    let line = String::from_utf8_lossy(places[0].line_in(log)).into_owned();
    let line: Vec<char> = line.trim_end().chars().map(|c| if c.is_control() { ' ' } else { c }).collect();
    let start =
        if line.len() <= WIDTH { 0 } else { ((low + high) / 2).saturating_sub(WIDTH / 2).min(line.len() - WIDTH) };
    let end = line.len().min(start + WIDTH);
    let (before, after) = (if start > 0 { ".." } else { "" }, if end < line.len() { ".." } else { "" });
    let shown: String = line[start..end].iter().collect();
    let mut marks = String::new();
    for column in 0..=high {
        if column >= start {
            marks.push(if columns().any(|marked| marked == column) { '^' } else { ' ' });
        }
    }
    let margin = places[0].line.to_string();
    let (blank, indent) = (" ".repeat(margin.len()), " ".repeat(before.len()));
    format!("  {margin} | {before}{shown}{after}\n  {blank} | {indent}{marks}")
}

#[cfg(test)]
mod tests {
    use super::*;

    fn shown(log: &str, bytes: &[usize]) -> String {
        let places: Vec<Place> = bytes.iter().map(|&byte| Place::of(log.as_bytes(), byte)).collect();
        excerpt(log.as_bytes(), &places)
    }

    #[test]
    fn a_short_line_is_shown_whole() {
        assert_eq!(shown("ab\ncd\tef\r\n", &[6]), "  2 | cd ef\n    |    ^");
        assert_eq!(shown("äöü", &[4]), "  1 | äöü\n    |   ^");
        assert_eq!(shown("ab", &[0, 2]), "  1 | ab\n    | ^ ^");
        assert_eq!(shown("", &[0]), "  1 | \n    | ^");
    }

    #[test]
    fn a_long_line_is_cut_around_its_place() {
        let line = "x".repeat(100) + "Y" + &"z".repeat(100);
        let text = shown(&line, &[100]);
        let half = WIDTH / 2;
        let expected =
            format!("  1 | ..{}Y{}..\n    |   {}^", "x".repeat(half), "z".repeat(half - 1), " ".repeat(half));
        assert_eq!(text, expected);
        assert_eq!(shown(&line, &[0]), format!("  1 | {}..\n    | ^", "x".repeat(WIDTH)));
        let end = shown(&line, &[201]);
        assert!(end.starts_with("  1 | ..z") && end.ends_with(&format!("{}^", " ".repeat(WIDTH))), "{end}");
    }

    #[test]
    fn two_places_far_apart_are_shown_apart() {
        let line = "x".repeat(200);
        assert_eq!(shown(&line, &[10, 150]).lines().count(), 4);
        assert_eq!(shown(&line, &[10, 30]).lines().count(), 2);
    }
}
