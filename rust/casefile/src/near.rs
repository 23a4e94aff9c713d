//! "Did you mean": the known name that is nearest to one that is unknown.

/// More names than this are not listed.
const MOST_LISTED: usize = 12;

/// The nearest of the known names, if it is near enough to be meant.
pub fn nearest<'a>(name: &str, known: impl IntoIterator<Item = &'a str>) -> Option<&'a str> {
    let allowed = match name.chars().count() {
        0..=2 => 1,
        3..=5 => 2,
        _ => 3,
    };
    let far = |other: &&str| distance(&name.to_lowercase(), &other.to_lowercase());
    let nearest = known.into_iter().filter(|other| *other != name).min_by_key(far)?;
    (far(&nearest) <= allowed && far(&nearest) < nearest.chars().count()).then_some(nearest)
}

/// `; did you mean X?`, or nothing.
pub fn did_you_mean<'a>(name: &str, known: impl IntoIterator<Item = &'a str>) -> String {
    nearest(name, known).map_or(String::new(), |near| format!("; did you mean `{near}`?"))
}

/// `; did you mean X?`, or else what there is.
pub fn near_or_all<'a>(name: &str, known: impl IntoIterator<Item = &'a str>) -> String {
    let known: Vec<&str> = known.into_iter().collect();
    match (nearest(name, known.iter().copied()), known.len()) {
        (Some(near), _) => format!("; did you mean `{near}`?"),
        (None, 0) => "; there are none".to_string(),
        (None, count) if count > MOST_LISTED => format!("; there are: {}, ..", known[..MOST_LISTED].join(", ")),
        (None, _) => format!("; there are: {}", known.join(", ")),
    }
}

/// How many letters must be put in, left out or changed; two neighbours changed over count once.
fn distance(a: &str, b: &str) -> usize {
    let (a, b): (Vec<char>, Vec<char>) = (a.chars().collect(), b.chars().collect());
    let mut rows: Vec<Vec<usize>> = vec![(0..=b.len()).collect()];
    for i in 1..=a.len() {
        let mut row = vec![i];
        for j in 1..=b.len() {
            let changed = rows[i - 1][j - 1] + usize::from(a[i - 1] != b[j - 1]);
            let mut least = changed.min(rows[i - 1][j] + 1).min(row[j - 1] + 1);
            if i > 1 && j > 1 && a[i - 1] == b[j - 2] && a[i - 2] == b[j - 1] {
                least = least.min(rows[i - 2][j - 2] + 1);
            }
            row.push(least);
        }
        rows.push(row);
    }
    rows[a.len()][b.len()]
}

#[cfg(test)]
mod tests {
    use super::nearest;

    #[test]
    fn near_names_are_found_and_far_ones_are_not() {
        let known = ["Review", "Flash", "n"];
        assert_eq!(nearest("Reveiw", known), Some("Review"));
        assert_eq!(nearest("review", known), Some("Review"));
        assert_eq!(nearest("Flsh", known), Some("Flash"));
        assert_eq!(nearest("Compile", known), None);
        assert_eq!(nearest("x", known), None);
    }
}
