//! Times of ISO 8601, `2026-03-01T14:05:00Z`, and the seconds since the beginning of 1970 that they stand for.

const DAY: i64 = 86_400;

/// The seconds of a time, which has whole seconds and `Z` or an offset such as `+02:00`; what is wrong if there are none.
pub fn seconds(time: &str) -> Result<i64, String> {
    let form = "a time is written 2026-03-01T14:05:00Z, or with an offset such as +02:00 for Z";
    let (clock, zone) = time.split_at_checked(19).ok_or(form)?;
    let pattern = |text: &str, shape: &str| {
        text.len() == shape.len()
            && text.bytes().zip(shape.bytes()).all(|(b, s)| if s == b'0' { b.is_ascii_digit() } else { b == s })
    };
    if !pattern(clock, "0000-00-00T00:00:00") {
        return Err(form.to_string());
    }
    let number = |from: usize, to: usize| clock[from..to].parse::<i64>().map_err(|_| form.to_string());
    let (year, month, day) = (number(0, 4)?, number(5, 7)?, number(8, 10)?);
    let (hour, minute, second) = (number(11, 13)?, number(14, 16)?, number(17, 19)?);
    if !(1..=12).contains(&month) {
        return Err(format!("there is no month {month}: they are 01 to 12"));
    }
    let length = month_length(year, month);
    if day < 1 || day > length {
        return Err(format!("there is no day {}: that month has {length} days", &clock[..10]));
    }
    if hour > 23 || minute > 59 || second > 59 {
        return Err(format!("there is no time of day {}: the last one is 23:59:59", &clock[11..]));
    }
    let offset = match zone {
        "Z" => 0,
        _ if pattern(zone, "+00:00") || pattern(zone, "-00:00") => {
            let minutes = zone[1..3].parse::<i64>().unwrap_or(0) * 60 + zone[4..6].parse::<i64>().unwrap_or(0);
            if zone.starts_with('-') {
                -60 * minutes
            } else {
                60 * minutes
            }
        }
        _ if zone.starts_with('.') => return Err("times have whole seconds".to_string()),
        _ => return Err(form.to_string()),
    };
    Ok(days(year, month, day) * DAY + hour * 3_600 + minute * 60 + second - offset)
}

/// The time of these seconds, where its year has four digits.
pub fn written(seconds: i64) -> Option<String> {
    let (day, rest) = (seconds.div_euclid(DAY), seconds.rem_euclid(DAY));
    // A year that is not too late, to count on from.
    let mut year = 1970 + day.div_euclid(if day < 0 { 365 } else { 366 }).clamp(-2_000, 8_030);
    while day >= days(year + 1, 1, 1) && year < 10_000 {
        year += 1;
    }
    if !(0..10_000).contains(&year) || day < days(year, 1, 1) {
        return None;
    }
    let month = (1..=12).rev().find(|&month| day >= days(year, month, 1))?;
    let date = day - days(year, month, 1) + 1;
    let (hour, minute, second) = (rest / 3_600, rest / 60 % 60, rest % 60);
    Some(format!("{year:04}-{month:02}-{date:02}T{hour:02}:{minute:02}:{second:02}Z"))
}

fn leap(year: i64) -> bool {
    year % 4 == 0 && year % 100 != 0 || year % 400 == 0
}

fn month_length(year: i64, month: i64) -> i64 {
    match month {
        2 if leap(year) => 29,
        2 => 28,
        4 | 6 | 9 | 11 => 30,
        _ => 31,
    }
}

/// Days from the beginning of 1970 to this one.
fn days(year: i64, month: i64, day: i64) -> i64 {
    let before =
        |year: i64| 365 * year + (year + 3).div_euclid(4) - (year + 99).div_euclid(100) + (year + 399).div_euclid(400);
    before(year) - before(1970) + (1..month).map(|month| month_length(year, month)).sum::<i64>() + day - 1
}

#[cfg(test)]
mod tests {
    use super::{seconds, written};

    #[test]
    fn times_go_there_and_back() {
        for (time, number) in [
            ("1970-01-01T00:00:00Z", 0),
            ("1969-12-31T23:59:59Z", -1),
            ("2000-02-29T12:00:00Z", 951_825_600),
            ("2026-03-01T14:05:00Z", 1_772_373_900),
            ("0000-01-01T00:00:00Z", -62_167_219_200),
            ("9999-12-31T23:59:59Z", 253_402_300_799),
        ] {
            assert_eq!(seconds(time), Ok(number), "{time}");
            assert_eq!(written(number).as_deref(), Some(time));
        }
        assert_eq!(seconds("1970-01-01T02:00:00+02:00"), Ok(0));
        assert_eq!(seconds("1969-12-31T19:30:00-04:30"), Ok(0));
        assert_eq!((written(253_402_300_800), written(i64::MIN), written(i64::MAX)), (None, None, None));
        let mut number = -62_167_219_200;
        while number < 253_402_300_799 {
            assert_eq!(written(number).map(|time| seconds(&time)), Some(Ok(number)));
            number += 86_399 * 1_009;
        }
    }

    #[test]
    fn wrong_times_are_told() {
        assert_eq!(
            seconds("2026-02-29T00:00:00Z"),
            Err("there is no day 2026-02-29: that month has 28 days".to_string())
        );
        assert_eq!(
            seconds("2026-02-01T24:00:00Z"),
            Err("there is no time of day 24:00:00: the last one is 23:59:59".to_string())
        );
        assert_eq!(seconds("2026-02-01T23:00:00.5Z"), Err("times have whole seconds".to_string()));
        assert!(seconds("2026-02-01T23:00:00").is_err_and(|why| why.starts_with("a time is written")));
    }
}
