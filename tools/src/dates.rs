//! Days and their dates, both ways. Day 0 is 2000-01-01.

/// The last day that an event may have, 31 December 2199.
pub const LAST_DAY: u32 = 73_048;

/// The year of day 0.
const FIRST_YEAR: u32 = 2000;

/// A day with its date.
pub fn day(day: u32) -> String {
    match date(day) {
        Some(date) => format!("day {day} ({date})"),
        None => format!("day {day}"),
    }
}

/// The date of a day; none past the last day.
pub fn date(day: u32) -> Option<String> {
    if day > LAST_DAY {
        return None;
    }
    let mut left = day;
    let mut year = FIRST_YEAR;
    while left >= days_of_year(year) {
        left -= days_of_year(year);
        year += 1;
    }
    let mut month = 1;
    while left >= days_of_month(year, month) {
        left -= days_of_month(year, month);
        month += 1;
    }
    Some(format!("{year}-{month:02}-{:02}", left + 1))
}

/// Whether a word is written as a date, be there such a date or not.
pub fn is_written_so(word: &str) -> bool {
    let bytes = word.as_bytes();
    let fits = |at: usize| match at {
        4 | 7 => bytes[at] == b'-',
        _ => bytes[at].is_ascii_digit(),
    };
    bytes.len() == 10 && (0..10).all(fits)
}

/// The day of a date; none where the calendar has no such date, or it is before day 0. One past the last day has a day too,
/// so that it is the core that refuses it.
pub fn day_of(date: &str) -> Option<u32> {
    if !is_written_so(date) {
        return None;
    }
    let mut parts = date.split('-').map(str::parse::<u32>);
    let mut part = || parts.next()?.ok();
    let (year, month, day) = (part()?, part()?, part()?);
    let is_there = year >= FIRST_YEAR
        && (1..=12).contains(&month)
        && (1..=days_of_month(year, month)).contains(&day);
    let years: u32 = (FIRST_YEAR..year).map(days_of_year).sum();
    let months: u32 = (1..month).map(|month| days_of_month(year, month)).sum();
    is_there.then(|| years + months + day - 1)
}

fn is_leap(year: u32) -> bool {
    year.is_multiple_of(4) && (!year.is_multiple_of(100) || year.is_multiple_of(400))
}

fn days_of_year(year: u32) -> u32 {
    365 + u32::from(is_leap(year))
}

fn days_of_month(year: u32, month: u32) -> u32 {
    match month {
        2 => 28 + u32::from(is_leap(year)),
        4 | 6 | 9 | 11 => 30,
        _ => 31,
    }
}

#[cfg(test)]
mod tests {
    use super::*;

    #[test]
    fn dates_are_those_of_the_calendar() {
        let dates = [
            (0, "2000-01-01"),
            (59, "2000-02-29"),
            (60, "2000-03-01"),
            (365, "2000-12-31"),
            (366, "2001-01-01"),
            (36_525, "2100-01-01"),
            (36_525 + 58, "2100-02-28"),
            (36_525 + 59, "2100-03-01"),
            (73_048, "2199-12-31"),
        ];
        for (day, expected) in dates {
            assert_eq!(date(day).as_deref(), Some(expected));
        }
        assert_eq!(date(73_049), None);
        assert_eq!(date(u32::MAX), None);
    }

    #[test]
    fn months_begin_on_their_days() {
        let common = [
            8_401, 8_432, 8_460, 8_491, 8_521, 8_552, 8_582, 8_613, 8_644, 8_674, 8_705, 8_735,
        ];
        let leap = [
            8_766, 8_797, 8_826, 8_857, 8_887, 8_918, 8_948, 8_979, 9_010, 9_040, 9_071, 9_101,
        ];
        for (year, firsts) in [(2023, common), (2024, leap)] {
            for (month, first) in (1..).zip(firsts) {
                assert_eq!(date(first), Some(format!("{year}-{month:02}-01")));
            }
        }
    }

    #[test]
    fn every_date_leads_back_to_its_day() {
        for day in 0..=LAST_DAY {
            assert_eq!(day_of(&date(day).unwrap()), Some(day));
        }
    }

    #[test]
    fn a_date_past_the_last_day_is_a_day_that_the_core_refuses() {
        assert_eq!(day_of("2200-01-01"), Some(LAST_DAY + 1));
        assert_eq!(day_of("9999-12-31"), Some(2_921_939));
    }

    #[test]
    fn what_the_calendar_does_not_have_is_no_date() {
        for word in "1999-12-31 2000-00-01 2000-13-01 2000-01-00 2000-01-32 2001-02-29 2100-02-29"
            .split(' ')
        {
            assert!(is_written_so(word), "{word}");
            assert_eq!(day_of(word), None, "{word}");
        }
        for word in "2000-1-1 2000/01/01 2000-01-011 +000-01-01 01-01-2000 -5 5".split(' ') {
            assert!(!is_written_so(word), "{word}");
            assert_eq!(day_of(word), None, "{word}");
        }
    }
}
