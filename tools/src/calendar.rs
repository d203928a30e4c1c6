//! The readable text of a calendar, which an account may be begun with:
//!
//! ```text
//! first 2026-01-01           # the first of its 2,048 days
//! week mon tue wed thu fri   # the weekdays that are working days
//! off 2026-12-24 2026-12-25  # single days that are none
//! on 2026-12-19              # single days that are one
//! ```
//!
//! A day is a number or a date, and what follows `#` is for the reader, as in the text of a book (`text`). `first` comes before
//! the single days; of two lines about one of these the later one counts.
use crate::core::lent::{CALENDAR_DAYS, CALENDAR_WORDS};
use crate::core::Calendar;
use crate::dates;
use crate::shown::shown;
use crate::text;
use std::collections::HashMap;

/// The days of a week from that of day 0 on: 1 January 2000 was a Saturday.
const WEEK: [&str; 7] = ["sat", "sun", "mon", "tue", "wed", "thu", "fri"];

/// What the lines say.
#[derive(Default)]
struct Lines {
    first: Option<u32>,
    week: Option<Vec<&'static str>>,
    /// The single days, counted from the first, and whether each is a working day.
    single: HashMap<u32, bool>,
}

/// The calendar of a text, or what is wrong with it.
pub fn read(text: &str) -> Result<Calendar, String> {
    let mut lines = Lines::default();
    let taken = text::each_line(text, |words| lines.take(words));
    taken.map_err(|mistake| mistake.to_string())?;
    let first = lines.first.ok_or("there is no line `first`")?;
    let week = lines.week.ok_or("there is no line `week`")?;
    let mut bits = [0; CALENDAR_WORDS];
    for at in 0..CALENDAR_DAYS {
        let by_week = || week.contains(&weekday(u64::from(first) + u64::from(at)));
        let is_working = lines.single.get(&at).copied().unwrap_or_else(by_week);
        bits[(at / u64::BITS) as usize] |= u64::from(is_working) << (at % u64::BITS);
    }
    Ok(Calendar { first, bits })
}

/// The days of a calendar from its first on, with their dates. The last may be past every day that an event can have.
pub fn days(first: u32) -> String {
    let last = u64::from(first) + u64::from(CALENDAR_DAYS) - 1;
    let last = u32::try_from(last).map_or_else(|_| format!("day {last}"), dates::day);
    format!("{} to {last}", dates::day(first))
}

fn weekday(day: u64) -> &'static str {
    WEEK[(day % 7) as usize]
}

impl Lines {
    fn take(&mut self, words: &[&str]) -> Result<(), String> {
        match *words {
            [] => Ok(()),
            ["first", day] => once("first", &mut self.first, text::day(day)?),
            ["week", ref names @ ..] => {
                let days: Result<_, String> = names.iter().map(|name| weekday_of(name)).collect();
                once("week", &mut self.week, days?)
            }
            ["first", ..] => Err("`first` takes one day".to_string()),
            ["off" | "on"] => Err(format!("`{}` takes one day or more", words[0])),
            [word @ ("off" | "on"), ref days @ ..] => days
                .iter()
                .try_for_each(|day| self.take_single(day, word == "on")),
            [word, ..] => Err(format!(
                "`{}` begins no line: first, week, off and on do",
                shown(word)
            )),
        }
    }

    fn take_single(&mut self, word: &str, is_working: bool) -> Result<(), String> {
        let first = self.first.ok_or("`first` has to come before single days")?;
        let day = text::day(word)?;
        let at = day.checked_sub(first).filter(|&at| at < CALENDAR_DAYS);
        let at = at.ok_or_else(|| {
            let (day, days) = (dates::day(day), days(first));
            format!("{day} lies outside the calendar, {days}")
        })?;
        self.single.insert(at, is_working);
        Ok(())
    }
}

fn once<T>(word: &str, place: &mut Option<T>, value: T) -> Result<(), String> {
    match place.replace(value) {
        Some(_) => Err(format!("there is a line `{word}` already")),
        None => Ok(()),
    }
}

fn weekday_of(name: &str) -> Result<&'static str, String> {
    let found = WEEK.into_iter().find(|day| *day == name);
    found.ok_or_else(|| {
        let (name, all) = (shown(name), WEEK.join(", "));
        format!("`{name}` is no weekday; they are {all}")
    })
}

#[cfg(test)]
mod tests {
    use super::*;

    #[test]
    fn weekdays_are_those_of_the_almanac() {
        let dates = "2000-01-03 mon, 2000-02-29 tue, 2024-02-29 thu, 2026-01-01 thu, 2100-03-01 mon, 2199-12-31 tue";
        for (date, expected) in dates.split(", ").filter_map(|told| told.split_once(' ')) {
            let day = dates::day_of(date).unwrap();
            assert_eq!(weekday(day.into()), expected, "{date}");
        }
    }

    #[test]
    fn the_lowest_bit_of_the_first_word_is_the_first_day() {
        let places = [
            (0, 0, 0),
            (1, 0, 1),
            (63, 0, 63),
            (64, 1, 0),
            (2_047, 31, 63),
        ];
        for first in [0, 100, 73_048, u32::MAX - 2_047] {
            for (at, word, bit) in places {
                let read = read(&format!("first {first}\nweek\non {}", first + at)).unwrap();
                let mut bits = [0; 32];
                bits[word] = 1 << bit;
                assert_eq!(read, Calendar { first, bits });
            }
        }
    }

    #[test]
    fn a_week_and_single_days_make_the_working_days() {
        let text = "# an office\nfirst 9848\non 2026-12-19 # a Saturday\noff 2026-12-24 9855\n\n\
            week mon tue wed thu fri\non 2026-12-26 2026-12-21\noff 2026-12-26";
        let bits = read(text).unwrap().bits;
        let told: String = (0..18)
            .map(|at| if bits[0] >> at & 1 == 1 { '1' } else { '0' })
            .collect();
        // From Friday, 18 December, to Monday, 4 January.
        assert_eq!(told, "110111000011111001");
        let all = read("week sat sun mon tue wed thu fri\nfirst 4294967295").unwrap();
        assert_eq!(all.bits, [u64::MAX; 32]);
    }

    /// Lines, between which there is a stroke, and what is wrong with them.
    const WRONG: &str = "\
week mon => there is no line `first`
first 5 => there is no line `week`
first => line 1: `first` takes one day
first 5 6 => line 1: `first` takes one day
first soon => line 1: expected the day as a date or a whole number, found `soon`
first 5/# x/first 6 => line 3: there is a line `first` already
week mon/week tue => line 2: there is a line `week` already
week mon tues => line 1: `tues` is no weekday; they are sat, sun, mon, tue, wed, thu, fri
off 5 => line 1: `first` has to come before single days
first 5//off => line 3: `off` takes one day or more
first 5/on 6 2001-02-29 => line 2: `2001-02-29` is no day: there is no such date, or it is before 2000-01-01
first 5/off 4 => line 2: day 4 (2000-01-05) lies outside the calendar, day 5 (2000-01-06) to day 2052 (2005-08-14)
first 5/off 2052/on 2053 => line 3: day 2053 (2005-08-15) lies outside the calendar, day 5 (2000-01-06) to day 2052 (2005-08-14)
first 73048/off 75096 => line 2: day 75096 lies outside the calendar, day 73048 (2199-12-31) to day 75095
first 4294967295/off 5 => line 2: day 5 (2000-01-06) lies outside the calendar, day 4294967295 to day 4294969342
First 5 => line 1: `First` begins no line: first, week, off and on do
first 5 # \u{7} => line 1: the control byte \\u{7} has no place in a text";

    #[test]
    fn what_is_wrong_is_told_with_its_line() {
        for line in WRONG.lines() {
            let (text, words) = line.split_once(" => ").unwrap();
            let told = read(&text.replace('/', "\n"));
            assert_eq!(told, Err(words.to_string()), "{text}");
        }
    }
}
