//! The date of each day, as a calendar on the wall has it: from 1 January 2000 on, a leaf is turned for each.
use super::LAST_DAY;
use std::iter::successors;
use std::sync::LazyLock;

/// A date. The year is compared first, then the month, then the day of the month: of two, the earlier is the lesser.
#[derive(Clone, Copy, Debug, PartialEq, Eq, PartialOrd, Ord)]
pub struct Date {
    pub year: u32,
    pub month: u32,
    pub day: u32,
}

pub const fn date(year: u32, month: u32, day: u32) -> Date {
    Date { year, month, day }
}

/// In their order: the place of each is its day.
static DATES: LazyLock<Vec<Date>> = LazyLock::new(|| {
    let leaves = successors(Some(date(2000, 1, 1)), |leaf| Some(leaf.turned()));
    leaves.take(LAST_DAY as usize + 1).collect()
});

impl Date {
    /// The date of the next day.
    fn turned(self) -> Date {
        let Date { year, month, day } = self;
        match month {
            _ if day < last_of_month(year, month) => date(year, month, day + 1),
            12 => date(year + 1, 1, 1),
            _ => date(year, month + 1, 1),
        }
    }

    /// One year later, be there such a date or not.
    pub fn next_year(self) -> Date {
        Date {
            year: self.year + 1,
            ..self
        }
    }
}

fn last_of_month(year: u32, month: u32) -> u32 {
    match month {
        2 if is_leap(year) => 29,
        2 => 28,
        4 | 6 | 9 | 11 => 30,
        _ => 31,
    }
}

/// The Gregorian rule: every fourth year, but of those that end a century only every fourth.
fn is_leap(year: u32) -> bool {
    match year % 100 {
        0 => year.is_multiple_of(400),
        _ => year.is_multiple_of(4),
    }
}

/// None past the last day.
pub fn date_of(day: u32) -> Option<Date> {
    DATES.get(day as usize).copied()
}

/// The first day that has this date or a later one: 1 March for a 29 February of a year that has none. No day where it would lie
/// after the last one.
pub fn first_from(date: Date) -> Option<u32> {
    let days_before = DATES.partition_point(|&earlier| earlier < date) as u32;
    (days_before <= LAST_DAY).then_some(days_before)
}

/// The day of the same date one year later, where it is not after the last day.
pub fn year_later(day: u32) -> Option<u32> {
    date_of(day).map(Date::next_year).and_then(first_from)
}
