//! The dates that the tools print and read are those by which the core counts a year: of each day there is, a deposit that becomes
//! full on it is earned on the day that they give the date one year later, and not on the day before; of 2199, not on the last.
mod common;

use common::after;
use tools::core::{Account, Answer};
use tools::dates::{date, day_of, LAST_DAY};
use tools::event::Event;

/// The day of the same date one year later; of 29 February, that of 1 March.
fn year_later(day: u32) -> u32 {
    let date = date(day).unwrap();
    let (year, rest) = date.split_at(4);
    let year = year.parse::<u32>().unwrap() + 1;
    let rest = rest.replace("-02-29", "-03-01");
    day_of(&format!("{year}{rest}")).unwrap()
}

/// An account with a deposit that becomes full on a day.
fn full_on(day: u32) -> Account {
    after(&[Event::of(5, day, 900), Event::of(6, day, 900)])
}

#[test]
fn a_year_is_that_of_the_core_from_every_day_on() {
    let mut never = 0;
    for full in 0..=LAST_DAY {
        let account = full_on(full);
        let moved = |day| account.would_answer(Event::of(7, day, 0));
        let later = year_later(full);
        let before = later.min(LAST_DAY + 1) - 1;
        assert_eq!(moved(before), Answer::Refused(8), "{full}");
        if later <= LAST_DAY {
            assert_eq!(moved(later), Answer::Accepted(0), "{full}");
        } else {
            never += 1;
        }
    }
    // The days of 2199.
    assert_eq!(never, 365);
}
