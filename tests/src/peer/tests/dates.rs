//! Dates, and the year that a deposit has to be full for: up to the same date one year later, be that 365 or 366 days on.
use super::*;
use crate::peer::dates::{date, date_of, first_from, year_later, Date};
use crate::peer::deposit::held;

/// Days and their dates, as other calendars have them.
const DAYS: [(u32, Date); 16] = [
    (0, date(2000, 1, 1)),
    (59, date(2000, 2, 29)),
    (60, date(2000, 3, 1)),
    (365, date(2000, 12, 31)),
    (366, date(2001, 1, 1)),
    (8_824, date(2024, 2, 28)),
    (8_825, date(2024, 2, 29)),
    (8_826, date(2024, 3, 1)),
    (9_190, date(2025, 2, 28)),
    (9_191, date(2025, 3, 1)),
    (35_123, date(2096, 2, 29)),
    (36_583, date(2100, 2, 28)),
    (36_584, date(2100, 3, 1)),
    (38_044, date(2104, 2, 29)),
    (72_683, date(2198, 12, 31)),
    (73_048, date(2199, 12, 31)),
];

#[test]
fn each_day_has_its_date() {
    for (day, date) in DAYS {
        assert_eq!(date_of(day), Some(date), "day {day}");
        assert_eq!(first_from(date), Some(day), "{date:?}");
    }
    assert_eq!([73_049, u32::MAX].map(date_of), [None, None]);
    assert_eq!(first_from(date(2200, 1, 1)), None);
}

/// The days with the date 29 February: every 1,461 days from that of 2000 on, but for 2100, which has none.
fn leap_days() -> Vec<u32> {
    let of_leap_years = (0..50).filter(|turn| *turn != 25);
    of_leap_years
        .map(|turn| 59 + 1_461 * turn - u32::from(turn > 25))
        .collect()
}

#[test]
fn a_29_february_is_a_day_of_leap_years_alone() {
    let is_one = |day: &u32| date_of(*day).is_some_and(|date| (date.month, date.day) == (2, 29));
    let found: Vec<u32> = (0..=LAST_DAY).filter(is_one).collect();
    assert_eq!(found, leap_days());
    for (year, is_leap) in [
        (2000, true),
        (2001, false),
        (2096, true),
        (2100, false),
        (2104, true),
    ] {
        let first = first_from(date(year, 2, 29)).and_then(date_of);
        let expected = match is_leap {
            true => date(year, 2, 29),
            false => date(year, 3, 1),
        };
        assert_eq!(first, Some(expected));
    }
}

#[test]
fn a_year_is_a_day_longer_where_a_29_february_is_passed() {
    let leap_days = leap_days();
    for full in 0..=72_683 {
        let passed = leap_days
            .iter()
            .any(|day| (full..=full + 365).contains(day));
        let days = 365 + u32::from(passed);
        assert_eq!(year_later(full), Some(full + days), "full on day {full}");
    }
    for never in [72_684, 72_685, 73_047, 73_048, 73_049, u32::MAX] {
        assert_eq!(year_later(never), None, "full on day {never}");
    }
}

/// The day on which a deposit is full, and the first on which it is earned.
const YEARS: [(u32, u32); 13] = [
    // 1 January and 28 and 29 February 2000.
    (0, 366),
    (58, 424),
    (59, 425),
    // 28 February and 1 March 2023.
    (8_459, 8_824),
    (8_460, 8_826),
    // 28 and 29 February and 1 March 2024.
    (8_824, 9_190),
    (8_825, 9_191),
    (8_826, 9_191),
    // 29 February 2096, 1 March 2099, 28 February and 1 March 2100.
    (35_123, 35_489),
    (36_219, 36_584),
    (36_583, 36_948),
    (36_584, 36_949),
    // 31 December 2198.
    (72_683, 73_048),
];

/// The answer to a move after a deposit that was full on a day.
fn moved(full: u32, day: u32) -> u8 {
    last_answer(&[
        deposit_asked(full, 50),
        deposit_paid(full, 50),
        deposit_moved(day),
    ])
}

#[test]
fn a_deposit_is_earned_from_the_same_date_one_year_later() {
    for (full, from) in YEARS {
        let answers = [from - 1, from, LAST_DAY].map(|day| moved(full, day));
        assert_eq!(answers, [8, 0, 0], "full on day {full}");
    }
}

#[test]
fn one_that_is_full_in_2199_is_moved_by_closing_alone() {
    for full in [72_684, 72_742, 73_048] {
        assert_eq!(moved(full, LAST_DAY), 8, "full on day {full}");
        assert_eq!(moved(full, LAST_DAY + 1), 1, "full on day {full}");
        let events = [
            deposit_asked(full, 50),
            deposit_paid(full, 50),
            close(LAST_DAY),
        ];
        assert_eq!(held(&post_all(&events).accepted), 0);
        let standing = standing_of(&events);
        assert_eq!((standing.owed, standing.service), (-50, Service::Closed));
    }
}

#[test]
fn the_year_begins_with_the_last_part() {
    // The first on 28 February 2024, the last on 1 March.
    let parts = [
        deposit_asked(8_824, 50),
        deposit_paid(8_824, 20),
        deposit_paid(8_826, 30),
    ];
    let then = |events: &[Event]| last_answer(&[&parts[..], events].concat());
    let answers = [9_190, 9_191].map(|day| then(&[deposit_moved(day)]));
    assert_eq!(answers, [8, 0]);
    // A higher sum asked ends it, and the rest of that begins another.
    let more = [deposit_asked(8_827, 60), deposit_paid(8_900, 10)];
    let answers =
        [9_191, 9_264, 9_265].map(|day| then(&[&more[..], &[deposit_moved(day)]].concat()));
    assert_eq!(answers, [8, 8, 0]);
}

#[test]
fn notices_and_cuts_count_for_365_days_in_a_year_of_366() {
    // Full on 1 March 2023, and so earned from 1 March 2024 on, day 8,826.
    let full = [
        bill(8_400, 9_000),
        deposit_asked(8_460, 50),
        deposit_paid(8_460, 50),
    ];
    let answered = |events: &[Event], day| {
        let mut history = [&full[..], events].concat();
        history.sort_by_key(|e| e.day);
        history.push(deposit_moved(day));
        last_answer(&history)
    };
    for (later, answers) in [(1, [8, 0, 0]), (2, [8, 8, 0])] {
        let first = 8_460 + later;
        let notices = [notice(first), notice(first + 21), notice(first + 42)];
        let cut_off = [notice(first - 5), call(first - 1), cut(first)];
        for events in [notices, cut_off] {
            let found = [8_825, 8_826, 8_827].map(|day| answered(&events, day));
            assert_eq!(found, answers, "{events:?}");
        }
    }
}
