//! The bounds of deposits: the date from which one is earned, the notices and cuts of 365 days, and what may be asked and paid.
use super::{Case, Edge};
use crate::peer::dates::{date_of, year_later};
use crate::peer::deposit::{full_for_a_year, full_since, held, in_365_days, required, since_moved};
use crate::peer::kind::*;
use crate::peer::LAST_DAY;

/// A name for each bound and what meets it, of events posted to an account without a calendar.
pub const DEPOSIT_EDGES: [Edge; 37] = [
    ("deposit moved on the same date, after 365 days", |c| {
        c.is(DEPOSIT_MOVED, 0) && c.full_for(365) && c.same_date_in(0)
    }),
    ("deposit moved on the same date, after 366 days", |c| {
        c.is(DEPOSIT_MOVED, 0) && c.full_for(366) && c.same_date_in(0)
    }),
    (
        "deposit refused the day before the same date, after 364 days",
        |c| c.is_early() && c.full_for(364) && c.same_date_in(1),
    ),
    (
        "deposit refused the day before the same date, after 365 days",
        |c| c.is_early() && c.full_for(365) && c.same_date_in(1),
    ),
    ("deposit refused a year after its first part", |c| {
        c.is_early() && c.first_part_for_a_year()
    }),
    ("deposit full on 29 February refused on 28 February", |c| {
        c.is_early() && c.full_on(2, 29) && c.is_on(2, 28)
    }),
    ("deposit full on 29 February moved on 1 March", |c| {
        c.is(DEPOSIT_MOVED, 0) && c.full_on(2, 29) && c.is_on(3, 1) && c.full_for(366)
    }),
    (
        "deposit full on 28 February of a leap year refused on 27 February",
        |c| c.is_early() && c.full_on(2, 28) && c.is_on(2, 27) && c.full_for(365),
    ),
    (
        "deposit full on 28 February of a leap year moved on 28 February",
        |c| c.is(DEPOSIT_MOVED, 0) && c.full_on(2, 28) && c.is_on(2, 28) && c.full_for(366),
    ),
    (
        "deposit full on 28 February moved on that of a leap year",
        |c| c.is(DEPOSIT_MOVED, 0) && c.full_on(2, 28) && c.full_for(365) && c.is_eve_of(2, 29),
    ),
    ("deposit full on 1 March refused on 29 February", |c| {
        c.is_early() && c.full_on(3, 1) && c.is_on(2, 29)
    }),
    (
        "deposit full on 1 March moved on that of a leap year",
        |c| c.is(DEPOSIT_MOVED, 0) && c.full_on(3, 1) && c.is_on(3, 1) && c.full_for(366),
    ),
    (
        "deposit full by 29 February 2000 refused after 365 days",
        |c| c.is_early() && c.full_within(0, 59) && c.full_for(365),
    ),
    (
        "deposit full by 29 February 2000 moved after 366 days",
        |c| c.is(DEPOSIT_MOVED, 0) && c.full_within(0, 59) && c.full_for(366),
    ),
    ("deposit full on 1 March 2099 moved after 365 days", |c| {
        c.is(DEPOSIT_MOVED, 0) && c.full_within(36_219, 36_219) && c.full_for(365)
    }),
    (
        "deposit full on 28 February 2100 moved after 365 days",
        |c| c.is(DEPOSIT_MOVED, 0) && c.full_within(36_583, 36_583) && c.full_for(365),
    ),
    (
        "deposit full on 31 December 2198 moved on the last day",
        |c| c.is(DEPOSIT_MOVED, 0) && c.full_within(72_683, 72_683) && c.is_the_last_day(),
    ),
    (
        "deposit full on 1 January 2199 refused on the last day",
        |c| c.is_early() && c.full_within(72_684, 72_684) && c.is_the_last_day(),
    ),
    ("deposit full in 2199 moved on close", |c| {
        c.is(CLOSE, 0) && c.full_within(72_684, LAST_DAY) && c.receives()
    }),
    ("deposit moved a second time", |c| {
        c.is(DEPOSIT_MOVED, 0) && c.any(DEPOSIT_MOVED)
    }),
    ("deposit moved after two notices in 365 days", |c| {
        c.is(DEPOSIT_MOVED, 0) && c.in_365_days(NOTICE) == 2
    }),
    ("deposit refused for three notices in 365 days", |c| {
        c.is(DEPOSIT_MOVED, 8) && c.long_full() && c.in_365_days(NOTICE) == 3
    }),
    ("deposit moved with a third notice 365 days before", |c| {
        c.is(DEPOSIT_MOVED, 0) && c.in_365_days(NOTICE) == 2 && c.some_ago(NOTICE, 365)
    }),
    ("deposit moved on the day of a second notice", |c| {
        c.is(DEPOSIT_MOVED, 0) && c.in_365_days(NOTICE) == 2 && c.ago(NOTICE, 0)
    }),
    ("deposit refused on the day of a third notice", |c| {
        c.is(DEPOSIT_MOVED, 8) && c.long_full() && c.only_notices(3) && c.ago(NOTICE, 0)
    }),
    ("deposit refused on the day of a cut", |c| {
        c.is(DEPOSIT_MOVED, 8) && c.long_full() && c.in_365_days(NOTICE) <= 2 && c.ago(CUT, 0)
    }),
    ("deposit refused for a cut 364 days before", |c| {
        c.is(DEPOSIT_MOVED, 8) && c.long_full() && c.ago(CUT, 364)
    }),
    ("deposit moved with a cut 365 days before", |c| {
        c.is(DEPOSIT_MOVED, 0) && c.ago(CUT, 365)
    }),
    (
        "deposit refused after 366 days for a third notice 364 days before",
        |c| c.is(DEPOSIT_MOVED, 8) && c.wants_366() && c.only_notices(3) && c.some_ago(NOTICE, 364),
    ),
    (
        "deposit moved after 366 days with a third notice 365 days before",
        |c| {
            c.is(DEPOSIT_MOVED, 0)
                && c.wants_366()
                && c.in_365_days(NOTICE) == 2
                && c.some_ago(NOTICE, 365)
        },
    ),
    (
        "deposit refused after 366 days for a cut 364 days before",
        |c| {
            c.is(DEPOSIT_MOVED, 8) && c.wants_366() && c.in_365_days(NOTICE) <= 2 && c.ago(CUT, 364)
        },
    ),
    (
        "deposit moved after 366 days with a cut 365 days before",
        |c| c.is(DEPOSIT_MOVED, 0) && c.wants_366() && c.ago(CUT, 365),
    ),
    ("deposit paid to the required sum", |c| {
        c.is(DEPOSIT_PAID, 0) && c.rest() == c.amount()
    }),
    ("deposit paid refused for one cent", |c| {
        c.is(DEPOSIT_PAID, 7) && required(c.accepted) > 0 && c.rest() + 1 == c.amount()
    }),
    ("deposit asked refused at the held", |c| {
        c.is(DEPOSIT_ASKED, 7) && held(c.accepted) == c.amount()
    }),
    ("deposit asked one cent over the held", |c| {
        c.is(DEPOSIT_ASKED, 0) && held(c.accepted) > 0 && held(c.accepted) + 1 == c.amount()
    }),
    ("deposit asked under the required sum", |c| {
        c.is(DEPOSIT_ASKED, 0) && c.amount() < required(c.accepted)
    }),
];

impl Case<'_> {
    fn full_for(&self, days: u32) -> bool {
        full_since(self.accepted).is_some_and(|full| self.event.day - full == days)
    }

    fn long_full(&self) -> bool {
        full_for_a_year(self.accepted, self.event.day)
    }

    fn full_within(&self, first: u32, last: u32) -> bool {
        full_since(self.accepted).is_some_and(|full| (first..=last).contains(&full))
    }

    /// Whether the deposit is full since a day with this date, of any year.
    fn full_on(&self, month: u32, day: u32) -> bool {
        full_since(self.accepted).is_some_and(|full| has_date(full, month, day))
    }

    fn is_on(&self, month: u32, day: u32) -> bool {
        has_date(self.event.day, month, day)
    }

    /// Whether the day after is one with this date.
    fn is_eve_of(&self, month: u32, day: u32) -> bool {
        has_date(self.event.day + 1, month, day)
    }

    fn is_the_last_day(&self) -> bool {
        self.event.day == LAST_DAY
    }

    /// Whether a day so many days later has the date on which the deposit was full, of any year.
    fn same_date_in(&self, days: u32) -> bool {
        let full = full_since(self.accepted).and_then(date_of);
        full.is_some_and(|full| has_date(self.event.day + days, full.month, full.day))
    }

    /// Whether the deposit was full 366 days before, on the same date.
    fn wants_366(&self) -> bool {
        self.full_for(366) && self.same_date_in(0)
    }

    /// A move refused for its date alone: no notice and no cut stands in the way.
    fn is_early(&self) -> bool {
        self.is(DEPOSIT_MOVED, 8) && self.in_365_days(NOTICE) <= 2 && self.in_365_days(CUT) == 0
    }

    /// Whether a year has passed since the first part of the deposit was paid.
    fn first_part_for_a_year(&self) -> bool {
        let mut parts = since_moved(self.accepted).iter();
        let first = parts.find(|e| e.kind == DEPOSIT_PAID);
        let from = first.and_then(|first| year_later(first.day));
        from.is_some_and(|from| from <= self.event.day)
    }

    fn in_365_days(&self, kind: u8) -> usize {
        in_365_days(self.accepted, kind, self.event.day)
    }

    /// Whether there were so many notices in the 365 days, and no cut that would bar a move too.
    fn only_notices(&self, count: usize) -> bool {
        self.in_365_days(NOTICE) == count && self.in_365_days(CUT) == 0
    }

    /// What is required and not yet held.
    fn rest(&self) -> i64 {
        required(self.accepted) - held(self.accepted)
    }
}

/// Whether a day has this date, of any year.
fn has_date(day: u32, month: u32, day_of_month: u32) -> bool {
    date_of(day).is_some_and(|date| (date.month, date.day) == (month, day_of_month))
}
