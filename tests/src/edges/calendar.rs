//! The bounds of accounts with a calendar: its ends, the count of working days, and what comes before and after number 24.
use super::{Case, Edge};
use crate::peer::calendar::{holds, working_days, Calendar, DAYS};
use crate::peer::kind::*;
use crate::peer::rows::refusal;
use crate::peer::LAST_DAY;

/// The place of the last day, counted from 0 for the first.
const LAST: i64 = DAYS as i64 - 1;

/// A name for each bound and what meets it, of events posted to an account with a calendar.
pub const CALENDAR_EDGES: [Edge; 64] = [
    ("final notice refused on the day before the calendar", |c| {
        c.is(NOTICE, 24) && c.place() == -1 && c.without() == 0
    }),
    ("final notice on the calendar's first day", |c| {
        c.is(NOTICE, 0) && c.place() == 0
    }),
    ("final notice on the calendar's last day", |c| {
        c.is(NOTICE, 0) && c.place() == LAST
    }),
    ("final notice refused on the day after the calendar", |c| {
        c.is(NOTICE, 24) && c.place() == LAST + 1 && c.without() == 0
    }),
    ("cut refused on the day before the calendar", |c| {
        c.is(CUT, 24) && c.place() == -1
    }),
    ("cut refused by 12 on the calendar's first day", |c| {
        c.is(CUT, 12) && c.place() == 0
    }),
    ("cut five days after the calendar's first", |c| {
        c.is(CUT, 0) && c.place() == 5
    }),
    ("cut on the calendar's last day", |c| {
        c.is(CUT, 0) && c.place() == LAST
    }),
    ("cut refused on the day after the calendar", |c| {
        c.is(CUT, 24) && c.place() == LAST + 1 && c.without() == 0
    }),
    ("call on the day before the calendar", |c| {
        c.is(CALL, 0) && c.place() == -1
    }),
    ("call on the day after the calendar", |c| {
        c.is(CALL, 0) && c.place() == LAST + 1
    }),
    ("cut refused after four working days", |c| {
        c.waits() && c.worked(0) == 4
    }),
    ("cut after five working days", |c| {
        c.is(CUT, 0) && c.worked(0) == 5
    }),
    ("cut refused on notice + 4, all working days", |c| {
        c.is(CUT, 12) && c.live() == Some(4) && c.worked(0) == 4
    }),
    ("cut on notice + 5, all working days", |c| {
        c.is(CUT, 0) && c.live() == Some(5)
    }),
    ("cut on the fifth working day, later than notice + 5", |c| {
        c.on_the_fifth() && c.live() > Some(5)
    }),
    (
        "cut after the fifth, on a day that is no working day",
        |c| c.is(CUT, 0) && c.worked(0) == 5 && c.worked(-1) == 5,
    ),
    (
        "cut on the fifth working day, two others before it, as over a weekend",
        |c| c.on_the_fifth() && c.live() == Some(7),
    ),
    ("cut refused after four working days on notice + 20", |c| {
        c.waits() && c.live() == Some(20) && c.worked(0) == 4
    }),
    ("cut on the fifth working day, notice + 20", |c| {
        c.on_the_fifth() && c.live() == Some(20)
    }),
    ("cut on notice + 20, with the last five days alone", |c| {
        c.on_the_fifth() && c.live() == Some(20) && c.worked(-5) == 0
    }),
    ("cut refused on the fifth working day, notice + 21", |c| {
        c.is(CUT, 12) && c.ago(NOTICE, 21) && c.worked(0) == 5 && c.worked(-1) == 4
    }),
    ("cut refused where no day was a working day", |c| {
        c.waits() && c.worked(0) == 0
    }),
    (
        "cut refused where the notice's own day would be the fifth",
        |c| c.waits() && c.worked(0) == 4 && c.is_working(c.noticed()),
    ),
    ("cut refused where the day after would be the fifth", |c| {
        c.waits() && c.worked(0) == 4 && c.worked(1) == 5
    }),
    ("cut five working days after a notice at bit 59", |c| {
        c.over_a_word(59)
    }),
    ("cut five working days after a notice at bit 60", |c| {
        c.over_a_word(60)
    }),
    ("cut five working days after a notice at bit 61", |c| {
        c.over_a_word(61)
    }),
    ("cut five working days after a notice at bit 62", |c| {
        c.over_a_word(62)
    }),
    ("cut five working days after a notice at bit 63", |c| {
        c.over_a_word(63)
    }),
    (
        "cut refused after four working days that lie in two words",
        |c| c.waits() && c.worked(0) == 4 && c.noticed_at() < c.place() / 64 * 64,
    ),
    ("cut on the fifth working day, the last of a word", |c| {
        c.on_the_fifth() && c.place() % 64 == 63
    }),
    ("cut on the fifth working day, the first of a word", |c| {
        c.on_the_fifth() && c.place() % 64 == 0
    }),
    ("final notice refused, first day 4,294,967,295", |c| {
        c.first_is(u32::MAX) && c.is(NOTICE, 24) && c.without() == 0
    }),
    ("cut refused, first day 4,294,967,295", |c| {
        c.first_is(u32::MAX) && c.is(CUT, 24)
    }),
    ("final notice refused, first day 4,294,965,248", |c| {
        c.first_is(4_294_965_248) && c.is(NOTICE, 24) && c.without() == 0
    }),
    ("cut refused, first day 4,294,965,248", |c| {
        c.first_is(4_294_965_248) && c.is(CUT, 24)
    }),
    ("final notice refused, first day 73,049", |c| {
        c.first_is(73_049) && c.is(NOTICE, 24) && c.without() == 0
    }),
    ("cut refused, first day 73,049", |c| {
        c.first_is(73_049) && c.is(CUT, 24)
    }),
    ("final notice refused where days would come round", |c| {
        c.is(NOTICE, 24) && c.comes_round() && c.without() == 0
    }),
    ("cut refused where days would come round", |c| {
        c.is(CUT, 24) && c.comes_round()
    }),
    ("cut where the calendar ends after the last day", |c| {
        c.is(CUT, 0) && c.place_of(LAST_DAY) < LAST
    }),
    ("final notice refused by 1 outside the calendar", |c| {
        c.outside(NOTICE, 1)
    }),
    ("final notice refused by 2 outside the calendar", |c| {
        c.outside(NOTICE, 2)
    }),
    ("final notice refused by 3 outside the calendar", |c| {
        c.outside(NOTICE, 3)
    }),
    ("final notice refused by 4 outside the calendar", |c| {
        c.outside(NOTICE, 4)
    }),
    ("final notice refused by 5 outside the calendar", |c| {
        c.outside(NOTICE, 5)
    }),
    ("final notice refused by 24 and not by 10", |c| {
        c.not_by(NOTICE, 10)
    }),
    ("final notice refused by 24 and not by 11", |c| {
        c.not_by(NOTICE, 11)
    }),
    ("final notice refused by 24 and not by 18", |c| {
        c.not_by(NOTICE, 18)
    }),
    ("final notice refused by 24 and not by 19", |c| {
        c.not_by(NOTICE, 19)
    }),
    ("cut refused by 1 outside the calendar", |c| {
        c.outside(CUT, 1)
    }),
    ("cut refused by 2 outside the calendar", |c| {
        c.outside(CUT, 2)
    }),
    ("cut refused by 3 outside the calendar", |c| {
        c.outside(CUT, 3)
    }),
    ("cut refused by 4 outside the calendar", |c| {
        c.outside(CUT, 4)
    }),
    ("cut refused by 5 outside the calendar", |c| {
        c.outside(CUT, 5)
    }),
    ("cut refused by 24 and not by 10", |c| c.not_by(CUT, 10)),
    ("cut refused by 24 and not by 12", |c| c.not_by(CUT, 12)),
    ("cut refused by 24 and not by 13", |c| c.not_by(CUT, 13)),
    ("cut refused by 24 and not by 14", |c| c.not_by(CUT, 14)),
    ("cut refused by 24 and not by 15", |c| c.not_by(CUT, 15)),
    ("final notice refused by 11 on notice + 20", |c| {
        c.is(NOTICE, 11) && c.ago(NOTICE, 20)
    }),
    ("final notice on notice + 21, uncut", |c| {
        c.is(NOTICE, 0) && c.ago(NOTICE, 21) && !c.used_up()
    }),
    (
        "cut refused after the notice lapsed, five working days later",
        |c| c.is(CUT, 12) && c.within(NOTICE, 5, 20) && !c.used_up() && c.worked(0) >= 5,
    ),
];

impl Case<'_> {
    fn calendar(&self) -> &Calendar {
        let wanted = "the bound is one of accounts with a calendar";
        self.calendar.expect(wanted)
    }

    /// The place that a day has, or would have, in the calendar, counted from 0.
    fn place_of(&self, day: u32) -> i64 {
        i64::from(day) - i64::from(self.calendar().first)
    }

    fn place(&self) -> i64 {
        self.place_of(self.event.day)
    }

    /// The number by which an account without a calendar would refuse the event, 0 where it would accept it.
    fn without(&self) -> u8 {
        refusal(None, self.accepted, self.event)
    }

    /// The day of the last notice, and its place. Where there is none, no working days are after it, up to a day before this one.
    fn noticed(&self) -> u32 {
        self.last(NOTICE).map_or(u32::MAX, |e| e.day)
    }

    fn noticed_at(&self) -> i64 {
        self.place_of(self.noticed())
    }

    /// The working days after the last notice, up to so many days after this one.
    fn worked(&self, later: i32) -> u64 {
        let to = self.event.day.saturating_add_signed(later);
        working_days(self.calendar(), self.noticed(), to)
    }

    fn is_working(&self, day: u32) -> bool {
        day > 0 && working_days(self.calendar(), day - 1, day) == 1
    }

    /// A cut refused by its notice that would be accepted without a calendar.
    fn waits(&self) -> bool {
        self.is(CUT, 12) && self.without() == 0
    }

    /// A cut on the first day that has five working days.
    fn on_the_fifth(&self) -> bool {
        self.is(CUT, 0) && self.worked(0) == 5 && self.worked(-1) == 4
    }

    /// A cut after five working days in the word behind that of its notice, which has this bit.
    fn over_a_word(&self, bit: i64) -> bool {
        let next = self.noticed_at() / 64 + 1;
        self.on_the_fifth() && self.noticed_at() % 64 == bit && self.place() / 64 == next
    }

    fn first_is(&self, day: u32) -> bool {
        self.calendar().first == day
    }

    /// Whether the day would lie in the calendar if its days went on with 0 after the last number.
    fn comes_round(&self) -> bool {
        let place = self.event.day.wrapping_sub(self.calendar().first);
        self.place() < 0 && u64::from(place) < DAYS
    }

    /// Refused by a number that comes before 24, where that would refuse it too.
    fn outside(&self, kind: u8, number: u8) -> bool {
        self.is(kind, number) && !holds(self.calendar(), self.event.day)
    }

    /// Refused by 24, where a number that comes after it would refuse it too.
    fn not_by(&self, kind: u8, number: u8) -> bool {
        self.is(kind, 24) && self.without() == number
    }
}
