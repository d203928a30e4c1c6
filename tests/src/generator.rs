//! Histories that reach what a trial does not: years of bills, both sides of each bound, odd fields.
//!
//! Most events are chosen by what the peer sees in the events accepted so far, so that a payment leaves exactly the
//! arrears that a notice still wants, or one cent less.

mod calendars;
mod guided;
mod modes;
mod walk;

use crate::peer::calendar::Calendar;
use crate::peer::money::Money;
use crate::peer::{post_all, post_all_by, Posted};
use crate::random::Random;
use tools::event::Event;

pub use modes::MODES;

/// A history while it is written, with what the peer says of it.
pub struct Writer<'a> {
    pub random: &'a mut Random,
    pub events: Vec<Event>,
    pub posted: Posted,
}

impl Writer<'_> {
    /// Gives the account its calendar, before any event.
    pub fn begin(&mut self, calendar: Calendar) {
        self.posted = Posted::begun(Some(calendar));
    }

    /// Writes an event and says whether the peer accepts it.
    pub fn post(&mut self, event: Event) -> bool {
        self.events.push(event);
        self.posted.post(event) == 0
    }

    pub fn accepted(&self) -> &[Event] {
        &self.posted.accepted
    }

    /// The day of the last accepted event.
    pub fn today(&self) -> u32 {
        self.accepted().last().map_or(0, |e| e.day)
    }

    pub fn later(&self, days: u32) -> u32 {
        self.today().saturating_add(days)
    }

    /// A day so many days after the last accepted event.
    pub fn within(&mut self, first: u64, last: u64) -> u32 {
        let days = self.random.between(first, last) as u32;
        self.later(days)
    }

    pub fn money(&self) -> Money {
        Money::of(self.accepted())
    }
}

/// What a mode wrote.
pub struct History {
    pub mode: usize,
    pub events: Vec<Event>,
    /// On an account without a calendar, as those of a book are.
    pub posted: Posted,
    /// On one that was begun with the history's calendar.
    pub with_calendar: Posted,
}

/// One history of a mode.
pub fn history_of(mode: usize, random: &mut Random) -> History {
    let mut writer = Writer {
        random,
        events: Vec::new(),
        posted: Posted::default(),
    };
    (MODES[mode].write)(&mut writer);
    let Writer { events, posted, .. } = writer;
    let (posted, with_calendar) = match posted.calendar {
        Some(_) => (post_all(&events), posted),
        None => {
            let calendar = calendars::around(&events, random);
            (posted, post_all_by(Some(&calendar), &events))
        }
    };
    History {
        mode,
        events,
        posted,
        with_calendar,
    }
}

/// One history of any mode.
pub fn history(random: &mut Random) -> History {
    let mode = random.below(MODES.len() as u64) as usize;
    history_of(mode, random)
}
