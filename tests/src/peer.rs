//! The rules of an account a second time, over the list of its accepted events.
//!
//! Nothing is carried from event to event: every question is worked out afresh from the list, and from the calendar where
//! the account was begun with one. That is slow and plain, and it shares no idea with the core, which keeps a bounded account
//! and steps it.

pub mod arrangement;
pub mod book;
pub mod calendar;
pub mod collection;
pub mod dates;
pub mod days;
pub mod deposit;
pub mod medical;
pub mod money;
pub mod receipts;
pub mod rows;
pub mod tariff;
#[cfg(test)]
mod tests;
pub mod writer;

pub use book::{report, standing};
pub use rows::refusal;

use calendar::Calendar;
use collection::Service;
use money::Money;
use tools::event::Event;

/// The last day, 31 December 2199.
pub const LAST_DAY: u32 = 73_048;

/// Kinds by name, where a rule speaks of one.
pub mod kind {
    pub const BILL: u8 = 1;
    pub const PAYMENT: u8 = 2;
    pub const RETURNED: u8 = 3;
    pub const FEE: u8 = 4;
    pub const DEPOSIT_ASKED: u8 = 5;
    pub const DEPOSIT_PAID: u8 = 6;
    pub const DEPOSIT_MOVED: u8 = 7;
    pub const PAYOUT: u8 = 8;
    pub const CERTIFICATE: u8 = 9;
    pub const APPROVAL: u8 = 10;
    pub const ARRANGEMENT: u8 = 11;
    pub const NOTICE: u8 = 12;
    pub const CALL: u8 = 13;
    pub const CUT: u8 = 14;
    pub const RECONNECTION: u8 = 15;
    pub const CLOSE: u8 = 16;
}

/// A list after its posting.
#[derive(Clone, Debug, Default)]
pub struct Posted {
    /// What the account was begun with; that of a book has none.
    pub calendar: Option<Calendar>,
    pub accepted: Vec<Event>,
    /// 0 for an accepted event, else the number that refused it; one for each event of the list.
    pub answers: Vec<u8>,
}

impl Posted {
    /// Before any event.
    pub fn begun(calendar: Option<Calendar>) -> Posted {
        Posted {
            calendar,
            ..Posted::default()
        }
    }

    /// Posts one more event and says its answer.
    pub fn post(&mut self, event: Event) -> u8 {
        let answer = refusal(self.calendar.as_ref(), &self.accepted, event);
        if answer == 0 {
            self.accepted.push(event);
        }
        self.answers.push(answer);
        answer
    }

    pub fn refused(&self) -> usize {
        self.answers.iter().filter(|&&answer| answer != 0).count()
    }
}

/// Posts a list, from a fresh account on.
pub fn post_all(events: &[Event]) -> Posted {
    post_all_by(None, events)
}

/// The same from an account on that is begun with a calendar, or without.
pub fn post_all_by(calendar: Option<&Calendar>, events: &[Event]) -> Posted {
    let mut posted = Posted::begun(calendar.cloned());
    for &event in events {
        posted.post(event);
    }
    posted
}

/// What `standing` prints of an account.
#[derive(Clone, Copy, Debug, PartialEq, Eq)]
pub struct Standing {
    pub owed: i64,
    pub held: i64,
    pub open: usize,
    pub service: Service,
    pub refused: usize,
}

pub fn standing_of(events: &[Event]) -> Standing {
    let posted = post_all(events);
    let accepted = &posted.accepted;
    let money = Money::of(accepted);
    Standing {
        owed: money.owed(),
        held: deposit::held(accepted),
        open: money.open_items().len(),
        service: collection::service(accepted),
        refused: posted.refused(),
    }
}
