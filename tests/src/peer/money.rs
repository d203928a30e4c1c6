//! Charges, credits, what is owed and what of it is in arrears.
use super::kind::*;
use super::{deposit, receipts};
use tools::event::Event;

/// An item is delinquent this many days after its own.
pub const DELINQUENT_AFTER: i64 = 20;

/// A charge, with the sum of all items up to it.
#[derive(Clone, Copy, Debug)]
pub struct Item {
    /// Which accepted event made it, counted from 0.
    pub event: usize,
    pub day: u32,
    pub amount: i64,
    pub total: i64,
}

/// All items of a list, and its credits after each of its events.
pub struct Money {
    pub items: Vec<Item>,
    /// Payments and deposits moved, less payouts, after the first 0, 1, 2 .. events.
    pub credits: Vec<i64>,
}

impl Money {
    pub fn of(accepted: &[Event]) -> Money {
        // Made for every event that is asked about: with room from the start, most of the time is not for moving them.
        let mut items: Vec<Item> = Vec::with_capacity(accepted.len());
        let mut credits = Vec::with_capacity(accepted.len() + 1);
        credits.push(0);
        let mut total = 0;
        for (at, &event) in accepted.iter().enumerate() {
            let before = &accepted[..at];
            if let Some(amount) = charge(before, total - credits[at], event) {
                total += amount;
                items.push(Item {
                    event: at,
                    day: event.day,
                    amount,
                    total,
                });
            }
            credits.push(credits[at] + credit(before, event));
        }
        Money { items, credits }
    }

    pub fn charged(&self) -> i64 {
        self.items.iter().map(|item| item.amount).sum()
    }

    pub fn owed(&self) -> i64 {
        self.owed_after(self.credits.len() - 1)
    }

    /// What was owed after the first `after` events.
    pub fn owed_after(&self, after: usize) -> i64 {
        let items = self.items.iter().filter(|item| item.event < after);
        items.map(|item| item.amount).sum::<i64>() - self.credits[after]
    }

    /// What of an item is unpaid after the first `after` events: credits pay the oldest first.
    pub fn unpaid(&self, item: &Item, after: usize) -> i64 {
        item.amount.min((item.total - self.credits[after]).max(0))
    }

    /// Day and unpaid part of the open items, in the order posted.
    pub fn open_items(&self) -> Vec<(u32, i64)> {
        self.open_items_after(self.credits.len() - 1)
    }

    /// The same after the first `after` events.
    pub fn open_items_after(&self, after: usize) -> Vec<(u32, i64)> {
        self.items
            .iter()
            .filter(|item| item.event < after)
            .map(|item| (item.day, self.unpaid(item, after)))
            .filter(|&(_, unpaid)| unpaid > 0)
            .collect()
    }

    /// The arrears on a day after the first `after` events.
    pub fn arrears_after(&self, after: usize, day: u32) -> i64 {
        self.items
            .iter()
            .filter(|item| item.event < after)
            .filter(|item| i64::from(item.day) + DELINQUENT_AFTER <= i64::from(day))
            .map(|item| self.unpaid(item, after))
            .sum()
    }

    /// The arrears on a day after the whole list.
    pub fn arrears(&self, day: u32) -> i64 {
        self.arrears_after(self.credits.len() - 1, day)
    }
}

/// The fees by number.
pub fn fee(number: u8) -> i64 {
    match number {
        1 => 7_500,
        2 => 15_000,
        3 => 3_000,
        4 => 1_500,
        5 => 2_500,
        6 => 2_000,
        7 => 7_500,
        _ => 0,
    }
}

/// The amount of the item that an event makes, if its kind makes one.
pub fn charge(before: &[Event], owed: i64, event: Event) -> Option<i64> {
    match event.kind {
        BILL => Some(event.amount as i64 + late_charge(owed)),
        RETURNED => Some(receipts::named(before, event).unwrap_or(0) + fee(5)),
        FEE => Some(fee(event.option)),
        NOTICE => Some(fee(4)),
        RECONNECTION => Some(fee(6 + event.option)),
        _ => None,
    }
}

/// By document 01's one division. Document 02 works it in three steps, by which every account shows the same
/// cents: each comparison with the core tests that too.
pub fn late_charge(owed: i64) -> i64 {
    if owed > 0 {
        3 * owed / 400
    } else {
        0
    }
}

/// What an event adds to the credits; a payout takes from them.
fn credit(before: &[Event], event: Event) -> i64 {
    match event.kind {
        PAYOUT => -(event.amount as i64),
        _ => received(before, event),
    }
}

/// What an event adds to payments plus deposits moved.
pub fn received(before: &[Event], event: Event) -> i64 {
    match event.kind {
        PAYMENT => event.amount as i64,
        DEPOSIT_MOVED | CLOSE => deposit::held(before),
        _ => 0,
    }
}

/// Payments plus deposits moved of a whole list.
pub fn received_in_all(accepted: &[Event]) -> i64 {
    (0..accepted.len())
        .map(|at| received(&accepted[..at], accepted[at]))
        .sum()
}
