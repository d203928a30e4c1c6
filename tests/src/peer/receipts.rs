//! Receipts: each till counts 1, 2, 3 .. over its own accepted payments.
use super::kind::*;
use tools::event::Event;

/// Till 0 to 4.
pub const TILLS: u8 = 5;

/// So many of the newest payments of each till are known.
pub const KNOWN: u64 = 16;

/// The payments of a till, in the order of their receipts.
fn of_till(accepted: &[Event], till: u8) -> impl Iterator<Item = &Event> {
    let there = move |e: &&Event| e.kind == PAYMENT && e.option == till;
    accepted.iter().filter(there)
}

pub fn payments(accepted: &[Event], till: u8) -> u64 {
    of_till(accepted, till).count() as u64
}

/// The payment of a receipt, known or not.
pub fn payment(accepted: &[Event], till: u8, receipt: u64) -> Option<i64> {
    let before = usize::try_from(receipt.checked_sub(1)?).ok()?;
    let mut payments = of_till(accepted, till);
    payments.nth(before).map(|e| e.amount as i64)
}

/// The payment that an event of kind 3 names by its till and receipt.
pub fn named(accepted: &[Event], event: Event) -> Option<i64> {
    payment(accepted, event.option, event.amount)
}

pub fn returned(accepted: &[Event], till: u8, receipt: u64) -> bool {
    accepted
        .iter()
        .any(|e| e.kind == RETURNED && e.option == till && e.amount == receipt)
}

/// Whether a payment may still be returned.
pub fn returnable(accepted: &[Event], till: u8, receipt: u64) -> bool {
    let newest = payments(accepted, till);
    let known = 1 <= receipt && receipt <= newest && newest - receipt < KNOWN;
    known && !returned(accepted, till, receipt)
}
