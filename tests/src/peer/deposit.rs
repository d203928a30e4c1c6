//! The deposit: held, required, full, earned.
use super::dates::year_later;
use super::kind::*;
use tools::event::Event;

/// The events after the last deposit moved: what came before no longer concerns the deposit.
pub fn since_moved(accepted: &[Event]) -> &[Event] {
    let moved = |e: &Event| e.kind == DEPOSIT_MOVED || e.kind == CLOSE;
    let first = accepted.iter().rposition(moved).map_or(0, |at| at + 1);
    &accepted[first..]
}

pub fn held(accepted: &[Event]) -> i64 {
    let events = since_moved(accepted).iter();
    events
        .filter(|e| e.kind == DEPOSIT_PAID)
        .map(|e| e.amount as i64)
        .sum()
}

pub fn required(accepted: &[Event]) -> i64 {
    let mut events = since_moved(accepted).iter();
    events
        .rfind(|e| e.kind == DEPOSIT_ASKED)
        .map_or(0, |e| e.amount as i64)
}

/// The day on which held and required became equal, if they are. A sum asked is never equal to the held, so a deposit
/// paid made them so.
pub fn full_since(accepted: &[Event]) -> Option<u32> {
    let mut events = since_moved(accepted).iter();
    let last = events.rfind(|e| e.kind == DEPOSIT_ASKED || e.kind == DEPOSIT_PAID)?;
    let full = last.kind == DEPOSIT_PAID && held(accepted) == required(accepted);
    full.then_some(last.day)
}

/// How many events of a kind lie in the 365 days that end with a day.
pub fn in_365_days(accepted: &[Event], kind: u8, day: u32) -> usize {
    let first = i64::from(day) - 364;
    let of_kind = accepted.iter().filter(|e| e.kind == kind);
    of_kind
        .filter(|e| first <= i64::from(e.day) && e.day <= day)
        .count()
}

/// Whether the deposit is full and the same date has come one year later. Where that lies after the last day, it never does.
pub fn full_for_a_year(accepted: &[Event], day: u32) -> bool {
    match full_since(accepted).and_then(year_later) {
        Some(from) => from <= day,
        None => false,
    }
}

pub fn earned(accepted: &[Event], day: u32) -> bool {
    full_for_a_year(accepted, day)
        && in_365_days(accepted, NOTICE, day) <= 2
        && in_365_days(accepted, CUT, day) == 0
}
