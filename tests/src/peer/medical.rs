//! Medical certificates and the superintendent's approvals.
use super::kind::*;
use tools::event::Event;

/// Whether a day lies in the n days that an event's amount gives it, its own day being the first.
fn covers(event: &Event, day: u32) -> bool {
    let first = u64::from(event.day);
    let day = u64::from(day);
    first <= day && day < first + event.amount
}

pub fn certified(accepted: &[Event], day: u32) -> bool {
    accepted
        .iter()
        .any(|e| e.kind == CERTIFICATE && covers(e, day))
}

/// Whether an approval posted after the last certificate covers the day.
pub fn approved(accepted: &[Event], day: u32) -> bool {
    let last = accepted.iter().rposition(|e| e.kind == CERTIFICATE);
    let after = &accepted[last.map_or(0, |at| at + 1)..];
    after.iter().any(|e| e.kind == APPROVAL && covers(e, day))
}
