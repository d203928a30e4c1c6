//! The questions for a day, worked out afresh from the accepted events.
use super::arrangement::stands;
use super::collection::live_notice;
use super::medical::certified;
use super::money::Money;
use super::LAST_DAY;
use tools::event::Event;

/// What is told for a day.
#[derive(Clone, Copy, Debug, PartialEq, Eq)]
pub struct Told {
    /// In cents.
    pub arrears: i64,
    pub in_force: bool,
    pub notice_live: bool,
    pub certified: bool,
}

/// The number that refuses a day, of an event or of a question: past the last one, or before the last accepted event.
pub fn refusal(accepted: &[Event], day: u32) -> Option<u8> {
    let last = accepted.last().map_or(0, |event| event.day);
    match day {
        _ if day > LAST_DAY => Some(1),
        _ if day < last => Some(2),
        _ => None,
    }
}

/// What the first `after` events say of a day, or the number that refuses it. The money is that of the whole list.
pub fn told(accepted: &[Event], money: &Money, after: usize, day: u32) -> Result<Told, u8> {
    let accepted = &accepted[..after];
    match refusal(accepted, day) {
        Some(number) => Err(number),
        None => Ok(Told {
            arrears: money.arrears_after(after, day),
            in_force: stands(accepted, money, day),
            notice_live: live_notice(accepted, money, day).is_some(),
            certified: certified(accepted, day),
        }),
    }
}
