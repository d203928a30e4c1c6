//! Events by name, and calendars by their days, for histories that are written out.
use crate::peer::kind::*;
use tools::core::Calendar;
use tools::event::Event;

pub fn bill(day: u32, amount: u64) -> Event {
    Event::new(BILL, 0, day, amount)
}

/// At till 0.
pub fn payment(day: u32, amount: u64) -> Event {
    payment_at(0, day, amount)
}

pub fn payment_at(till: u8, day: u32, amount: u64) -> Event {
    Event::new(PAYMENT, till, day, amount)
}

/// At till 0.
pub fn returned(day: u32, receipt: u64) -> Event {
    returned_at(0, day, receipt)
}

pub fn returned_at(till: u8, day: u32, receipt: u64) -> Event {
    Event::new(RETURNED, till, day, receipt)
}

pub fn fee(day: u32, number: u8) -> Event {
    Event::new(FEE, number, day, 0)
}

pub fn deposit_asked(day: u32, amount: u64) -> Event {
    Event::new(DEPOSIT_ASKED, 0, day, amount)
}

pub fn deposit_paid(day: u32, amount: u64) -> Event {
    Event::new(DEPOSIT_PAID, 0, day, amount)
}

pub fn deposit_moved(day: u32) -> Event {
    Event::new(DEPOSIT_MOVED, 0, day, 0)
}

pub fn payout(day: u32, amount: u64) -> Event {
    Event::new(PAYOUT, 0, day, amount)
}

pub fn certificate(day: u32, days: u64) -> Event {
    Event::new(CERTIFICATE, 0, day, days)
}

pub fn approval(day: u32, days: u64) -> Event {
    Event::new(APPROVAL, 0, day, days)
}

pub fn arrangement(day: u32, parts: u8) -> Event {
    Event::new(ARRANGEMENT, parts, day, 0)
}

pub fn notice(day: u32) -> Event {
    Event::new(NOTICE, 0, day, 0)
}

pub fn call(day: u32) -> Event {
    Event::new(CALL, 0, day, 0)
}

pub fn cut(day: u32) -> Event {
    Event::new(CUT, 0, day, 0)
}

pub fn reconnection(day: u32, option: u8) -> Event {
    Event::new(RECONNECTION, option, day, 0)
}

pub fn close(day: u32) -> Event {
    Event::new(CLOSE, 0, day, 0)
}

/// The calendar from a first day on in which these days are working days, counted from 0 for the first.
pub fn calendar(first: u32, is_working: impl Fn(u32) -> bool) -> Calendar {
    let word = |word: usize| {
        let set = (0..64).filter(|bit| is_working(64 * word as u32 + bit));
        set.fold(0, |bits, bit| bits | 1 << bit)
    };
    let bits = std::array::from_fn(word);
    Calendar { first, bits }
}
