//! Payment arrangements.
use super::kind::*;
use super::money::Money;
use super::receipts;
use tools::event::Event;

/// The last arrangement of a list: earlier ones are replaced for good.
#[derive(Clone, Copy, Debug)]
pub struct Arrangement {
    /// Which accepted event it is, counted from 0.
    pub event: usize,
    pub day: u32,
    pub parts: i64,
    pub debt: i64,
}

impl Arrangement {
    pub fn last(accepted: &[Event], money: &Money) -> Option<Arrangement> {
        let event = accepted.iter().rposition(|e| e.kind == ARRANGEMENT)?;
        let Event { day, option, .. } = accepted[event];
        Some(Arrangement {
            event,
            day,
            parts: i64::from(option),
            debt: money.arrears_after(event, day),
        })
    }

    /// The first day on which it no longer stands, whatever is paid.
    pub fn end(&self) -> i64 {
        i64::from(self.day) + 30 * self.parts
    }

    /// What must be paid by a day.
    pub fn due(&self, day: u32) -> i64 {
        let part = (self.debt + self.parts - 1) / self.parts;
        let parts_due = (i64::from(day) - i64::from(self.day)).div_euclid(30);
        self.debt.min(part * parts_due)
    }

    /// Payments less returned payments posted after it.
    pub fn paid(&self, accepted: &[Event]) -> i64 {
        let mut paid = 0;
        for &event in &accepted[self.event + 1..] {
            match event.kind {
                PAYMENT => paid += event.amount as i64,
                RETURNED => paid -= receipts::named(accepted, event).unwrap_or(0),
                _ => {}
            }
        }
        paid
    }
}

pub fn stands(accepted: &[Event], money: &Money, day: u32) -> bool {
    Arrangement::last(accepted, money).is_some_and(|arrangement| {
        i64::from(day) < arrangement.end() && arrangement.paid(accepted) >= arrangement.due(day)
    })
}
