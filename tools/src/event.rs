//! One event of an account, as a record of a book holds it.

#[derive(Clone, Copy, Debug, PartialEq, Eq, Default)]
pub struct Event {
    pub kind: u8,
    pub option: u8,
    pub day: u32,
    pub amount: u64,
}

impl Event {
    pub fn new(kind: u8, option: u8, day: u32, amount: u64) -> Event {
        Event {
            kind,
            option,
            day,
            amount,
        }
    }

    /// An event with option 0: it names none, or till 0.
    pub fn of(kind: u8, day: u32, amount: u64) -> Event {
        Event::new(kind, 0, day, amount)
    }
}

/// The records of each account in turn, before any posting.
pub type AccountList = Vec<Vec<Event>>;
