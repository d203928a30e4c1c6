//! The calendar that an account may be begun with: which days lie in it, and which of them are working days.
pub use tools::core::Calendar;

/// It has so many days, from its first one on.
pub const DAYS: u64 = 2_048;

/// Whether a day lies in it. Its days are whole numbers: past the last day that a number can have, none comes round to 0.
pub fn holds(calendar: &Calendar, day: u32) -> bool {
    let (first, day) = (u64::from(calendar.first), u64::from(day));
    first <= day && day < first + DAYS
}

/// Its days in order, each with whether it is a working day: the lowest bit of the first word is the first of them.
fn days(calendar: &Calendar) -> impl Iterator<Item = (u64, bool)> + '_ {
    let words = calendar.bits.iter();
    let bits = words.flat_map(|word| (0..64).map(move |bit| word >> bit & 1 == 1));
    (u64::from(calendar.first)..).zip(bits)
}

/// The working days among after + 1 to `to`; a day outside the calendar is none.
pub fn working_days(calendar: &Calendar, after: u32, to: u32) -> u64 {
    let (after, to) = (u64::from(after), u64::from(to));
    let among = |&(day, working): &(u64, bool)| working && after < day && day <= to;
    days(calendar).filter(among).count() as u64
}
