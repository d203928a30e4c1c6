//! The bill of a reading, worked out by the library from a class and its kilowatt-hours; and the reading that a sum pays for.
use super::account::told;

extern "C" {
    fn hollupaq_bill(class: u8, usage: u64) -> u64;
    fn hollupaq_bill_used(class: u8, usage: u64, index: usize) -> u64;
    fn hollupaq_bill_price(class: u8, usage: u64, index: usize) -> u64;
    fn hollupaq_reading(class: u8, sum: u64) -> u64;
}

/// What `hollupaq_reading` answers where a sum pays for nothing, as include/hollupaq.h has it.
pub const TOO_LITTLE: u64 = 0;

/// A line of a bill: what of the usage lies in one block of the class's schedule.
#[derive(Clone, Copy, Debug, PartialEq, Eq)]
pub struct Line {
    /// In kilowatt-hours.
    pub used: u64,
    /// Of each of them, in hundredths of a cent.
    pub price: u64,
}

/// The cents of the bill, or the number that refuses the class or the usage.
#[inline]
pub fn bill(class: u8, usage: u64) -> Result<u64, u8> {
    // SAFETY: it takes two numbers, whatever they are.
    told(unsafe { hollupaq_bill(class, usage) })
}

/// Line `index` of the bill, counted from 0; of no kilowatt-hours past the last, and where the bill is refused.
pub fn line(class: u8, usage: u64, index: usize) -> Line {
    // SAFETY: both take three numbers, whatever they are.
    let (used, price) = unsafe {
        (
            hollupaq_bill_used(class, usage, index),
            hollupaq_bill_price(class, usage, index),
        )
    };
    Line { used, price }
}

/// The lines that have kilowatt-hours. They fill up in their order, so that the first without is the end.
pub fn lines(class: u8, usage: u64) -> impl Iterator<Item = Line> {
    let lines = (0..).map(move |index| line(class, usage, index));
    lines.take_while(|line| line.used > 0)
}

/// The largest usage whose bill is at most the sum, in cents; none where even usage 0 costs more; or the number that refuses the
/// class.
pub fn reading(class: u8, sum: u64) -> Result<Option<u64>, u8> {
    // SAFETY: it takes two numbers, whatever they are.
    match unsafe { hollupaq_reading(class, sum) } {
        TOO_LITTLE => Ok(None),
        answer => told(answer).map(Some),
    }
}
