//! The library's functions on accounts in lent memory, in numbers as the library says them. Any words of any length may
//! be lent: what is no account is refused with 0 and left alone, and asked for anything it tells 0, of service 2.
use crate::event::Event;

/// How many words of 64 bits an account takes. include/hollupaq.h has the same number.
pub const WORDS: usize = 274;

/// The number of the layout, with which an account begins.
pub const LAYOUT: u64 = 1_000_005;

/// The words of a calendar's bits, and its days.
pub const CALENDAR_WORDS: usize = 32;
pub const CALENDAR_DAYS: u32 = 2_048;

/// An answer from here on is an acceptance, and what is above it the receipt of a payment, or what is told for a day. One below
/// is a refusal.
pub const ACCEPTED: u64 = 256;

extern "C" {
    // A slice of the core passes as its pointer and its length.
    fn hollupaq_words() -> u64;
    fn hollupaq_fresh(account: *mut u64, words: usize) -> u8;
    fn hollupaq_begin(
        account: *mut u64,
        words: usize,
        first: u32,
        bits: *const u64,
        bits_len: usize,
    ) -> u8;
    fn hollupaq_ok(account: *const u64, words: usize) -> u8;
    fn hollupaq_post(
        account: *mut u64,
        words: usize,
        kind: u8,
        option: u8,
        day: u32,
        amount: u64,
    ) -> u64;
    fn hollupaq_would_answer(
        account: *const u64,
        words: usize,
        kind: u8,
        option: u8,
        day: u32,
        amount: u64,
    ) -> u64;
    fn hollupaq_post_at(
        accounts: *mut u64,
        words: usize,
        index: usize,
        kind: u8,
        option: u8,
        day: u32,
        amount: u64,
    ) -> u64;
    fn hollupaq_owed(account: *const u64, words: usize) -> i64;
    fn hollupaq_held(account: *const u64, words: usize) -> u64;
    fn hollupaq_required(account: *const u64, words: usize) -> u64;
    fn hollupaq_service(account: *const u64, words: usize) -> u32;
    fn hollupaq_open_count(account: *const u64, words: usize) -> u64;
    fn hollupaq_open_day(account: *const u64, words: usize, index: usize) -> u64;
    fn hollupaq_open_unpaid(account: *const u64, words: usize, index: usize) -> u64;
    fn hollupaq_arrears(account: *const u64, words: usize, day: u32) -> u64;
    fn hollupaq_in_force(account: *const u64, words: usize, day: u32) -> u64;
    fn hollupaq_notice_live(account: *const u64, words: usize, day: u32) -> u64;
    fn hollupaq_certified(account: *const u64, words: usize, day: u32) -> u64;
    fn hollupaq_working_days(account: *const u64, words: usize, after: u32, to: u32) -> u64;
}

// SAFETY of every call here: the slice is valid for its length while the call lasts, whatever its words are. Nobody else
// reads it while it is written to, since it is borrowed for that alone, and the core keeps no pointer to it.

/// How many words an account of the library takes: [`WORDS`] where both belong together.
pub fn words() -> u64 {
    unsafe { hollupaq_words() }
}

/// Makes the memory an account without events: 1, or 0 where its length is not that of an account.
pub fn fresh(account: &mut [u64]) -> u8 {
    unsafe { hollupaq_fresh(account.as_mut_ptr(), account.len()) }
}

/// Makes the memory an account without events that has a calendar, from a first day on a bit for each day, lowest bit first: 1,
/// or 0 where its length is not that of an account, or that of the bits not that of a calendar.
pub fn begin(account: &mut [u64], first: u32, bits: &[u64]) -> u8 {
    let (at, words) = (account.as_mut_ptr(), account.len());
    unsafe { hollupaq_begin(at, words, first, bits.as_ptr(), bits.len()) }
}

/// Whether the memory is an account, 1 or 0.
pub fn ok(account: &[u64]) -> u8 {
    unsafe { hollupaq_ok(account.as_ptr(), account.len()) }
}

/// Posts one event, of any kind and any numbers. A refused event leaves the memory as it was.
#[inline]
pub fn post(account: &mut [u64], e: Event) -> u64 {
    let (at, words) = (account.as_mut_ptr(), account.len());
    unsafe { hollupaq_post(at, words, e.kind, e.option, e.day, e.amount) }
}

/// What [`post`] would answer, with the memory left alone.
pub fn would_answer(account: &[u64], e: Event) -> u64 {
    let (at, words) = (account.as_ptr(), account.len());
    unsafe { hollupaq_would_answer(at, words, e.kind, e.option, e.day, e.amount) }
}

/// Posting on one of many accounts that lie one after another, counted from 0: 0 where there is none.
#[inline]
pub fn post_at(accounts: &mut [u64], index: usize, e: Event) -> u64 {
    let (at, words) = (accounts.as_mut_ptr(), accounts.len());
    unsafe { hollupaq_post_at(at, words, index, e.kind, e.option, e.day, e.amount) }
}

/// What is owed in cents, negative where there is credit.
#[inline]
pub fn owed(account: &[u64]) -> i64 {
    unsafe { hollupaq_owed(account.as_ptr(), account.len()) }
}

/// The deposit held, in cents.
pub fn held(account: &[u64]) -> u64 {
    unsafe { hollupaq_held(account.as_ptr(), account.len()) }
}

/// The deposit required, in cents.
pub fn required(account: &[u64]) -> u64 {
    unsafe { hollupaq_required(account.as_ptr(), account.len()) }
}

/// 0 on, 1 off, 2 closed.
pub fn service(account: &[u64]) -> u32 {
    unsafe { hollupaq_service(account.as_ptr(), account.len()) }
}

/// How many charges are not paid in full.
pub fn open_count(account: &[u64]) -> u64 {
    unsafe { hollupaq_open_count(account.as_ptr(), account.len()) }
}

/// The day of an open item, counted from 0 in the order posted; 0 past the last one.
pub fn open_day(account: &[u64], index: usize) -> u64 {
    unsafe { hollupaq_open_day(account.as_ptr(), account.len(), index) }
}

/// What of it is unpaid, in cents; 0 past the last one.
pub fn open_unpaid(account: &[u64], index: usize) -> u64 {
    unsafe { hollupaq_open_unpaid(account.as_ptr(), account.len(), index) }
}

// For a day: [`ACCEPTED`] and the cents, or 1 for yes and 0 for no; below it the number that refuses the day, as it would an
// event's.

/// The arrears on a day, in cents.
pub fn arrears(account: &[u64], day: u32) -> u64 {
    unsafe { hollupaq_arrears(account.as_ptr(), account.len(), day) }
}

/// Whether a payment arrangement is in force on a day.
pub fn in_force(account: &[u64], day: u32) -> u64 {
    unsafe { hollupaq_in_force(account.as_ptr(), account.len(), day) }
}

/// Whether a final notice is live on a day.
pub fn notice_live(account: &[u64], day: u32) -> u64 {
    unsafe { hollupaq_notice_live(account.as_ptr(), account.len(), day) }
}

/// Whether a medical certificate is live on a day.
pub fn certified(account: &[u64], day: u32) -> u64 {
    unsafe { hollupaq_certified(account.as_ptr(), account.len(), day) }
}

/// The working days of the account's calendar after one day and up to another, which is counted: [`ACCEPTED`] and their count, or 0
/// where the account has no calendar.
pub fn working_days(account: &[u64], after: u32, to: u32) -> u64 {
    unsafe { hollupaq_working_days(account.as_ptr(), account.len(), after, to) }
}
