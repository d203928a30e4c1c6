//! The proved core, called through its static library (`tools/library`).
mod account;
pub mod bills;
pub mod books;
pub mod lent;

pub use account::{Account, Accounts, Answer, Calendar, OpenItem};

extern "C" {
    // A slice of the core passes as its pointer and its length.
    fn hollupaq_version() -> u64;
    fn hollupaq_report(book: *const u8, book_len: usize, out: *mut u8, out_len: usize) -> u64;
    fn hollupaq_history(
        book: *const u8,
        book_len: usize,
        account: usize,
        numbers: *mut u8,
        numbers_len: usize,
        owed: *mut i64,
        owed_len: usize,
    ) -> u8;
}

/// The version that these declarations are of, as include/hollupaq.h has it.
pub const VERSION: u64 = 10_600;

/// The longest header line of a report, and the longest line of an account.
const REPORT_HEADER: usize = 39;
const REPORT_LINE: usize = 113;

/// The answer to one event, and what is owed after it.
#[derive(Clone, Copy, Debug, PartialEq, Eq)]
pub struct Reply {
    /// 0 for accepted, else the number that refused it.
    pub number: u8,
    /// In cents, negative where there is credit.
    pub owed: i64,
}

/// The version of the library: [`VERSION`] where both belong together.
pub fn version() -> u64 {
    // SAFETY: it takes nothing.
    unsafe { hollupaq_version() }
}

/// Writes the standing of a book's accounts into `out` and says how many bytes that took. Where `out` is too short for
/// the text, nothing is written and there is no answer.
pub fn report_into(book: &[u8], out: &mut [u8]) -> Option<usize> {
    // SAFETY: both slices are valid for their lengths while the call lasts, and the core keeps neither.
    let written =
        unsafe { hollupaq_report(book.as_ptr(), book.len(), out.as_mut_ptr(), out.len()) };
    (written != 0).then_some(written as usize)
}

/// The room that a book's report needs at most. The line of a refused book is shorter than the header.
pub fn report_room(book: &[u8]) -> usize {
    REPORT_HEADER + REPORT_LINE * books::accounts(book).unwrap_or(0)
}

/// The standing of a book's accounts, or the line that says why the book is refused.
pub fn report(book: &[u8]) -> Vec<u8> {
    let mut out = vec![0; report_room(book)];
    let written = report_into(book, &mut out).expect("the room is enough for any book");
    out.truncate(written);
    out
}

/// The answers to the events of one account, none where there is no such account; or the number that refuses the book.
pub fn history(book: &[u8], account: usize) -> Result<Vec<Reply>, u8> {
    let records = books::read_columns(book)?.counts.get(account).copied();
    let mut numbers = vec![0; records.unwrap_or(0) as usize];
    let mut owed = vec![0; numbers.len()];
    history_into(book, account, &mut numbers, &mut owed)?;
    let replies = numbers.into_iter().zip(owed);
    Ok(replies
        .map(|(number, owed)| Reply { number, owed })
        .collect())
}

/// The answers to the events of one account, and what is owed after each, into lent memory. Where the book is refused or
/// the memory too short, its number comes back and nothing is written.
pub fn history_into(
    book: &[u8],
    account: usize,
    numbers: &mut [u8],
    owed: &mut [i64],
) -> Result<(), u8> {
    // SAFETY: the three slices are valid for their lengths while the call lasts, and the core keeps none of them.
    let answer = unsafe {
        hollupaq_history(
            book.as_ptr(),
            book.len(),
            account,
            numbers.as_mut_ptr(),
            numbers.len(),
            owed.as_mut_ptr(),
            owed.len(),
        )
    };
    match answer {
        0 => Ok(()),
        number => Err(number),
    }
}
