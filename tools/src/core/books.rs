//! The library's functions on books: their test, the account list of a book, and the book of an account list. No byte of a
//! book is read or made here.
use super::lent::ACCEPTED;
use crate::columns::Columns;
use crate::event::{AccountList, Event};

extern "C" {
    // A slice of the core passes as its pointer and its length.
    fn hollupaq_book_accounts(book: *const u8, book_len: usize) -> u64;
    fn hollupaq_book_records(book: *const u8, book_len: usize) -> u64;
    fn hollupaq_book_read(
        book: *const u8,
        book_len: usize,
        counts: *mut u32,
        counts_len: usize,
        kinds: *mut u8,
        kinds_len: usize,
        options: *mut u8,
        options_len: usize,
        days: *mut u32,
        days_len: usize,
        amounts: *mut u64,
        amounts_len: usize,
    ) -> u8;
    fn hollupaq_book_write(
        counts: *const u32,
        counts_len: usize,
        kinds: *const u8,
        kinds_len: usize,
        options: *const u8,
        options_len: usize,
        days: *const u32,
        days_len: usize,
        amounts: *const u64,
        amounts_len: usize,
        out: *mut u8,
        out_len: usize,
    ) -> u64;
}

// SAFETY of every call here: the slices are valid for their lengths while the call lasts, whatever is in them. Those that
// are written to are borrowed for that alone, so that none overlaps another, and the core keeps no pointer.

/// How long a book of so many accounts and records is.
pub fn room(accounts: usize, records: usize) -> usize {
    8 + 8 * accounts + 16 * records
}

/// The value in an answer, or the number that refuses.
fn told(answer: u64) -> Result<usize, u8> {
    match answer.checked_sub(ACCEPTED) {
        Some(value) => Ok(value as usize),
        None => Err(answer as u8),
    }
}

/// How many accounts a book has, or the number that refuses it.
pub fn accounts(book: &[u8]) -> Result<usize, u8> {
    told(unsafe { hollupaq_book_accounts(book.as_ptr(), book.len()) })
}

/// How many records the accounts of a book have together, or the number that refuses it.
pub fn records(book: &[u8]) -> Result<usize, u8> {
    told(unsafe { hollupaq_book_records(book.as_ptr(), book.len()) })
}

/// Reads the account list of a book into lent memory, which keeps its tails. Where the book is refused or one of the columns
/// too short, the number comes back and nothing is written.
pub fn read_into(book: &[u8], memory: &mut Columns) -> Result<(), u8> {
    let number = unsafe {
        hollupaq_book_read(
            book.as_ptr(),
            book.len(),
            memory.counts.as_mut_ptr(),
            memory.counts.len(),
            memory.kinds.as_mut_ptr(),
            memory.kinds.len(),
            memory.options.as_mut_ptr(),
            memory.options.len(),
            memory.days.as_mut_ptr(),
            memory.days.len(),
            memory.amounts.as_mut_ptr(),
            memory.amounts.len(),
        )
    };
    match number {
        0 => Ok(()),
        number => Err(number),
    }
}

/// Writes the book of an account list into `out`, which keeps its tail, and says how long the book is. Where the list can't
/// be written or `out` is too short, the number comes back and nothing is written.
pub fn write_into(list: &Columns, out: &mut [u8]) -> Result<usize, u8> {
    told(unsafe {
        hollupaq_book_write(
            list.counts.as_ptr(),
            list.counts.len(),
            list.kinds.as_ptr(),
            list.kinds.len(),
            list.options.as_ptr(),
            list.options.len(),
            list.days.as_ptr(),
            list.days.len(),
            list.amounts.as_ptr(),
            list.amounts.len(),
            out.as_mut_ptr(),
            out.len(),
        )
    })
}

/// The account list of a book in columns, or the number that refuses it.
pub fn read_columns(book: &[u8]) -> Result<Columns, u8> {
    let mut memory = Columns::for_list(accounts(book)?, records(book)?);
    read_into(book, &mut memory)?;
    Ok(memory)
}

/// The account list of a book, or the number that refuses it.
pub fn read(book: &[u8]) -> Result<AccountList, u8> {
    read_columns(book).map(|columns| columns.list())
}

/// The book of an account list, or the number that refuses to write it.
pub fn write(list: &[Vec<Event>]) -> Result<Vec<u8>, u8> {
    let columns = Columns::of(list);
    let mut book = vec![0; room(list.len(), columns.kinds.len())];
    write_into(&columns, &mut book)?;
    Ok(book)
}
