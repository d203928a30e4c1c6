//! The book file, and the text that `standing` prints of it.
use super::{standing_of, Standing};
use std::fmt::Write;
use tools::event::Event;

/// The longest file that the program reads.
pub const LONGEST_FILE: usize = 65_536;

/// What the program prints for a file.
pub fn standing(file: &[u8]) -> Vec<u8> {
    if file.len() > LONGEST_FILE {
        refused(20)
    } else {
        report(file)
    }
}

/// The standing of the accounts of a book, or the number that refuses it.
pub fn report(book: &[u8]) -> Vec<u8> {
    match accounts(book) {
        Ok(accounts) => lines(&accounts),
        Err(number) => refused(number),
    }
}

fn refused(number: u8) -> Vec<u8> {
    format!("book refused {number}\n").into_bytes()
}

fn lines(accounts: &[Vec<Event>]) -> Vec<u8> {
    let mut text = String::from("account owed held open service refused\n");
    for (index, events) in accounts.iter().enumerate() {
        let Standing {
            owed,
            held,
            open,
            service,
            refused,
        } = standing_of(events);
        writeln!(text, "{index} {owed} {held} {open} {service} {refused}").unwrap();
    }
    text.into_bytes()
}

/// The events of each account, or the number that refuses the book: header, offsets and length first, then the records.
pub fn accounts(book: &[u8]) -> Result<Vec<Vec<Event>>, u8> {
    let counts = counts(book).ok_or(20)?;
    let mut records = book[8 + 8 * counts.len()..].chunks_exact(16);
    let mut accounts = Vec::new();
    for count in counts {
        let events: Option<Vec<Event>> = records.by_ref().take(count).map(event).collect();
        accounts.push(events.ok_or(21)?);
    }
    Ok(accounts)
}

/// How many records each account has, where header, offsets and length are as they should be.
fn counts(book: &[u8]) -> Option<Vec<usize>> {
    let accounts = word(book, 0)?;
    let records = word(book, 4)?;
    let length = 8 + 8 * accounts + 16 * records;
    if accounts > 1_024 || length > 4_294_967_295 || book.len() as u64 != length {
        return None;
    }
    let mut counts = Vec::new();
    let mut next = 8 + 8 * accounts;
    for account in 0..accounts as usize {
        let offset = word(book, 8 + 8 * account)?;
        let count = word(book, 12 + 8 * account)?;
        if offset != next {
            return None;
        }
        next += 16 * count;
        counts.push(count as usize);
    }
    // Offsets without gaps that end with the file: the counts sum to the records.
    (next == length).then_some(counts)
}

fn word(book: &[u8], at: usize) -> Option<u64> {
    let bytes = book.get(at..at + 4)?;
    Some(u64::from(u32::from_le_bytes(bytes.try_into().ok()?)))
}

/// The event of a record, if its kind is one of the sixteen and its spare bytes are 0.
fn event(record: &[u8]) -> Option<Event> {
    let well_made = (1..=16).contains(&record[0]) && record[2] == 0 && record[3] == 0;
    well_made.then(|| Event {
        kind: record[0],
        option: record[1],
        day: u32::from_le_bytes([record[4], record[5], record[6], record[7]]),
        amount: (8..16)
            .rev()
            .fold(0, |sum, at| sum * 256 + u64::from(record[at])),
    })
}
