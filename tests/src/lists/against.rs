//! Each check: what speaks against the library, where anything does.
use super::faults::Faults;
use crate::peer;
use std::fmt::Debug;
use tools::columns::Columns;
use tools::core::books;
use tools::event::Event;

/// What lies in output before the library writes to it.
const FILL: u8 = 165;

/// The five columns of a list.
#[derive(Clone, Copy, Debug)]
pub enum Column {
    Counts,
    Kinds,
    Options,
    Days,
    Amounts,
}

pub const COLUMNS: [Column; 5] = [
    Column::Counts,
    Column::Kinds,
    Column::Options,
    Column::Days,
    Column::Amounts,
];

/// Whether memory can be too short for a column of a list.
pub fn has_elements(column: Column, list: &[Vec<Event>]) -> bool {
    match column {
        Column::Counts => !list.is_empty(),
        _ => list.iter().any(|events| !events.is_empty()),
    }
}

/// The list of a book that is in order.
fn list_of(book: &[u8]) -> Option<Columns> {
    let list = peer::book::accounts(book).ok()?;
    Some(Columns::of(&list))
}

/// Memory with something in every element.
fn memory(accounts: usize, records: usize) -> Columns {
    let mut memory = Columns::for_list(accounts, records);
    memory.counts.fill(0xa5a5_a5a5);
    memory.kinds.fill(FILL);
    memory.options.fill(FILL);
    memory.days.fill(0xa5a5_a5a5);
    memory.amounts.fill(0xa5a5_a5a5_a5a5_a5a5);
    memory
}

/// Takes some elements off the end of a column, at least one.
fn shorten(memory: &mut Columns, column: Column, turn: usize) {
    let left = |length: usize| length - 1 - turn % length;
    match column {
        Column::Counts => memory.counts.truncate(left(memory.counts.len())),
        Column::Kinds => memory.kinds.truncate(left(memory.kinds.len())),
        Column::Options => memory.options.truncate(left(memory.options.len())),
        Column::Days => memory.days.truncate(left(memory.days.len())),
        Column::Amounts => memory.amounts.truncate(left(memory.amounts.len())),
    }
}

fn unequal<T: PartialEq + Debug>(what: &str, expected: &T, found: &T) -> Option<String> {
    let words = || format!("  {what}\n    expected: {expected:?}\n    found: {found:?}");
    (expected != found).then(words)
}

/// How many accounts and records a book has, or its number.
pub fn counted(book: &[u8]) -> Option<String> {
    let expected = match peer::book::accounts(book) {
        Ok(list) => (Ok(list.len()), Ok(list.iter().map(Vec::len).sum())),
        Err(number) => (Err(number), Err(number)),
    };
    let found = (books::accounts(book), books::records(book));
    unequal("accounts and records", &expected, &found)
}

/// A book read into memory that is longer than its list; a refused one changes nothing, be there memory or not.
pub fn read(book: &[u8], longer: usize) -> Option<String> {
    let list = peer::book::accounts(book);
    let records = list.iter().flatten().map(Vec::len).sum::<usize>();
    let accounts = list.as_ref().map_or(0, Vec::len);
    let mut found = memory(accounts + longer, records + longer);
    let mut expected = found.clone();
    let number = books::read_into(book, &mut found).err();
    if let Ok(list) = &list {
        let columns = Columns::of(list);
        expected.counts[..accounts].copy_from_slice(&columns.counts);
        expected.kinds[..records].copy_from_slice(&columns.kinds);
        expected.options[..records].copy_from_slice(&columns.options);
        expected.days[..records].copy_from_slice(&columns.days);
        expected.amounts[..records].copy_from_slice(&columns.amounts);
    }
    unequal("what is read", &(list.err(), expected), &(number, found))
}

/// One column too short for a book that is in order.
pub fn read_short(book: &[u8], column: Column, turn: usize) -> Option<String> {
    let list = peer::book::accounts(book).ok()?;
    if !has_elements(column, &list) {
        return None;
    }
    let mut found = memory(list.len(), list.iter().map(Vec::len).sum());
    shorten(&mut found, column, turn);
    let expected = found.clone();
    let number = books::read_into(book, &mut found).err();
    let what = format!("what is read, too little memory for the {column:?}");
    unequal(&what, &(Some(22), expected), &(number, found))
}

/// What the library answers and leaves in output of a length, and what the peer says of it.
fn compare_writing(list: &Columns, room: usize) -> Option<String> {
    let mut found = vec![FILL; room];
    let mut expected = found.clone();
    let answer = books::write_into(list, &mut found);
    let wanted = peer::writer::write(list, room).map(|book| {
        expected[..book.len()].copy_from_slice(&book);
        book.len()
    });
    unequal("what is written", &(wanted, expected), &(answer, found))
}

/// A list written to output that is longer than its book.
pub fn written(book: &[u8], longer: usize) -> Option<String> {
    compare_writing(&list_of(book)?, book.len() + longer)
}

/// A list and too little output for its book.
pub fn written_short(book: &[u8], turn: usize) -> Option<String> {
    compare_writing(&list_of(book)?, book.len() - 1 - turn % book.len())
}

/// A list with faults put into it.
pub fn refused(book: &[u8], faults: &Faults) -> Option<String> {
    let list = peer::book::accounts(book).ok()?;
    if !faults.fit(&list) {
        return None;
    }
    let (columns, room) = faults.of(&list, book.len());
    let lowest = peer::writer::write(&columns, room).err();
    let wanted = unequal("the peer's number", &Some(faults.lowest()), &lowest);
    wanted.or_else(|| compare_writing(&columns, room))
}

/// A book is read and what was read is written: the same bytes.
pub fn book_back(book: &[u8]) -> Option<String> {
    list_of(book)?;
    let back = books::read(book).and_then(|list| books::write(&list));
    unequal("read and written back", &Ok(book.to_vec()), &back)
}

/// A list is written to longer output, and what was written is read: the same list.
pub fn list_back(book: &[u8]) -> Option<String> {
    let list = list_of(book)?;
    let mut out = vec![FILL; book.len() + 24];
    let mut back = memory(list.counts.len(), list.kinds.len());
    let answer = books::write_into(&list, &mut out)
        .and_then(|length| books::read_into(&out[..length], &mut back));
    unequal("written and read back", &(Ok(()), list), &(answer, back))
}
