//! The book of an account list, and what refuses to write one.
use tools::columns::Columns;
use tools::event::Event;

/// The bytes of the header, of an account's entry in the table and of a record.
pub const HEADER: usize = 8;
pub const ENTRY: usize = 8;
pub const RECORD: usize = 16;

/// The book of an account list, whether it is one that may be written or not.
pub fn encode(list: &[Vec<Event>]) -> Vec<u8> {
    let records: usize = list.iter().map(Vec::len).sum();
    let mut book = Vec::with_capacity(HEADER + ENTRY * list.len() + RECORD * records);
    book.extend((list.len() as u32).to_le_bytes());
    book.extend((records as u32).to_le_bytes());
    let mut offset = HEADER + ENTRY * list.len();
    for account in list {
        book.extend((offset as u32).to_le_bytes());
        book.extend((account.len() as u32).to_le_bytes());
        offset += RECORD * account.len();
    }
    for event in list.iter().flatten() {
        book.extend([event.kind, event.option, 0, 0]);
        book.extend(event.day.to_le_bytes());
        book.extend(event.amount.to_le_bytes());
    }
    book
}

/// The book of a list in columns for output of so many bytes, or the number that refuses it.
pub fn write(list: &Columns, room: usize) -> Result<Vec<u8>, u8> {
    let records = list.kinds.len();
    let sum: u64 = list.counts.iter().map(|&count| u64::from(count)).sum();
    let others = [list.options.len(), list.days.len(), list.amounts.len()];
    let length = HEADER + ENTRY * list.counts.len() + RECORD * records;
    if list.counts.len() > 1_024
        || sum != records as u64
        || others != [records; 3]
        || length as u64 > 4_294_967_295
    {
        return Err(20);
    }
    if !list.kinds.iter().all(|kind| (1..=16).contains(kind)) {
        return Err(21);
    }
    if length > room {
        return Err(22);
    }
    let event = |at| {
        Event::new(
            list.kinds[at],
            list.options[at],
            list.days[at],
            list.amounts[at],
        )
    };
    let mut accounts: Vec<Vec<Event>> = Vec::new();
    let mut next = 0;
    for &count in &list.counts {
        let end = next + count as usize;
        accounts.push((next..end).map(event).collect());
        next = end;
    }
    Ok(encode(&accounts))
}

#[cfg(test)]
mod tests {
    use super::*;
    use crate::make::{bill, call};

    #[test]
    fn a_record_is_sixteen_bytes_behind_the_table() {
        let book = encode(&[vec![Event::new(1, 2, 100, 10_000)]]);
        assert_eq!(
            book[..16],
            [1, 0, 0, 0, 1, 0, 0, 0, 16, 0, 0, 0, 1, 0, 0, 0]
        );
        assert_eq!(
            book[16..],
            [1, 2, 0, 0, 100, 0, 0, 0, 16, 39, 0, 0, 0, 0, 0, 0]
        );
    }

    #[test]
    fn a_list_is_refused_by_the_first_of_its_faults() {
        let list = [vec![bill(5, 7)], vec![], vec![call(6), call(7)]];
        let columns = Columns::of(&list);
        let book = encode(&list);
        assert_eq!(write(&columns, book.len()), Ok(book.clone()));
        assert_eq!(write(&columns, book.len() - 1), Err(22));
        let mut kind = columns.clone();
        kind.kinds[2] = 17;
        assert_eq!(write(&kind, 0), Err(21));
        let mut count = kind.clone();
        count.counts[1] = 1;
        assert_eq!(write(&count, 0), Err(20));
        let mut many = columns.clone();
        many.counts.resize(1_025, 0);
        assert_eq!(write(&many, 100_000), Err(20));
        many.counts.pop();
        assert!(write(&many, 100_000).is_ok());
    }
}
