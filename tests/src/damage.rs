//! Books with something wrong in them.
use crate::peer::writer::{encode, ENTRY, HEADER, RECORD};
use crate::random::Random;
use tools::event::Event;

/// A book with one or two things changed. What they do to it is not asked here: some leave it a good book.
pub fn damaged(book: &[u8], random: &mut Random) -> Vec<u8> {
    let mut book = book.to_vec();
    for _ in 0..random.between(1, 2) {
        damage(&mut book, random);
    }
    book
}

fn damage(book: &mut Vec<u8>, random: &mut Random) {
    let accounts = word(book, 0).min(1_024) as usize;
    let records = HEADER + ENTRY * accounts;
    match random.below(12) {
        0 => flip(book, random, 0),
        1 => flip(book, random, records),
        2 => cut(book, random),
        3 => add_tail(book, random),
        4 => change_word(book, 0, random),
        5 => change_word(book, 4, random),
        6 => change_entry(book, accounts, 0, random),
        7 => change_entry(book, accounts, 4, random),
        8 => swap_entries(book, accounts, random),
        9 => move_record(book, accounts, random),
        10 => set_in_record(book, records, random),
        _ => swap_words(book, 0, 4),
    }
}

/// One bit turned at or after a byte.
fn flip(book: &mut [u8], random: &mut Random, from: usize) {
    if from < book.len() {
        let at = from + random.below((book.len() - from) as u64) as usize;
        book[at] ^= 1 << random.below(8);
    }
}

fn cut(book: &mut Vec<u8>, random: &mut Random) {
    let some = random.below(book.len() as u64 + 1) as usize;
    let less = random.pick(&[1, RECORD, book.len() - some]);
    book.truncate(book.len().saturating_sub(less));
}

fn add_tail(book: &mut Vec<u8>, random: &mut Random) {
    let length = random.pick(&[1, 8, RECORD, 2 * RECORD]);
    let byte = random.pick(&[0, 1, 255]);
    book.resize(book.len() + length, byte);
}

fn word(book: &[u8], at: usize) -> u32 {
    book.get(at..at + 4).map_or(0, |bytes| {
        u32::from_le_bytes([bytes[0], bytes[1], bytes[2], bytes[3]])
    })
}

fn set_word(book: &mut [u8], at: usize, number: u32) {
    if let Some(bytes) = book.get_mut(at..at + 4) {
        bytes.copy_from_slice(&number.to_le_bytes());
    }
}

/// A number near to what it was, or one that wraps when it is multiplied by the size of an entry or a record.
fn change_word(book: &mut [u8], at: usize, random: &mut Random) {
    let old = word(book, at);
    let wraps = [1 << 28, 1 << 29, 1 << 31, u32::MAX, 1_024, 1_025];
    let far = old.wrapping_add(random.pick(&wraps));
    let near = random.pick(&[old.wrapping_add(1), old.wrapping_sub(1), old ^ 16, 0]);
    set_word(book, at, random.pick(&[near, far]));
}

fn change_entry(book: &mut [u8], accounts: usize, part: usize, random: &mut Random) {
    let entry = random.below(accounts as u64) as usize;
    change_word(book, HEADER + ENTRY * entry + part, random);
}

fn swap_words(book: &mut [u8], one: usize, other: usize) {
    let (first, second) = (word(book, one), word(book, other));
    set_word(book, one, second);
    set_word(book, other, first);
}

fn swap_entries(book: &mut [u8], accounts: usize, random: &mut Random) {
    let one = HEADER + ENTRY * random.below(accounts as u64) as usize;
    let other = HEADER + ENTRY * random.below(accounts as u64) as usize;
    swap_words(book, one, other);
    swap_words(book, one + 4, other + 4);
}

/// One record more for an account and one less for the next, with or without its offset.
fn move_record(book: &mut [u8], accounts: usize, random: &mut Random) {
    if accounts >= 2 {
        let one = HEADER + ENTRY * random.below(accounts as u64 - 1) as usize;
        let next = one + ENTRY;
        set_word(book, one + 4, word(book, one + 4).wrapping_add(1));
        set_word(book, next + 4, word(book, next + 4).wrapping_sub(1));
        if random.once_in(2) {
            set_word(book, next, word(book, next).wrapping_add(RECORD as u32));
        }
    }
}

/// A kind that is none, or a spare byte that is not 0.
fn set_in_record(book: &mut [u8], records: usize, random: &mut Random) {
    let count = book.len().saturating_sub(records) / RECORD;
    let at = records + RECORD * random.below(count as u64) as usize;
    let (part, byte) = random.pick(&[
        (0, 0),
        (0, 17),
        (0, 255),
        (2, 1),
        (3, 1),
        (2, 128),
        (3, 255),
    ]);
    if let Some(field) = book.get_mut(at + part) {
        *field = byte;
    }
}

/// Books that no chance would make: hardly any bytes, and as many accounts as there may be, or one more.
pub fn particular(random: &mut Random) -> Vec<Vec<u8>> {
    let mut books: Vec<Vec<u8>> = (0..8).map(|length| vec![0; length]).collect();
    books.extend((0..8).map(|length| vec![255; length]));
    let bill = Event {
        kind: 1,
        option: 0,
        day: 7,
        amount: 6_000,
    };
    for accounts in [0, 1, 2, 1_023, 1_024, 1_025] {
        books.push(encode(&vec![vec![]; accounts]));
        books.push(encode(&vec![vec![bill]; accounts]));
        let uneven: Vec<Vec<Event>> = (0..accounts).map(|at| vec![bill; at % 3]).collect();
        books.push(encode(&uneven));
        for _ in 0..20 {
            books.push(damaged(&encode(&uneven), random));
        }
    }
    // No accounts but a record, which nobody's count adds up to.
    let mut lonely = encode(&[vec![bill]]);
    lonely.drain(8..16);
    lonely[0] = 0;
    books.push(lonely);
    books
}
