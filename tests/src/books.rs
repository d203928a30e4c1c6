//! The books that are compared.
use crate::damage;
use crate::generator::{history, History};
use crate::make::call;
use crate::peer::book::LONGEST_FILE;
use crate::peer::writer::{encode, ENTRY, HEADER, RECORD};
use crate::random::Random;
use tools::event::Event;

/// A book and the histories that it was made of.
pub struct Book {
    pub histories: Vec<History>,
    pub bytes: Vec<u8>,
    pub damaged: bool,
}

impl Book {
    pub fn list(&self) -> Vec<Vec<Event>> {
        self.histories.iter().map(|h| h.events.clone()).collect()
    }

    /// Whether every event has one of the sixteen kinds.
    pub fn is_good(&self) -> bool {
        let mut events = self.histories.iter().flat_map(|h| &h.events);
        !self.damaged && events.all(|e| (1..=16).contains(&e.kind))
    }
}

/// Book number `index` of a seed. Each is made from its own numbers, so that one can be made without the others.
pub fn book(seed: u64, index: u64) -> Book {
    let start = Random::new(seed).draw().wrapping_add(index);
    let mut random = Random::new(Random::new(start).draw());
    let accounts = random.pick(&[1, 1, 1, 2, 2, 4]);
    let histories: Vec<History> = (0..accounts).map(|_| history(&mut random)).collect();
    let list: Vec<Vec<Event>> = histories.iter().map(|h| h.events.clone()).collect();
    let mut bytes = encode(&list);
    let damaged = random.once_in(4);
    if damaged {
        bytes = damage::damaged(&bytes, &mut random);
    }
    Book {
        histories,
        bytes,
        damaged,
    }
}

/// A good book of a length that such a book can have, from as many accounts.
pub fn of_length(length: usize, accounts: usize, random: &mut Random) -> Vec<u8> {
    let records = (length - HEADER - ENTRY * accounts) / RECORD;
    let mut list: Vec<Vec<Event>> = Vec::new();
    for account in 0..accounts {
        let count = records * (account + 1) / accounts - records * account / accounts;
        let mut events = history(random).events;
        events.retain(|e| (1..=16).contains(&e.kind));
        let last = events.last().map_or(0, |e| e.day);
        events.resize(count, call(last));
        list.push(events);
    }
    encode(&list)
}

/// A book whose accounts are the beginnings of a history, as far as the longest file goes.
pub fn beginnings(events: &[Event]) -> Vec<u8> {
    let length = |n: usize| HEADER + ENTRY * (n + 1) + RECORD * n * (n + 1) / 2;
    let fits = |n: &usize| length(*n) <= LONGEST_FILE;
    let last = (0..=events.len()).rev().find(fits).unwrap_or(0);
    let list: Vec<Vec<Event>> = (0..=last).map(|n| events[..n].to_vec()).collect();
    encode(&list)
}

#[cfg(test)]
mod tests {
    use super::*;
    use crate::peer;

    #[test]
    fn a_seed_gives_the_same_book_again() {
        assert_eq!(book(7, 40).bytes, book(7, 40).bytes);
        assert_ne!(book(7, 40).bytes, book(7, 41).bytes);
        assert_ne!(book(7, 40).bytes, book(8, 40).bytes);
    }

    #[test]
    fn a_good_book_holds_its_histories() {
        let good = (0..40).map(|index| book(1, index)).find(Book::is_good);
        let good = good.unwrap();
        assert_eq!(peer::book::accounts(&good.bytes), Ok(good.list()));
    }

    #[test]
    fn a_book_is_as_long_as_wanted() {
        for accounts in [1, 41, 1_023] {
            let book = of_length(65_536, accounts, &mut Random::new(3));
            assert_eq!(book.len(), 65_536);
            assert_eq!(peer::book::accounts(&book).unwrap().len(), accounts);
        }
    }

    #[test]
    fn beginnings_stay_within_a_file() {
        let accounts = |events: usize| {
            let book = beginnings(&vec![call(0); events]);
            assert!(book.len() <= LONGEST_FILE);
            peer::book::accounts(&book).unwrap().len()
        };
        assert_eq!(accounts(3), 4);
        assert_eq!(accounts(300), 90);
    }
}
