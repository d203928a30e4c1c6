//! Books and account lists in lent memory: tested, read and written by the library, against the peer.
mod against;
mod faults;

use crate::library::{shrink_book, TRY};
use crate::tally::{Group, Tally};
use against::{Column, COLUMNS};
use faults::{Faults, ORDERS};

/// Memory beside what a list or a book needs, in turn.
const LONGER: [usize; 4] = [0, 1, 3, 40];

/// What books and lists showed.
#[derive(Default)]
pub struct Lists {
    counted: Group,
    read: Group,
    read_short: Group,
    written: Group,
    written_short: Group,
    orders: [Group; ORDERS.len()],
    book_back: Group,
    list_back: Group,
}

impl Lists {
    /// A book, in order or not; `turn` chooses the lengths of memory and the faults.
    pub fn book(&mut self, turn: usize, book: &[u8]) {
        let longer = LONGER[turn % LONGER.len()];
        let compare = |check: &dyn Fn(&[u8]) -> Option<String>| differing(book, check);
        self.counted.try_one(|| compare(&against::counted));
        self.read
            .try_one(|| compare(&|book| against::read(book, longer)));
        let Ok(list) = crate::peer::book::accounts(book) else {
            return;
        };
        let can_be_short = |column: &Column| against::has_elements(*column, &list);
        for column in COLUMNS.into_iter().filter(can_be_short) {
            self.read_short
                .try_one(|| compare(&|book| against::read_short(book, column, turn)));
        }
        self.written
            .try_one(|| compare(&|book| against::written(book, longer)));
        self.written_short
            .try_one(|| compare(&|book| against::written_short(book, turn)));
        self.book_back.try_one(|| compare(&against::book_back));
        self.list_back.try_one(|| compare(&against::list_back));
        let order = turn % ORDERS.len();
        let faults = Faults::new(ORDERS[order], turn / ORDERS.len());
        if faults.fit(&list) {
            self.orders[order].try_one(|| compare(&|book| against::refused(book, &faults)));
        }
    }

    pub fn tell(&self, tally: &mut Tally) {
        let groups = [
            (&self.counted, "books, how many accounts and records"),
            (&self.read, "books read into memory, its tails as they were"),
            (
                &self.read_short,
                "books not read, a slice too short, all as it was",
            ),
            (&self.written, "lists written, the tail as it was"),
            (
                &self.written_short,
                "lists not written, the output too short, as it was",
            ),
            (&self.book_back, "books read and written back, every byte"),
            (&self.list_back, "lists written and read back"),
        ];
        for (group, words) in groups {
            group.tell(tally, words);
        }
        for (group, order) in self.orders.iter().zip(ORDERS) {
            group.tell(tally, &format!("lists refused, {}", faults::words(order)));
        }
    }
}

/// What a check finds against a book, shrunk.
fn differing(book: &[u8], check: &dyn Fn(&[u8]) -> Option<String>) -> Option<String> {
    check(book)?;
    let (small, shown) = shrink_book(book, TRY, &|book| check(book).is_some());
    Some(shown + &check(&small).unwrap_or_default())
}
