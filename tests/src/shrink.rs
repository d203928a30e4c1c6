//! A difference made small while it stays one.
use std::cell::Cell;
use tools::event::Event;

/// Work that is spent on one difference before it is shown as far as it got.
const WORK: u64 = 400_000_000;

/// Counts what the tries cost, so that a difference in a long history does not hold everything up.
struct Work {
    left: Cell<u64>,
    /// What a try costs beside the events in it.
    each: u64,
}

impl Work {
    fn of(each: u64) -> Work {
        let left = Cell::new(WORK);
        Work { left, each }
    }

    /// Whether a try with so many events, or bytes, may still be made. The peer's time grows with their square.
    fn allows(&self, size: usize) -> bool {
        let cost = self.each + (size * size) as u64;
        let left = self.left.get().saturating_sub(cost);
        self.left.set(left);
        left > 0
    }
}

/// The smallest list found that still differs; `each` is what a try costs.
pub fn list(
    mut list: Vec<Vec<Event>>,
    each: u64,
    differs: &dyn Fn(&[Vec<Event>]) -> bool,
) -> Vec<Vec<Event>> {
    let work = Work::of(each);
    let differs =
        |list: &[Vec<Event>]| work.allows(list.iter().map(Vec::len).sum()) && differs(list);
    loop {
        let before = list.clone();
        drop_parts(&mut list, &differs);
        for account in 0..list.len() {
            let mut events = list[account].clone();
            let with = |events: &[Event]| {
                let mut list = list.clone();
                list[account] = events.to_vec();
                differs(&list)
            };
            drop_parts(&mut events, &with);
            for event in 0..events.len() {
                simplify(&mut events, event, &with);
            }
            list[account] = events;
        }
        if list == before {
            return list;
        }
    }
}

/// The shortest bytes found that still differ, with as many zeros as can be.
pub fn bytes(mut book: Vec<u8>, each: u64, differs: &dyn Fn(&[u8]) -> bool) -> Vec<u8> {
    let work = Work::of(each);
    let differs = |book: &[u8]| work.allows(book.len() / 16) && differs(book);
    drop_parts(&mut book, &differs);
    for at in 0..book.len() {
        let old = std::mem::replace(&mut book[at], 0);
        if !differs(&book) {
            book[at] = old;
        }
    }
    book
}

/// Drops halves, quarters and so on down to single ones, wherever the rest still differs.
fn drop_parts<T: Clone>(list: &mut Vec<T>, differs: &dyn Fn(&[T]) -> bool) {
    let mut size = list.len();
    while size > 0 {
        let mut at = 0;
        while at < list.len() {
            let mut rest = list.clone();
            rest.drain(at..(at + size).min(list.len()));
            if differs(&rest) {
                *list = rest;
            } else {
                at += size;
            }
        }
        size /= 2;
    }
}

/// Makes the numbers of an event smaller.
fn simplify(events: &mut [Event], at: usize, differs: &dyn Fn(&[Event]) -> bool) {
    for _ in 0..64 {
        let old = events[at];
        let simpler = simpler(old).into_iter().find(|&event| {
            events[at] = event;
            event != old && differs(events)
        });
        if simpler.is_none() {
            events[at] = old;
            return;
        }
    }
}

/// Events with one number smaller, the smallest first.
fn simpler(event: Event) -> Vec<Event> {
    let Event { day, amount, .. } = event;
    let mut events = vec![Event { option: 0, ..event }];
    events.extend(
        [0, day / 2, day - day / 8, day.saturating_sub(1)].map(|day| Event { day, ..event }),
    );
    let round = amount - amount % 1_000;
    let amounts = [
        0,
        1,
        amount / 2,
        amount - amount / 8,
        round,
        amount.saturating_sub(1),
    ];
    events.extend(amounts.map(|amount| Event { amount, ..event }));
    events
}

#[cfg(test)]
mod tests {
    use super::*;
    use crate::make::{bill, call, cut};

    #[test]
    fn only_what_makes_the_difference_is_left() {
        let history = vec![call(3), bill(70, 6_000), call(80), cut(90), call(95)];
        let lists = vec![vec![call(1); 9], history, vec![]];
        let differs = |list: &[Vec<Event>]| {
            let late_cut = |e: &Event| e.kind == 14 && e.day >= 5;
            list.iter().flatten().any(late_cut)
        };
        assert_eq!(list(lists, 1, &differs), vec![vec![cut(5)]]);
    }

    #[test]
    fn bytes_are_dropped_and_cleared() {
        let differs = |book: &[u8]| book.len() >= 3 && book.contains(&9);
        let mut small = bytes(vec![1, 2, 9, 4, 5, 6], 1, &differs);
        small.sort();
        assert_eq!(small, [0, 0, 9]);
    }

    #[test]
    fn the_work_is_bounded() {
        let tries = Cell::new(0);
        let differs = |_: &[u8]| {
            tries.set(tries.get() + 1);
            false
        };
        assert_eq!(bytes(vec![7; 100], WORK / 4 + 1, &differs), [7; 100]);
        assert_eq!(tries.get(), 3);
    }
}
