//! Posting one event after another, with what is owed asked after each: an account that the caller keeps, and the history
//! of a book, each against the same rules in place.
use crate::inplace::{self, Record};
use crate::row::Times;
use std::hint::black_box;
use tools::core::{self, Account, Answer};
use tools::event::Event;

/// The number of each answer, 0 for accepted, and what is owed after it.
type Replies = Vec<(u8, i64)>;

/// An account in the caller's memory. Both have to give the same replies before anything is timed.
pub fn kept(events: &[Event]) -> Result<Times, String> {
    let records: Vec<Record> = events.iter().map(record).collect();
    let (mut by_core, mut in_place) = (Vec::new(), Vec::new());
    post_each(events, |number, owed| by_core.push((number, owed)));
    post_in_place(&records, |number, owed| in_place.push((number, owed)));
    same(by_core, in_place)?;
    Ok(Times::of([
        Box::new(|| post_each(black_box(events), look)),
        Box::new(|| post_in_place(black_box(&records), look)),
    ]))
}

/// The history of a book of one account, which posts on a lent account.
pub fn history(book: &[u8], events: usize) -> Result<Times, String> {
    let (mut numbers, mut owed) = (vec![0; events], vec![0; events]);
    let (mut other_numbers, mut other_owed) = (numbers.clone(), owed.clone());
    core::history_into(book, 0, &mut numbers, &mut owed).map_err(|n| format!("refused {n}"))?;
    history_in_place(book, &mut other_numbers, &mut other_owed);
    let replies =
        |numbers: &[u8], owed: &[i64]| numbers.iter().copied().zip(owed.to_vec()).collect();
    same(
        replies(&numbers, &owed),
        replies(&other_numbers, &other_owed),
    )?;
    Ok(Times::of([
        Box::new(|| {
            black_box(core::history_into(
                black_box(book),
                0,
                &mut numbers,
                &mut owed,
            ))
            .ok();
        }),
        Box::new(|| history_in_place(black_box(book), &mut other_numbers, &mut other_owed)),
    ]))
}

fn same(core: Replies, in_place: Replies) -> Result<(), String> {
    if core == in_place {
        Ok(())
    } else {
        Err("the core and the in-place implementation answer differently".to_string())
    }
}

fn record(event: &Event) -> Record {
    Record {
        kind: event.kind,
        option: event.option,
        day: event.day,
        amount: event.amount,
    }
}

/// So that nothing is left out for want of a reader.
fn look(number: u8, owed: i64) {
    black_box((number, owed));
}

fn post_each(events: &[Event], mut look: impl FnMut(u8, i64)) {
    let mut account = Account::fresh();
    for &event in events {
        let number = match account.post(event) {
            Answer::Accepted(_) => 0,
            Answer::Refused(number) => number,
        };
        look(number, account.owed());
    }
}

fn post_in_place(records: &[Record], mut look: impl FnMut(u8, i64)) {
    let mut account = inplace::Account::fresh();
    for &record in records {
        let number = account.post(record);
        look(number, account.owed());
    }
}

/// As `hollupaq_history` does it, the book's test first.
fn history_in_place(book: &[u8], numbers: &mut [u8], owed: &mut [i64]) {
    if inplace::book_refusal(book) != 0 {
        return;
    }
    let mut account = inplace::Account::fresh();
    let places = numbers.iter_mut().zip(owed);
    for (bytes, (number, owed)) in inplace::records(book, 0).iter().zip(places) {
        *number = account.post(inplace::record(bytes));
        *owed = account.owed();
    }
}
