//! The core by its static library against the peer, book by book.
use crate::books::Book;
use crate::peer::money::Money;
use crate::peer::writer::encode;
use crate::peer::{self, post_all, Posted};
use crate::{show, shrink};
use tools::core;
use tools::event::Event;

/// Room for the text of any book.
const ROOM: usize = 131_072;
/// What lies in memory before the core writes to it.
const FILL: u8 = 165;

/// What a call costs beside its events, in the units of the shrinking.
pub const TRY: u64 = 10_000;

/// What the core writes for a book, where it writes anything.
fn report(book: &[u8]) -> Option<Vec<u8>> {
    let mut out = vec![FILL; ROOM];
    let length = core::report_into(book, &mut out)?;
    out.get(..length).map(<[u8]>::to_vec)
}

/// Whether the core writes what is expected of a book.
pub fn agrees(book: &[u8], expected: &[u8]) -> bool {
    report(book).as_deref() == Some(expected)
}

/// A book whose text differs, shrunk, with both texts; nothing where they agree.
pub fn compare_report(book: &[u8], expected: &[u8]) -> Option<String> {
    if agrees(book, expected) {
        return None;
    }
    let differs = |book: &[u8]| !agrees(book, &peer::report(book));
    let (small, shown) = shrink_book(book, TRY, &differs);
    let found = report(&small).unwrap_or(b"no answer\n".to_vec());
    Some(shown + &show::texts(&peer::report(&small), &found))
}

/// Shrinks a book as a list of events where it is one, else as bytes, and puts it in words.
pub fn shrink_book(book: &[u8], each: u64, differs: &dyn Fn(&[u8]) -> bool) -> (Vec<u8>, String) {
    let by_list = |list: &[Vec<Event>]| differs(&encode(list));
    match peer::book::accounts(book) {
        Ok(list) if by_list(&list) => {
            let small = shrink::list(list, each, &by_list);
            (encode(&small), show::accounts(&small))
        }
        _ => {
            let small = shrink::bytes(book.to_vec(), each, differs);
            let shown = show::bytes(&small);
            (small, shown)
        }
    }
}

/// How long the memory is that is lent for a text.
#[derive(Clone, Copy, Debug)]
pub enum Lent {
    Exact,
    Longer(usize),
    Shorter(usize),
}

/// What is wrong with the text in memory of a given length: too short is no answer and no change, and a tail stays.
pub fn compare_lent(book: &[u8], expected: &[u8], lent: Lent) -> Option<String> {
    let length = match lent {
        Lent::Exact => expected.len(),
        Lent::Longer(by) => expected.len() + by,
        Lent::Shorter(by) => expected.len().saturating_sub(by),
    };
    let mut out = vec![FILL; length];
    let answer = core::report_into(book, &mut out);
    let wanted = wanted(expected, length);
    (wanted != (answer, out)).then(|| {
        let (shown, wanted) = (show::bytes(book), wanted.0);
        format!("{shown}  {length} bytes lent ({lent:?}), answer {answer:?}, not {wanted:?}")
    })
}

/// The answer, and what lies in memory of a length after it.
fn wanted(text: &[u8], length: usize) -> (Option<usize>, Vec<u8>) {
    let mut memory = vec![FILL; length];
    match memory.get_mut(..text.len()) {
        Some(place) => {
            place.copy_from_slice(text);
            (Some(text.len()), memory)
        }
        None => (None, memory),
    }
}

/// The number and what is owed after it, for each event.
fn replies(posted: &Posted) -> Vec<(u8, i64)> {
    let money = Money::of(&posted.accepted);
    let mut accepted = 0;
    let owed = |&number: &u8| {
        accepted += usize::from(number == 0);
        (number, money.owed_after(accepted))
    };
    posted.answers.iter().map(owed).collect()
}

/// The same by the core.
fn core_replies(book: &[u8], account: usize) -> Result<Vec<(u8, i64)>, u8> {
    let replies = core::history(book, account)?;
    Ok(replies.iter().map(|r| (r.number, r.owed)).collect())
}

/// An account of a good book whose answers differ somewhere, shrunk.
pub fn compare_history(book: &Book, account: usize) -> Option<String> {
    let expected = replies(&book.histories[account].posted);
    if core_replies(&book.bytes, account) == Ok(expected) {
        return None;
    }
    let alone = |list: &[Vec<Event>]| {
        let book = encode(list);
        (0..list.len()).any(|at| core_replies(&book, at) != Ok(replies(&post_all(&list[at]))))
    };
    let small = shrink::list(book.list(), TRY, &alone);
    let mut text = show::accounts(&small);
    for (at, events) in small.iter().enumerate() {
        let found = core_replies(&encode(&small), at);
        let expected = replies(&post_all(events));
        text += &format!("  account {at}, numbers with what is owed\n");
        text += &format!("    expected: {expected:?}\n    found: {found:?}\n");
    }
    Some(text)
}

#[cfg(test)]
mod tests {
    use super::*;
    use crate::books;
    use crate::make::{bill, cut, payment};

    fn book() -> Vec<u8> {
        encode(&[vec![bill(100, 10_000), payment(131, 4_000), cut(131)]])
    }

    const ANY_LENGTH: [Lent; 5] = [
        Lent::Exact,
        Lent::Longer(1),
        Lent::Longer(200),
        Lent::Shorter(1),
        Lent::Shorter(60),
    ];

    #[test]
    fn a_text_that_differs_is_seen() {
        let expected = peer::report(&book());
        assert_eq!(compare_report(&book(), &expected), None);
        let mut other = expected.clone();
        other[40] ^= 1;
        assert!(compare_report(&book(), &other).is_some());
        assert!(compare_report(&book(), &expected[1..]).is_some());
    }

    #[test]
    fn a_text_is_wanted_where_it_fits() {
        assert_eq!(wanted(b"ab", 1), (None, vec![FILL]));
        assert_eq!(wanted(b"ab", 2), (Some(2), b"ab".to_vec()));
        assert_eq!(wanted(b"ab", 3), (Some(2), vec![b'a', b'b', FILL]));
    }

    #[test]
    fn memory_that_differs_is_seen() {
        let expected = peer::report(&book());
        for lent in ANY_LENGTH {
            assert_eq!(compare_lent(&book(), &expected, lent), None);
        }
        // A byte more: as much memory as the text takes would be too short, and a longer one has another tail.
        let longer = [&expected[..], b"x"].concat();
        for lent in [Lent::Exact, Lent::Longer(7), Lent::Shorter(1)] {
            assert!(compare_lent(&book(), &longer, lent).is_some(), "{lent:?}");
        }
        // As long, but not the same.
        let mut other = expected;
        other[40] ^= 1;
        assert!(compare_lent(&book(), &other, Lent::Exact).is_some());
    }

    #[test]
    fn an_answer_that_differs_is_seen() {
        let good = (0..40).map(|at| books::book(1, at)).find(Book::is_good);
        let mut good = good.unwrap();
        assert_eq!(compare_history(&good, 0), None);
        good.histories[0].posted.answers[0] ^= 1;
        assert!(compare_history(&good, 0).is_some());
    }
}
