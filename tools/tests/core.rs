//! The core through its static library: the worked example, and what lent memory looks like after a call.
use tools::core;
use tools::core::books;
use tools::event::Event;

fn book_of(list: &[Vec<Event>]) -> Vec<u8> {
    books::write(list).unwrap()
}

/// Two bills, a payment and a disconnection without a notice.
fn worked_example() -> Vec<u8> {
    book_of(&[vec![
        Event::of(1, 100, 10_000),
        Event::of(1, 130, 5_000),
        Event::of(2, 131, 4_000),
        Event::of(14, 131, 0),
    ]])
}

const STANDING: &[u8] = b"account owed held open service refused\n0 11075 0 2 on 1\n";

/// The numbers of an account's history, and what is owed at its end.
fn answers(events: &[Event]) -> (Vec<u8>, i64) {
    let replies = core::history(&book_of(&[events.to_vec()]), 0).unwrap();
    let owed = replies.last().map_or(0, |reply| reply.owed);
    (replies.iter().map(|reply| reply.number).collect(), owed)
}

#[test]
fn the_worked_example_stands_as_told() {
    assert_eq!(core::report(&worked_example()), STANDING);
}

#[test]
fn a_buffer_of_the_exact_length_is_enough() {
    let mut out = vec![b'x'; STANDING.len()];
    let written = core::report_into(&worked_example(), &mut out);
    assert_eq!(written, Some(STANDING.len()));
    assert_eq!(out, STANDING);
}

#[test]
fn a_buffer_one_byte_short_stays_as_it_was() {
    for len in [STANDING.len() - 1, 40, 1, 0] {
        let mut out = vec![b'x'; len];
        assert_eq!(core::report_into(&worked_example(), &mut out), None);
        assert_eq!(out, vec![b'x'; len]);
    }
}

#[test]
fn a_longer_buffer_keeps_its_tail() {
    let mut out = vec![b'x'; STANDING.len() + 200];
    let written = core::report_into(&worked_example(), &mut out).unwrap();
    assert_eq!(&out[..written], STANDING);
    assert!(out[written..].iter().all(|&byte| byte == b'x'));
}

#[test]
fn a_book_without_accounts_has_a_header_alone() {
    let book = book_of(&[]);
    let header = b"account owed held open service refused\n";
    assert_eq!(core::report(&book), header);
    assert_eq!(core::history(&book, 0), Ok(vec![]));
}

#[test]
fn refused_books_are_said_by_number() {
    let good = worked_example();
    let mut spare = good.clone();
    spare[18] = 1;
    let mut kind = good.clone();
    kind[16] = 17;
    let mut offset = good.clone();
    offset[8] += 1;
    let mut long = good.clone();
    long.push(0);
    for (book, number) in [
        (&good[..7], 20),
        (&good[..good.len() - 1], 20),
        (&[], 20),
        (&long, 20),
        (&offset, 20),
        (&spare, 21),
        (&kind, 21),
    ] {
        let line = format!("book refused {number}\n");
        assert_eq!(core::report(book), line.as_bytes());
        assert_eq!(core::history(book, 0), Err(number));
    }
}

#[test]
fn a_header_of_many_accounts_is_refused_like_others() {
    let mut book = worked_example();
    book[..4].copy_from_slice(&u32::MAX.to_le_bytes());
    assert_eq!(core::report(&book), b"book refused 20\n");
}

#[test]
fn the_worked_example_has_its_history() {
    let replies = core::history(&worked_example(), 0).unwrap();
    let told: Vec<(u8, i64)> = replies.iter().map(|r| (r.number, r.owed)).collect();
    // The arrears are 60.00, so it is the notice that the disconnection lacks.
    assert_eq!(told, [(0, 10_000), (0, 15_075), (0, 11_075), (12, 11_075)]);
    assert_eq!(core::history(&worked_example(), 1), Ok(vec![]));
    assert_eq!(core::history(&worked_example(), usize::MAX), Ok(vec![]));
}

#[test]
fn memory_for_a_history_is_long_enough_or_left_alone() {
    let book = worked_example();
    for (numbers, owed) in [(3, 4), (4, 3), (0, 0)] {
        let mut numbers = vec![99; numbers];
        let mut owed = vec![99; owed];
        assert_eq!(
            core::history_into(&book, 0, &mut numbers, &mut owed),
            Err(22)
        );
        assert!(numbers.iter().all(|&n| n == 99) && owed.iter().all(|&n| n == 99));
    }
    let (mut numbers, mut owed) = ([99; 6], [99; 5]);
    assert_eq!(
        core::history_into(&book, 0, &mut numbers, &mut owed),
        Ok(())
    );
    assert_eq!(numbers, [0, 0, 0, 12, 99, 99]);
    assert_eq!(owed, [10_000, 15_075, 11_075, 11_075, 99]);
}

#[test]
fn each_account_has_its_own_history() {
    let book = book_of(&[
        vec![Event::of(1, 5, 700)],
        vec![],
        vec![Event::of(2, 6, 300), Event::of(3, 6, 2), Event::of(3, 6, 1)],
    ]);
    let owed = |i| -> Vec<i64> {
        let replies = core::history(&book, i).unwrap();
        replies.iter().map(|reply| reply.owed).collect()
    };
    assert_eq!(owed(0), [700]);
    assert_eq!(owed(1), []);
    assert_eq!(owed(2), [-300, -300, 2_500]);
}

#[test]
fn a_lawful_disconnection_goes_through() {
    let events = [
        Event::of(1, 0, 6_000),
        Event::of(12, 19, 0),
        Event::of(12, 20, 0),
        Event::of(13, 22, 0),
        Event::of(14, 24, 0),
        Event::of(14, 25, 0),
        Event::of(14, 25, 0),
    ];
    assert_eq!(answers(&events), (vec![0, 10, 0, 0, 12, 0, 5], 7_500));
}

#[test]
fn the_longest_line_has_room() {
    // The largest sums, credit and deposit, and a record of each account.
    let events: Vec<Event> = (0..100).map(|_| Event::of(2, 0, 10_000_000_000)).collect();
    let mut account = events;
    account.push(Event::of(5, 0, 100_000_000));
    account.push(Event::of(6, 0, 100_000_000));
    let book = book_of(&[account.clone(), account]);
    let expected = "account owed held open service refused\n\
        0 -1000000000000 100000000 0 on 0\n1 -1000000000000 100000000 0 on 0\n";
    assert_eq!(core::report(&book), expected.as_bytes());
}
