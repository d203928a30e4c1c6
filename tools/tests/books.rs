//! Books and account lists through the static library: bytes as document 01 has them, and what lent memory looks like.
use tools::columns::Columns;
use tools::core::books;
use tools::event::Event;

fn list() -> Vec<Vec<Event>> {
    let largest = Event::new(16, 255, u32::MAX, u64::MAX);
    vec![vec![Event::new(1, 2, 100, 10_000)], vec![], vec![largest]]
}

/// Header, table and records of the list.
const BOOK: [u8; 64] = [
    3, 0, 0, 0, 2, 0, 0, 0, 32, 0, 0, 0, 1, 0, 0, 0, 48, 0, 0, 0, 0, 0, 0, 0, 48, 0, 0, 0, 1, 0, 0,
    0, 1, 2, 0, 0, 100, 0, 0, 0, 16, 39, 0, 0, 0, 0, 0, 0, 16, 255, 0, 0, 255, 255, 255, 255, 255,
    255, 255, 255, 255, 255, 255, 255,
];

#[test]
fn a_list_is_written_as_its_book_and_read_back() {
    assert_eq!(books::write(&list()), Ok(BOOK.to_vec()));
    assert_eq!(books::read(&BOOK), Ok(list()));
    assert_eq!(
        (books::accounts(&BOOK), books::records(&BOOK)),
        (Ok(3), Ok(2))
    );
    assert_eq!(books::room(3, 2), BOOK.len());
}

#[test]
fn a_refused_book_is_told_by_its_number() {
    let mut kind = BOOK;
    kind[32] = 17;
    for (book, number) in [(&BOOK[..7], 20), (&BOOK[..63], 20), (&kind, 21)] {
        assert_eq!(books::accounts(book), Err(number));
        assert_eq!(books::records(book), Err(number));
        assert_eq!(books::read(book), Err(number));
    }
}

/// A book of accounts without records, made byte by byte.
fn empty_accounts(accounts: u32) -> Vec<u8> {
    let mut words = vec![accounts, 0];
    words.extend([8 + 8 * accounts, 0].repeat(accounts as usize));
    words.iter().flat_map(|word| word.to_le_bytes()).collect()
}

#[test]
fn a_book_has_1024_accounts_at_most() {
    assert_eq!(
        books::write(&vec![vec![]; 1_024]),
        Ok(empty_accounts(1_024))
    );
    assert_eq!(books::accounts(&empty_accounts(1_024)), Ok(1_024));
    assert_eq!(books::accounts(&empty_accounts(1_025)), Err(20));
    assert_eq!(books::write(&vec![vec![]; 1_025]), Err(20));
}

#[test]
fn a_list_that_has_no_book_is_told_by_its_number() {
    assert_eq!(books::write(&[vec![Event::of(17, 0, 0)]]), Err(21));
    let mut odd = Columns::of(&list());
    odd.counts[1] = 1;
    assert_eq!(books::write_into(&odd, &mut [7; 100]), Err(20));
}

#[test]
fn memory_is_long_enough_or_left_alone() {
    let mut short = Columns::for_list(3, 1);
    let before = short.clone();
    assert_eq!(books::read_into(&BOOK, &mut short), Err(22));
    assert_eq!(short, before);
    let mut long = Columns::for_list(4, 3);
    assert_eq!(books::read_into(&BOOK, &mut long), Ok(()));
    assert_eq!(long.counts, [1, 0, 1, 0]);
    assert_eq!(long.kinds, [1, 16, 0]);

    let columns = Columns::of(&list());
    let mut out = [7; 66];
    assert_eq!(books::write_into(&columns, &mut out[..63]), Err(22));
    assert_eq!(out, [7; 66]);
    assert_eq!(books::write_into(&columns, &mut out), Ok(64));
    assert_eq!((&out[..64], &out[64..]), (&BOOK[..], &[7, 7][..]));
}
