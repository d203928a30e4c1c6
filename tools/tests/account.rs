//! Accounts that the caller keeps, through the static library: a short story, its copies, and the memory they lie in.
mod common;

use common::after;
use std::fs;
use std::hint::black_box;
use std::path::Path;
use tools::core::lent::{self, ACCEPTED, CALENDAR_DAYS, CALENDAR_WORDS, WORDS};
use tools::core::{Account, Accounts, Answer, Calendar, OpenItem};
use tools::event::Event;
use tools::kinds::KINDS;
use tools::service::Service;

/// The number that the C header gives a name, by `#define` or in its list of kinds.
fn in_header(name: &str) -> Option<usize> {
    let path = Path::new(env!("CARGO_MANIFEST_DIR")).join("../include/hollupaq.h");
    let header = fs::read_to_string(&path).unwrap_or_else(|e| panic!("{}: {e}", path.display()));
    let mut words = header.split_whitespace().skip_while(|word| *word != name);
    let number = words.find(|word| word.starts_with(|c: char| c.is_ascii_digit()))?;
    number.trim_end_matches(',').parse().ok()
}

fn item(day: u64, unpaid: u64) -> OpenItem {
    OpenItem { day, unpaid }
}

/// A bill, and what leads to a lawful disconnection on day 25.
fn to_the_cut() -> [Event; 4] {
    [
        Event::of(1, 0, 6_000),
        Event::of(12, 20, 0),
        Event::of(13, 22, 0),
        Event::of(14, 25, 0),
    ]
}

#[test]
fn wrapper_header_and_library_agree_on_the_size() {
    assert_eq!(lent::words(), WORDS as u64);
    assert_eq!(in_header("HOLLUPAQ_WORDS"), Some(WORDS));
    assert_eq!(in_header("HOLLUPAQ_ACCEPTED"), Some(ACCEPTED as usize));
    let days = Some(CALENDAR_DAYS as usize);
    assert_eq!(in_header("HOLLUPAQ_CALENDAR_DAYS"), days);
    let words = Some(CALENDAR_WORDS);
    assert_eq!(in_header("HOLLUPAQ_CALENDAR_WORDS"), words);
    assert_eq!(days, words.map(|words| words * u64::BITS as usize));
}

#[test]
fn the_header_has_every_kind_with_its_number() {
    for (at, kind) in KINDS.iter().enumerate() {
        let name = format!("HOLLUPAQ_{}", kind.word.to_uppercase().replace('-', "_"));
        assert_eq!(in_header(&name), Some(at + 1), "{name}");
    }
}

#[test]
fn a_fresh_account_owes_nothing() {
    let account = Account::fresh();
    assert_eq!(account.owed(), 0);
    assert_eq!((account.held(), account.required()), (0, 0));
    assert_eq!(account.service(), Service::On);
    assert_eq!(account.open_count(), 0);
    assert_eq!(account.open_item(0), item(0, 0));
}

#[test]
fn a_bill_is_paid_in_part_and_a_cut_refused() {
    let mut account = Account::fresh();
    assert_eq!(account.post(Event::of(1, 100, 10_000)), Answer::Accepted(0));
    assert_eq!(account.post(Event::of(1, 130, 5_000)), Answer::Accepted(0));
    assert_eq!(account.owed(), 15_075);
    assert_eq!(account.post(Event::of(2, 131, 4_000)), Answer::Accepted(1));
    let before = *account.words();
    assert_eq!(account.post(Event::of(14, 131, 0)), Answer::Refused(12));
    assert_eq!(
        account.post(Event::new(17, 1, u32::MAX, u64::MAX)),
        Answer::Refused(1)
    );
    assert_eq!(*account.words(), before);
    assert_eq!(account.owed(), 11_075);
    let open: Vec<OpenItem> = account.open_items().collect();
    assert_eq!(open, [item(100, 6_000), item(130, 5_075)]);
    assert_eq!(account.open_item(2), item(0, 0));
    assert_eq!(account.open_item(usize::MAX), item(0, 0));
    assert_eq!(account.post(Event::of(2, 131, 20_000)), Answer::Accepted(2));
    assert_eq!(account.owed(), -8_925);
    assert_eq!(account.open_count(), 0);
}

#[test]
fn each_till_counts_its_own_receipts() {
    let mut account = Account::fresh();
    for (till, receipt) in [(0, 1), (3, 1), (0, 2), (4, 1), (3, 2), (3, 3)] {
        let answer = account.post(Event::new(2, till, 5, 100));
        assert_eq!(answer, Answer::Accepted(receipt), "till {till}");
    }
    let before = *account.words();
    for (till, receipt) in [(0, 3), (1, 1), (3, 4), (4, 2)] {
        let returned = Event::new(3, till, 6, receipt);
        assert_eq!(account.post(returned), Answer::Refused(6), "till {till}");
    }
    for till in [5, 255] {
        for kind in [2, 3] {
            let event = Event::new(kind, till, 6, 1);
            assert_eq!(account.post(event), Answer::Refused(3), "{event:?}");
        }
    }
    assert_eq!(*account.words(), before);
    let returned = Event::new(3, 3, 6, 2);
    assert_eq!(account.post(returned), Answer::Accepted(0));
    assert_eq!(account.post(returned), Answer::Refused(6));
    // The same receipt of another till.
    assert_eq!(account.post(Event::of(3, 6, 2)), Answer::Accepted(0));
    assert_eq!(account.owed(), 2 * 2_500 - 4 * 100);
}

#[test]
fn a_deposit_is_asked_and_held() {
    let account = after(&[Event::of(5, 3, 20_000), Event::of(6, 4, 15_000)]);
    assert_eq!((account.held(), account.required()), (15_000, 20_000));
}

#[test]
fn service_goes_off_and_ends() {
    let on = after(&to_the_cut()[..3]);
    let off = after(&to_the_cut());
    let mut closed = off.clone();
    closed.post(Event::of(16, 26, 0));
    let told = [&on, &off, &closed];
    assert_eq!(
        told.map(Account::service),
        [Service::On, Service::Off, Service::Closed]
    );
    assert_eq!(told.map(|a| lent::service(a.words())), [0, 1, 2]);
}

#[test]
fn the_arrears_are_those_of_a_day() {
    let account = after(&[Event::of(1, 100, 10_000), Event::of(1, 130, 5_000)]);
    assert_eq!(account.arrears(130), Ok(10_000));
    assert_eq!(account.arrears(149), Ok(10_000));
    assert_eq!(account.arrears(150), Ok(15_075));
    assert_eq!(Account::fresh().arrears(0), Ok(0));
}

#[test]
fn an_arrangement_a_notice_and_a_certificate_have_their_days() {
    let account = after(&[
        Event::of(1, 0, 6_000),
        Event::new(11, 2, 20, 0),
        Event::of(12, 20, 0),
        Event::of(9, 21, 5),
    ]);
    assert_eq!(
        [49, 50].map(|day| account.in_force(day)),
        [Ok(true), Ok(false)]
    );
    assert_eq!(
        [40, 41].map(|day| account.notice_live(day)),
        [Ok(true), Ok(false)]
    );
    assert_eq!(
        [25, 26].map(|day| account.certified(day)),
        [Ok(true), Ok(false)]
    );
}

#[test]
fn a_day_is_refused_as_that_of_an_event_is() {
    let mut account = after(&[Event::of(1, 100, 10_000)]);
    for (day, number) in [(99, 2), (0, 2), (73_049, 1), (u32::MAX, 1)] {
        assert_eq!(account.post(Event::of(13, day, 0)), Answer::Refused(number));
        assert_eq!(account.arrears(day), Err(number));
        let asked = [Account::in_force, Account::notice_live, Account::certified];
        assert_eq!(asked.map(|ask| ask(&account, day)), [Err(number); 3]);
    }
    assert_eq!(
        (account.arrears(100), account.arrears(73_048)),
        (Ok(0), Ok(10_000))
    );
}

#[test]
fn a_copy_goes_its_own_way() {
    let mut account = after(&[Event::of(1, 0, 6_000)]);
    let kept = *account.words();
    let mut copy = account.clone();
    assert_eq!(account.post(Event::of(2, 1, 6_000)), Answer::Accepted(1));
    assert_eq!((account.owed(), copy.owed()), (0, 6_000));
    assert_eq!(*copy.words(), kept);
    let mut back = Account::from_words(kept);
    for account in [&mut copy, &mut back] {
        assert_eq!(account.post(Event::of(2, 5, 500)), Answer::Accepted(1));
        assert_eq!(account.owed(), 5_500);
    }
}

/// What memory that is no account tells, and that nothing writes to it.
fn is_no_account(memory: &[u64]) {
    let mut after = memory.to_vec();
    assert_eq!(lent::post(&mut after, Event::of(2, 30, 1)), 0);
    assert_eq!(after, memory);
    assert_eq!(lent::owed(memory), 0);
    assert_eq!((lent::held(memory), lent::required(memory)), (0, 0));
    assert_eq!(lent::service(memory), 2);
    assert_eq!(lent::open_count(memory), 0);
    assert_eq!(
        (lent::open_day(memory, 0), lent::open_unpaid(memory, 0)),
        (0, 0)
    );
    for day in [0, 100, 73_049] {
        assert_eq!(lent::arrears(memory, day), 0);
        assert_eq!(lent::in_force(memory, day), 0);
        assert_eq!(lent::notice_live(memory, day), 0);
        assert_eq!(lent::certified(memory, day), 0);
        assert_eq!(lent::working_days(memory, 0, day), 0);
    }
}

#[test]
fn memory_of_another_length_is_no_account() {
    let account = after(&[Event::of(1, 0, 6_000), Event::of(5, 1, 20_000)]);
    let mut longer = account.words().to_vec();
    longer.push(0);
    for length in [0, 1, WORDS - 1, WORDS + 1] {
        let mut memory = longer[..length].to_vec();
        is_no_account(&memory);
        assert_eq!(lent::fresh(&mut memory), 0);
        assert_eq!(lent::begin(&mut memory, 0, &[0; CALENDAR_WORDS]), 0);
        assert_eq!(memory, longer[..length]);
    }
}

/// Days 20 and 21, 83 and 84 on both sides of the end of a word, and the last, day 2067.
fn some_days() -> Calendar {
    let mut bits = [0; CALENDAR_WORDS];
    bits[0] = 1 << 63 | 0b11;
    bits[1] = 1;
    bits[31] = 1 << 63;
    Calendar { first: 20, bits }
}

#[test]
fn an_account_begun_with_a_calendar_counts_its_working_days() {
    let calendar = some_days();
    let account = Account::begin(&calendar);
    assert!(account.is_ok());
    assert_eq!(account.clone(), Account::begin(&calendar));
    for (after, to, count) in [
        (0, 19, 0),
        (19, 20, 1),
        (20, 20, 0),
        (20, 21, 1),
        (21, 20, 0),
        (21, 82, 0),
        (82, 84, 2),
        (83, 84, 1),
        (0, 2_066, 4),
        (0, 2_067, 5),
        (2_066, u32::MAX, 1),
        (0, u32::MAX, 5),
        (u32::MAX, 0, 0),
    ] {
        let counted = account.working_days(after, to);
        assert_eq!(counted, Some(count), "after {after} to {to}");
    }
    assert_eq!(Account::fresh().working_days(0, u32::MAX), None);
    // What goes in leaves it, and nobody's account without one is the same.
    let mut posted = account.clone();
    assert_eq!(posted.post(Event::of(1, 0, 6_000)), Answer::Accepted(0));
    assert_eq!(posted.working_days(0, u32::MAX), Some(5));
    assert_ne!(account, Account::fresh());
    let other = Calendar {
        first: 19,
        ..calendar
    };
    assert_ne!(account, Account::begin(&other));
}

#[test]
fn a_calendar_has_so_many_words_and_any_first_day() {
    let before = [7; WORDS];
    for length in [0, 1, CALENDAR_WORDS - 1, CALENDAR_WORDS + 1] {
        let mut memory = before;
        assert_eq!(lent::begin(&mut memory, 0, &vec![1; length]), 0);
        assert_eq!(memory, before);
    }
    for first in [0, 73_048, u32::MAX] {
        let bits = [u64::MAX; CALENDAR_WORDS];
        let account = Account::begin(&Calendar { first, bits });
        let last = first.saturating_add(CALENDAR_DAYS - 1);
        let counted = account.working_days(first.saturating_sub(1), u32::MAX);
        // The first day is not counted where there is none before it, and no day is past the last number.
        let days = last - first + u32::from(first > 0);
        assert_eq!(counted, Some(days.into()), "{first}");
    }
}

#[test]
fn a_cut_waits_for_the_calendar_s_days() {
    let mut calendar = some_days();
    calendar.bits[0] = 0b1101111;
    let mut account = Account::begin(&calendar);
    let [bill, notice, call, cut] = to_the_cut();
    assert_eq!(
        account.post(Event { day: 19, ..notice }),
        Answer::Refused(24)
    );
    assert_eq!(account.post(bill), Answer::Accepted(0));
    assert_eq!(account.post(notice), Answer::Accepted(0));
    assert_eq!(account.post(Event { day: 24, ..call }), Answer::Accepted(0));
    // Days 21, 22, 23 and 25 are working days, and 24 is none: day 26 is the fifth.
    assert_eq!(account.post(cut), Answer::Refused(12));
    assert_eq!(account.working_days(20, 25), Some(4));
    assert_eq!(account.post(Event { day: 26, ..cut }), Answer::Accepted(0));
    assert_eq!(account.service(), Service::Off);
}

#[test]
fn any_words_are_answered() {
    is_no_account(&[u64::MAX; WORDS]);
    let mut memory = [u64::MAX; WORDS];
    assert_eq!(lent::fresh(&mut memory), 1);
    assert_eq!(memory, *Account::fresh().words());
}

#[test]
fn an_answer_is_a_refusal_below_256() {
    assert_eq!(Answer::of(0), Answer::Refused(0));
    assert_eq!(Answer::of(19), Answer::Refused(19));
    assert_eq!(Answer::of(255), Answer::Refused(255));
    assert_eq!(Answer::of(256), Answer::Accepted(0));
    assert_eq!(Answer::of(257), Answer::Accepted(1));
}

#[test]
fn one_of_many_accounts_is_posted_to() {
    let mut many = Accounts::fresh(3);
    assert_eq!((many.count(), many.words().len()), (3, 3 * WORDS));
    let bill = Event::of(1, 7, 6_000);
    assert_eq!(many.post_at(1, bill), Answer::Accepted(0));
    assert_eq!(many.post_at(2, Event::of(2, 7, 5)), Answer::Accepted(1));
    let owed = |index| many.account(index).map(|account| account.owed());
    assert_eq!(
        [0, 1, 2, 3].map(owed),
        [Some(0), Some(6_000), Some(-5), None]
    );
    assert_eq!(many.account(1), Some(after(&[bill])));
    let before = many.clone();
    // The last but one of these begins past the end of all memory, and would come round to the first account.
    for index in [3, 4, usize::MAX / WORDS + 1, usize::MAX] {
        assert_eq!(many.post_at(index, bill), Answer::Refused(0));
    }
    assert_eq!(many.post_at(0, Event::of(14, 7, 0)), Answer::Refused(10));
    assert_eq!(many, before);
    assert_eq!(Accounts::fresh(0).post_at(0, bill), Answer::Refused(0));
}

#[test]
fn the_memory_around_an_account_stays_as_it_was() {
    #[repr(C)]
    struct Between {
        before: [u64; 16],
        account: Account,
        behind: [u64; 16],
    }
    const CANARY: u64 = 0x5a5a_a5a5_c3c3_3c3c;
    let mut memory = Between {
        before: [CANARY; 16],
        account: Account::fresh(),
        behind: [CANARY; 16],
    };
    // All places for open items are taken, and all for payments that may be returned, of every till.
    for day in 0..70 {
        memory.account.post(Event::of(1, day, 6_000));
        for till in 0..5 {
            memory.account.post(Event::new(2, till, day, 1));
        }
    }
    let memory = black_box(memory);
    assert_eq!(memory.account.open_count(), 64);
    assert_eq!((memory.before, memory.behind), ([CANARY; 16], [CANARY; 16]));
}
