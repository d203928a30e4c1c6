//! Memory that has not the length of an account, bits that have not that of a calendar, and accounts made where others were.
use super::days::{self, OnDay};
use super::posting::{begin, Kept, AROUND};
use super::working::{self, Worked};
use crate::peer::kind::PAYMENT;
use crate::peer::Posted;
use std::hint::black_box;
use tools::core::lent::{self, CALENDAR_WORDS, WORDS};
use tools::core::{self, Account, Calendar};
use tools::event::Event;

/// None, one word too few, one too many.
const LENGTHS: [usize; 3] = [0, WORDS - 1, WORDS + 1];

/// The bits of a calendar, then none, a word too few, and one too many.
const BITS: [usize; 4] = [CALENDAR_WORDS, 0, CALENDAR_WORDS - 1, CALENDAR_WORDS + 1];

/// What the library says of itself, its version and the words of an account, where that is not what the tools are for.
pub fn said() -> Vec<String> {
    let expected = (core::VERSION, WORDS as u64);
    let found = (core::version(), lent::words());
    let shown = (found != expected).then(|| format!("  {found:?}, not {expected:?}"));
    shown.into_iter().collect()
}

/// What memory was left as, and what it answered, as far as numbers go: all of them are 0, but for the service.
#[derive(Clone, Debug, PartialEq)]
struct Outcome {
    memory: Vec<u64>,
    ok: u8,
    fresh: u8,
    /// By bits of each length.
    begun: [u8; BITS.len()],
    post: u64,
    would: u64,
    post_at: u64,
    owed: i64,
    told: [u64; 5],
    service: u32,
    days: Vec<OnDay>,
    worked: Vec<Worked>,
}

/// As a call has to end on memory that is no account.
fn expected(memory: &[u64]) -> Outcome {
    Outcome {
        memory: memory.to_vec(),
        ok: 0,
        fresh: 0,
        begun: [0; BITS.len()],
        post: 0,
        would: 0,
        post_at: 0,
        owed: 0,
        told: [0; 5],
        service: 2,
        days: days::by_no_account(&days::asked(&[])),
        worked: working::by_no_account(&working::asked(None, &[])),
    }
}

fn found(memory: &[u64], event: Event) -> Outcome {
    // The account that is not there, or not whole.
    let index = memory.len() / WORDS;
    let mut after = memory.to_vec();
    Outcome {
        ok: lent::ok(memory),
        would: lent::would_answer(memory, event),
        post: lent::post(&mut after, event),
        post_at: lent::post_at(&mut after, index, event),
        begun: begun(&mut after),
        fresh: lent::fresh(&mut after),
        owed: lent::owed(memory),
        told: [
            lent::held(memory),
            lent::required(memory),
            lent::open_count(memory),
            lent::open_day(memory, 0),
            lent::open_unpaid(memory, 0),
        ],
        service: lent::service(memory),
        days: days::by_account(memory, &days::asked(&[])),
        worked: working::by_account(memory, &working::asked(None, &[])),
        memory: after,
    }
}

/// What is answered where an account is begun in the memory by bits of each length.
fn begun(memory: &mut [u64]) -> [u8; BITS.len()] {
    let bits = [u64::MAX; CALENDAR_WORDS + 1];
    BITS.map(|length| lent::begin(memory, 7, &bits[..length]))
}

/// The account of a history in memory that is too short or too long: it is refused with 0 and left alone.
pub fn refused(_: &[Event], posted: &Posted, kept: &Kept) -> Option<String> {
    let mut words = kept.account.words().to_vec();
    // So that the last word of a longer memory is none that an account could have there.
    words.push(u64::MAX);
    // On the account itself it would be accepted.
    let day = posted.accepted.last().map_or(0, |event| event.day);
    let payment = Event::of(PAYMENT, day, 1);
    LENGTHS.iter().find_map(|&length| {
        let memory = &words[..length];
        difference(&expected(memory), &found(memory, payment))
    })
}

/// The account is left alone by bits that are no calendar. Made anew where it lies, without a calendar and with its own, it is
/// as one made elsewhere, with nothing touched around it.
pub fn anew(_: &[Event], posted: &Posted, kept: &Kept) -> Option<String> {
    anew_by(posted, kept, |memory, calendar| match calendar {
        Some(calendar) => lent::begin(memory, calendar.first, &calendar.bits),
        None => lent::fresh(memory),
    })
}

/// The library's making of an account, or one that is not as it should be.
type Make = fn(&mut [u64], Option<&Calendar>) -> u8;

fn anew_by(posted: &Posted, kept: &Kept, make: Make) -> Option<String> {
    let around = |account: &Account| [&AROUND[..], account.words(), &AROUND].concat();
    let mut memory = around(&kept.account);
    let bits = [u64::MAX; CALENDAR_WORDS + 1];
    for length in &BITS[1..] {
        let place = &mut memory[AROUND.len()..][..WORDS];
        let begun = lent::begin(place, 7, &bits[..*length]);
        if begun != 0 || black_box(&memory) != &around(&kept.account) {
            return Some(format!(
                "  begun by {length} words: {begun}, or other words\n"
            ));
        }
    }
    [None, posted.calendar.as_ref()]
        .iter()
        .find_map(|calendar| {
            let mut memory = around(&kept.account);
            let made = make(&mut memory[AROUND.len()..][..WORDS], *calendar);
            let fine = made == 1 && black_box(&memory) == &around(&begin(*calendar));
            (!fine).then(|| format!("  made anew in its memory: {made}, or other words\n"))
        })
}

fn difference(expected: &Outcome, found: &Outcome) -> Option<String> {
    (expected != found).then(|| {
        let length = expected.memory.len();
        format!("  as {length} words\n    expected: {expected:?}\n    found: {found:?}\n")
    })
}

#[cfg(test)]
mod tests {
    use super::super::posting::{keep, Asked};
    use super::*;
    use crate::make::{bill, calendar};
    use crate::peer::post_all_by;

    #[test]
    fn a_whole_account_is_not_refused() {
        let mut account = Account::fresh();
        account.post(bill(7, 6_000));
        let memory = account.words();
        let found = found(memory, bill(7, 1));
        assert_eq!((found.post, found.post_at, found.fresh), (256, 0, 1));
        assert_eq!(found.begun, [1, 0, 0, 0]);
        assert_eq!((found.ok, found.would), (1, 256));
        assert_eq!((found.owed, found.service), (6_000, 0));
        assert_eq!(found.told, [0, 0, 1, 7, 6_000]);
        assert_eq!(found.days[2], (73_048, [256 + 6_000, 256, 256, 256]));
        assert_eq!(found.memory, Account::fresh().words());
    }

    #[test]
    fn another_outcome_is_seen() {
        let right = expected(&[7, 8]);
        assert_eq!(difference(&right, &right), None);
        let wrong: [fn(&mut Outcome); 14] = [
            |outcome| outcome.memory[1] += 1,
            |outcome| outcome.ok = 1,
            |outcome| outcome.fresh = 1,
            |outcome| outcome.would = 256,
            |outcome| outcome.post = 256,
            |outcome| outcome.post_at = 256,
            |outcome| outcome.owed = -1,
            |outcome| outcome.told[0] = 1,
            |outcome| outcome.told[4] = 1,
            |outcome| outcome.service = 0,
            |outcome| outcome.days[0].1[3] = 1,
            |outcome| outcome.begun[0] = 1,
            |outcome| outcome.begun[3] = 1,
            |outcome| outcome.worked[0].told = 256,
        ];
        for make_wrong in wrong {
            let mut outcome = right.clone();
            make_wrong(&mut outcome);
            assert!(difference(&right, &outcome).is_some(), "{outcome:?}");
        }
    }

    #[test]
    fn an_account_that_is_not_made_anew_is_seen() {
        let events = [bill(7, 6_000)];
        let some = calendar(7, |place| place % 7 < 5);
        for calendar in [None, Some(&some)] {
            let posted = post_all_by(calendar, &events);
            let kept = keep(calendar, &events, Asked::AtTheEnd);
            assert_eq!(anew(&events, &posted, &kept), None);
            let is_seen = |make| anew_by(&posted, &kept, make).is_some();
            assert!(is_seen(|_, _| 1));
            assert!(is_seen(|memory, _| {
                memory.copy_from_slice(begin(None).words());
                memory[5] += 1;
                1
            }));
            let other = |memory: &mut [u64], calendar: Option<&Calendar>| {
                lent::fresh(memory) & u8::from(calendar.is_none())
            };
            assert_eq!(is_seen(other), calendar.is_some());
        }
    }

    #[test]
    fn another_length_is_refused() {
        for length in LENGTHS {
            let memory = vec![0; length];
            assert_eq!(found(&memory, bill(7, 1)), expected(&memory));
        }
    }
}
