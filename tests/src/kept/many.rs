//! Accounts that lie one after another in one memory, some with a calendar, against the same accounts kept apart.
use super::posting::{begin, AROUND};
use crate::generator::History;
use crate::peer::calendar::Calendar;
use crate::peer::kind::PAYMENT;
use crate::peer::LAST_DAY;
use crate::{show, shrink};
use std::hint::black_box;
use tools::core::lent::{self, WORDS};
use tools::core::{Account, Answer};
use tools::event::Event;

/// So many lie in one memory.
const ACCOUNTS: usize = 3;

/// What posting costs beside its events, in the units of the shrinking.
const TRY: u64 = 10_000;

/// The accounts in memory of which the core may touch nothing else.
struct Memory {
    words: Vec<u64>,
    count: usize,
}

impl Memory {
    fn of(accounts: &[Account]) -> Memory {
        let count = accounts.len();
        let accounts: Vec<u64> = accounts.iter().flat_map(Account::words).copied().collect();
        let words = [&AROUND[..], &accounts, &AROUND].concat();
        Memory { words, count }
    }

    fn lent(&mut self) -> &mut [u64] {
        &mut self.words[AROUND.len()..][..self.count * WORDS]
    }

    /// The memory as it should be: these accounts, and around them what was there.
    fn is_of(&self, accounts: &[Account]) -> bool {
        // A part of it alone was lent: it must not be taken for granted that nothing else changed.
        let words = black_box(&self.words);
        let accounts = accounts.iter().flat_map(Account::words);
        words
            .iter()
            .eq(AROUND.iter().chain(accounts).chain(&AROUND))
    }
}

/// The histories of a book, one for each account, some of them twice where there are fewer.
pub fn lists(histories: &[History]) -> Vec<Vec<Event>> {
    let events = histories.iter().map(|history| history.events.clone());
    events.cycle().take(ACCOUNTS).collect()
}

/// The calendars of the accounts, by their places: every second has none.
pub type Calendars = [Option<Calendar>; ACCOUNTS];

/// Those of the histories of a book, in turn.
pub fn calendars(histories: &[History]) -> Calendars {
    let of_place = |place: usize| {
        let history = &histories[place % histories.len()];
        let calendar = history.with_calendar.calendar.clone();
        calendar.filter(|_| place.is_multiple_of(2))
    };
    std::array::from_fn(of_place)
}

/// The library's posting to one of many, or one that is not as it should be.
type PostAt = fn(&mut [u64], usize, Event) -> u64;

/// Lists of events that lead to something else in one memory than apart, shrunk; nothing where they don't. The calendars stay
/// in their places.
pub fn compare(calendars: &Calendars, list: Vec<Vec<Event>>) -> Option<String> {
    let wrong = |list: &[Vec<Event>]| wrong(calendars, list, lent::post_at);
    wrong(&list)?;
    let differs = |list: &[Vec<Event>]| wrong(list).is_some();
    let small = shrink::list(list, TRY, &differs);
    let words = wrong(&small).unwrap_or_default();
    let places = small.iter().zip(calendars).enumerate();
    let shown = places.map(|(at, (events, calendar))| show::account(at, calendar.as_ref(), events));
    Some(shown.chain([words]).collect())
}

/// Posts the events of the lists in turn, one of each account: every answer is the one that the account gives apart, and
/// after each event all words are those of the accounts kept apart.
fn wrong(calendars: &Calendars, list: &[Vec<Event>], post_at: PostAt) -> Option<String> {
    let begun = calendars.iter().map(|calendar| begin(calendar.as_ref()));
    let mut apart: Vec<Account> = begun.take(list.len()).collect();
    let mut memory = Memory::of(&apart);
    let longest = list.iter().map(Vec::len).max().unwrap_or(0);
    for turn in 0..longest {
        for (index, events) in list.iter().enumerate() {
            let Some(&event) = events.get(turn) else {
                continue;
            };
            let answer = Answer::of(post_at(memory.lent(), index, event));
            let expected = apart[index].post(event);
            if answer != expected || !memory.is_of(&apart) {
                return Some(format!(
                    "  account {index}, event {turn}: {answer:?}, apart {expected:?}, or other words\n"
                ));
            }
        }
    }
    past_the_end(memory, &apart, post_at)
}

/// Where there is no account, nothing is posted: behind the last one, and so far behind that its place would come round to
/// the first.
fn past_the_end(mut memory: Memory, apart: &[Account], post_at: PostAt) -> Option<String> {
    let count = apart.len();
    // An account would take it.
    let event = Event::of(PAYMENT, LAST_DAY, 1);
    let none = [count, count + 1, usize::MAX / WORDS + 1, usize::MAX];
    none.iter().find_map(|&index| {
        let answer = post_at(memory.lent(), index, event);
        (answer != 0 || !memory.is_of(apart))
            .then(|| format!("  account {index} of {count}: {answer}, or other words\n"))
    })
}

#[cfg(test)]
mod tests {
    use super::*;
    use crate::make::{bill, calendar, cut, payment};

    const NONE: Calendars = [const { None }; ACCOUNTS];

    fn list() -> Vec<Vec<Event>> {
        vec![
            vec![bill(100, 10_000), payment(131, 4_000), cut(131)],
            vec![],
            vec![payment(3, 7)],
        ]
    }

    #[test]
    fn three_accounts_go_their_own_ways() {
        assert_eq!(compare(&NONE, list()), None);
        assert_eq!(compare(&NONE, vec![]), None);
        let from_100 = calendar(100, |place| place % 7 < 5);
        let calendars = [Some(from_100), None, Some(calendar(0, |_| false))];
        assert_eq!(compare(&calendars, list()), None);
    }

    #[test]
    fn a_posting_that_goes_another_way_is_seen() {
        use lent::post_at as post;
        assert_eq!(wrong(&NONE, &list(), post), None);
        // Where each is seen first, and the way that the posting goes.
        let other_ways: [(&str, PostAt); 5] = [
            ("account 0, event 0", |words, at, event| {
                match post(words, at, event) {
                    256 => 257,
                    answer => answer,
                }
            }),
            ("account 2, event 0", |words, at, event| {
                post(words, at / 2, event)
            }),
            ("account 0, event 0", |words, at, event| {
                words[WORDS] += 1;
                post(words, at, event)
            }),
            ("account 3 of 3", |words, at, event| match at {
                ACCOUNTS => 256,
                _ => post(words, at, event),
            }),
            ("account 4 of 3", |words, at, event| {
                words[0] += u64::from(at == ACCOUNTS + 1);
                post(words, at, event)
            }),
        ];
        for (place, post_at) in other_ways {
            let seen = wrong(&NONE, &list(), post_at).unwrap();
            assert!(seen.starts_with(&format!("  {place}: ")), "{place}, {seen}");
        }
    }

    #[test]
    fn a_word_that_differs_is_seen() {
        let apart = vec![Account::fresh(); ACCOUNTS];
        let places = 2 * AROUND.len() + ACCOUNTS * WORDS;
        for place in 0..places {
            let mut memory = Memory::of(&apart);
            assert!(memory.is_of(&apart));
            memory.words[place] ^= 1;
            assert!(!memory.is_of(&apart));
        }
    }
}
