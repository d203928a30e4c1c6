//! Accounts some of whose bits were turned: memory that the core did not leave so.
use super::bytes;
use super::days;
use super::posting::{begin, Surrounded};
use super::told::Told;
use super::working;
use crate::peer::Posted;
use crate::random::Random;
use crate::show;
use tools::core::lent::WORDS;
use tools::core::{Account, Answer};
use tools::event::Event;

/// So many of a history's last events are posted again, on its last day.
const POSTED: usize = 12;

/// A few words, or once in a while every word, with the bits to turn in each.
fn turns(account: &Account, random: &mut Random) -> Vec<(usize, u64)> {
    if random.once_in(10) {
        return (0..WORDS).map(|word| (word, random.draw())).collect();
    }
    let few = 0..random.between(1, 3);
    few.map(|_| (some_word(account, random), some_bit(random)))
        .collect()
}

/// Most words are 0, so those that hold something come up more often.
fn some_word(account: &Account, random: &mut Random) -> usize {
    let words = account.words();
    let used: Vec<usize> = (0..WORDS).filter(|&word| words[word] != 0).collect();
    if used.is_empty() || random.once_in(2) {
        return random.below(WORDS as u64) as usize;
    }
    random.pick(&used)
}

/// A high bit makes most numbers too large, so low ones come up more often.
fn some_bit(random: &mut Random) -> u64 {
    let bits = random.pick(&[8, 64]);
    1 << random.below(bits)
}

fn turn(account: &Account, turns: &[(usize, u64)]) -> Account {
    let mut words = *account.words();
    for &(word, bits) in turns {
        words[word] ^= bits;
    }
    Account::from_words(words)
}

/// Turns some bits of the account that a history leads to, and posts on. Says whether the core saw that the account is
/// none of its own, or what was wrong.
pub fn compare(events: &[Event], posted: &Posted, random: &mut Random) -> Result<bool, String> {
    let calendar = posted.calendar.as_ref();
    let mut account = begin(calendar);
    for &event in events {
        account.post(event);
    }
    let turns = turns(&account, random);
    let odd = turn(&account, &turns);
    post_on(odd, &last_events(events, posted), Account::post).map_err(|wrong| {
        let shown = show::account(0, calendar, events);
        let (count, first) = (turns.len(), &turns[..turns.len().min(3)]);
        format!("{shown}  then bits turned in {count} words, first {first:?}\n  {wrong}\n")
    })
}

/// On an earlier day most of them would be refused for that alone.
fn last_events(events: &[Event], posted: &Posted) -> Vec<Event> {
    let day = posted.accepted.last().map_or(0, |e| e.day);
    let last = events.iter().rev().take(POSTED);
    last.map(|&event| Event { day, ..event }).collect()
}

/// Posts events to an account of which nothing is known: a refused event leaves it as it was, and once the core saw
/// that it is none of its own, it sees so at every event and question.
fn post_on(
    account: Account,
    events: &[Event],
    post: fn(&mut Account, Event) -> Answer,
) -> Result<bool, String> {
    let mut memory = Surrounded::by(account);
    let mut seen = false;
    for &event in events {
        let before = memory.account.clone();
        let (is_ok, would) = (memory.account.is_ok(), memory.account.would_answer(event));
        let answer = post(&mut memory.account, event);
        let changed = bytes::differing(&before, &memory.account);
        // It has to answer; what it tells is laid down only where it is seen to be no account.
        let told = told_otherwise(&memory.account);
        let fine = match answer {
            Answer::Accepted(_) => !seen,
            Answer::Refused(0) => changed.is_empty() && told.is_none(),
            Answer::Refused(number) => !seen && of_table(number) && changed.is_empty(),
        };
        let foretold = would == answer && is_ok == (answer != Answer::Refused(0));
        if !fine || !foretold || !memory.is_untouched_around() {
            let event = show::event(event);
            return Err(format!(
                "{event}: {answer:?}, changed {changed:?}, {told:?}"
            ));
        }
        seen = answer == Answer::Refused(0);
    }
    Ok(seen)
}

/// Whether a number can refuse an event. Turned bits may make an account with a calendar of one without.
fn of_table(number: u8) -> bool {
    (1..=19).contains(&number) || number == 24
}

/// What an account tells where that is not what memory tells that is no account.
fn told_otherwise(account: &Account) -> Option<String> {
    let (words, days, pairs) = (account.words(), days::asked(&[]), working::asked(None, &[]));
    let told = Told::by_account(account);
    let for_days = days::by_account(words, &days);
    let worked = working::by_account(words, &pairs);
    let is_none = told == Told::by_no_account()
        && for_days == days::by_no_account(&days)
        && worked == working::by_no_account(&pairs);
    (!is_none).then(|| format!("{told:?}, {for_days:?}, {worked:?}"))
}

#[cfg(test)]
mod tests {
    use super::*;
    use crate::make::{bill, calendar, call, close, cut, notice, payment};
    use tools::core::lent::LAYOUT;
    use tools::core::Calendar;

    /// The one word that an event, posted after others, takes from one number to another.
    fn word(events: &[Event], event: Event, from: u64, to: u64) -> usize {
        let mut account = Account::fresh();
        for &event in events {
            account.post(event);
        }
        let before = *account.words();
        account.post(event);
        let after = account.words();
        let found: Vec<usize> = (0..WORDS)
            .filter(|&word| (before[word], after[word]) == (from, to))
            .collect();
        assert_eq!(found.len(), 1, "{event:?}: {from} to {to} in {found:?}");
        found[0]
    }

    /// Whether the core sees that bits of an account of one bill were turned.
    fn sees(word: usize, bits: u64) -> bool {
        let mut account = Account::fresh();
        account.post(bill(7, 6_000));
        let odd = turn(&account, &[(word, bits)]);
        post_on(odd, &[payment(8, 1), bill(8, 1)], Account::post).unwrap()
    }

    #[test]
    fn a_posting_that_does_not_keep_to_it_is_seen() {
        let events = [payment(8, 1), cut(8), bill(8, 1)];
        let is_seen = |account: &Account, post| post_on(account.clone(), &events, post).is_err();
        let (fresh, none) = (Account::fresh(), Account::from_words([u64::MAX; WORDS]));
        assert!(!is_seen(&fresh, Account::post));
        assert!(!is_seen(&none, Account::post));
        // What is no account takes something, is refused by the table, or is changed; an account is said to be none.
        assert!(is_seen(&none, |account, event| match event.kind {
            1 => Answer::Accepted(0),
            _ => account.post(event),
        }));
        assert!(is_seen(&none, |account, event| match event.kind {
            1 => Answer::Refused(18),
            _ => account.post(event),
        }));
        assert!(is_seen(&none, |account, event| {
            let answer = account.post(event);
            *account = Account::from_words([u64::MAX - 1; WORDS]);
            answer
        }));
        assert!(is_seen(&fresh, |_, _| Answer::Refused(0)));
        // A refusal has a number of the table, and leaves the account as it was.
        assert!(is_seen(&fresh, |_, _| Answer::Refused(20)));
        assert!(is_seen(&fresh, |_, _| Answer::Refused(25)));
        assert!(is_seen(&fresh, |account, event| {
            account.post(payment(event.day, 1));
            Answer::Refused(12)
        }));
    }

    #[test]
    fn another_layout_is_seen() {
        assert_eq!(Account::fresh().words()[0], LAYOUT);
        for bit in 0..64 {
            assert!(sees(0, 1 << bit), "bit {bit}");
        }
        assert!(sees(0, LAYOUT));
    }

    #[test]
    fn a_service_that_is_none_is_seen() {
        let service = word(&[], close(0), 0, 2);
        assert!(!sees(service, 1));
        assert!(!sees(service, 2));
        assert!(sees(service, 3));
        assert!(sees(service, 128));
        assert!(sees(service, 1 << 63));
    }

    #[test]
    fn a_notice_that_neither_lives_nor_not_is_seen() {
        let lives = word(&[bill(0, 6_000), notice(20), call(22)], cut(25), 1, 0);
        assert!(!sees(lives, 1));
        assert!(sees(lives, 2));
        assert!(sees(lives, 1 << 63));
    }

    #[test]
    fn a_count_over_64_is_seen() {
        let made = word(&[], bill(7, 6_000), 0, 1);
        assert!(sees(made, 64));
        assert!(sees(made, 1 << 63));
    }

    /// Every first day and all bits are a calendar.
    #[test]
    fn another_calendar_is_not_seen() {
        let from_7 = calendar(7, |place| place % 7 < 5);
        let begun = Account::begin(&from_7);
        let differing = |other: &Account| {
            let both = begun.words().iter().zip(other.words());
            let words: Vec<u64> = both.map(|(one, other)| one ^ other).collect();
            words.into_iter().filter(|&bits| bits != 0).collect()
        };
        let posted = |account: &Account| {
            let events = [bill(8, 6_000), notice(28), call(29), cut(30)];
            post_on(account.clone(), &events, Account::post)
        };
        for bit in 0..2_048 {
            let mut other = from_7.clone();
            other.bits[bit / 64] ^= 1 << (bit % 64);
            let other = Account::begin(&other);
            let words: Vec<u64> = differing(&other);
            assert_eq!(words, [1 << (bit % 64)], "bit {bit}");
            assert_eq!(posted(&other), Ok(false), "bit {bit}");
        }
        for first in [0, 6, 1 << 31, u32::MAX] {
            let bits = from_7.bits;
            let other = Account::begin(&Calendar { first, bits });
            let words: Vec<u64> = differing(&other);
            assert_eq!(words.len(), 1, "first {first}");
            assert_eq!(posted(&other), Ok(false), "first {first}");
        }
    }

    #[test]
    fn another_last_day_is_not_seen() {
        let last = word(&[bill(7, 6_000)], payment(9, 500), 7, 9);
        assert!(!sees(last, 1));
        assert!(sees(last, 1 << 24));
    }
}
