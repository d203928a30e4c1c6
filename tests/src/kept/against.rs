//! What speaks against a kept account.
use super::bytes;
use super::days;
use super::posting::{begin, keep, Asked, Kept};
use super::told::Told;
use super::working;
use crate::peer::kind::PAYMENT;
use crate::peer::money::Money;
use crate::peer::writer::encode;
use crate::peer::{post_all_by, receipts, Posted};
use crate::{show, shrink};
use std::fmt::Debug;
use tools::core::{self, Answer};
use tools::event::Event;

/// What posting costs beside its events, in the units of the shrinking.
const TRY: u64 = 10_000;

/// Words for what is wrong with the posting of a history, by what the peer says of it or by itself.
pub type Check = fn(&[Event], &Posted, &Kept) -> Option<String>;

/// A history that a check speaks against, shrunk; nothing where it doesn't. The calendar, if there is one, stays.
pub fn compare(events: &[Event], posted: &Posted, kept: &Kept, check: Check) -> Option<String> {
    check(events, posted, kept)?;
    let calendar = posted.calendar.as_ref();
    let again = |events: &Vec<Event>| {
        let kept = keep(calendar, events, kept.asked);
        check(events, &post_all_by(calendar, events), &kept)
    };
    let differs = |list: &[Vec<Event>]| list.iter().any(|events| again(events).is_some());
    let small = shrink::list(vec![events.to_vec()], TRY, &differs);
    let shown = small
        .iter()
        .map(|events| show::account(0, calendar, events));
    Some(shown.chain(small.iter().filter_map(again)).collect())
}

fn unequal<T: PartialEq + Debug>(what: &str, expected: T, found: T) -> Option<String> {
    (expected != found)
        .then(|| format!("  {what}\n    expected: {expected:?}\n    found: {found:?}\n"))
}

/// Each answer with its number or receipt, and what is owed after it.
pub fn answers(events: &[Event], posted: &Posted, kept: &Kept) -> Option<String> {
    let expected = by_peer(events, posted);
    unequal("answers with what is owed", &expected, &kept.replies)
}

/// What would be answered, asked before each event: the answer that it then gets, with the account left alone.
pub fn would(events: &[Event], posted: &Posted, kept: &Kept) -> Option<String> {
    let expected = by_peer(events, posted).into_iter().map(|reply| reply.0);
    let expected: Vec<Answer> = expected.collect();
    let fine = (&expected, true);
    unequal("what would be answered", fine, (&kept.would, kept.is_fine))
}

/// The peer's answers, and what is owed after each.
fn by_peer(events: &[Event], posted: &Posted) -> Vec<(Answer, i64)> {
    let money = Money::of(&posted.accepted);
    let mut accepted = 0;
    let reply = |(event, &number): (&Event, &u8)| {
        accepted += usize::from(number == 0);
        let answer = match number {
            0 if event.kind == PAYMENT => {
                let accepted = &posted.accepted[..accepted];
                Answer::Accepted(receipts::payments(accepted, event.option))
            }
            0 => Answer::Accepted(0),
            _ => Answer::Refused(number),
        };
        (answer, money.owed_after(accepted))
    };
    events.iter().zip(&posted.answers).map(reply).collect()
}

/// What the account tells: owed, deposit, service and open items.
pub fn told(_: &[Event], posted: &Posted, kept: &Kept) -> Option<String> {
    let expected = when_asked(posted, kept.asked, Told::by_peer);
    unequal("what the account tells", &expected, &kept.told)
}

/// What the account tells for days: arrears, an arrangement in force, a live notice or certificate.
pub fn days(_: &[Event], posted: &Posted, kept: &Kept) -> Option<String> {
    let expected = when_asked(posted, kept.asked, days::by_peer);
    unequal("what the account tells for days", &expected, &kept.days)
}

/// What the peer tells whenever the account was asked, by the events accepted up to then.
fn when_asked<T>(
    posted: &Posted,
    asked: Asked,
    by_peer: fn(&[Event], &Money, usize) -> T,
) -> Vec<T> {
    let money = Money::of(&posted.accepted);
    let mut accepted = 0;
    let mut told = Vec::new();
    for (at, &number) in posted.answers.iter().enumerate() {
        accepted += usize::from(number == 0);
        if asked == Asked::AfterEach || at + 1 == posted.answers.len() {
            told.push(by_peer(&posted.accepted, &money, accepted));
        }
    }
    told
}

/// The working days of the account's calendar.
pub fn worked(_: &[Event], posted: &Posted, kept: &Kept) -> Option<String> {
    let expected = working::by_peer(posted.calendar.as_ref(), &posted.accepted);
    unequal("working days after and to", &expected, &kept.worked)
}

/// The same numbers, and the same owed, as the history of the book tells.
pub fn history(events: &[Event], _: &Posted, kept: &Kept) -> Option<String> {
    let book = encode(&[events.to_vec()]);
    let told = core::history(&book, 0);
    let told = told.map(|replies| replies.iter().map(|r| (r.number, r.owed)).collect());
    let number = |&(answer, owed): &(Answer, i64)| match answer {
        Answer::Accepted(_) => (0, owed),
        Answer::Refused(number) => (number, owed),
    };
    let replied: Vec<(u8, i64)> = kept.replies.iter().map(number).collect();
    unequal(
        "numbers with what is owed, in the history and on the kept account",
        told,
        Ok(replied),
    )
}

/// A refused event leaves the account as it was.
pub fn refused(_: &[Event], _: &Posted, kept: &Kept) -> Option<String> {
    let (event, bytes) = kept.changed.as_ref()?;
    Some(format!(
        "  event {event}, counted from 0, is refused and changes the bytes {bytes:?}\n"
    ))
}

/// The account is what the accepted events alone make of one that was begun so, byte for byte.
pub fn accepted_alone(_: &[Event], posted: &Posted, kept: &Kept) -> Option<String> {
    let mut account = begin(posted.calendar.as_ref());
    for &event in &posted.accepted {
        account.post(event);
    }
    let bytes = bytes::differing(&account, &kept.account);
    (!bytes.is_empty())
        .then(|| format!("  posting the accepted events alone changes the bytes {bytes:?}\n"))
}

/// Nothing before or behind the account is touched.
pub fn around(_: &[Event], _: &Posted, kept: &Kept) -> Option<String> {
    let words = "  the memory before or behind the account is not as it was\n";
    kept.is_touched_around.then(|| words.to_string())
}

#[cfg(test)]
mod tests {
    use super::*;
    use crate::make::{bill, calendar, call, cut, notice, payment};
    use crate::peer::calendar::Calendar;
    use tools::core::Account;

    const CHECKS: [(&str, Check); 9] = [
        ("answers", answers),
        ("would", would),
        ("told", told),
        ("days", days),
        ("worked", worked),
        ("history", history),
        ("refused", refused),
        ("alone", accepted_alone),
        ("around", around),
    ];

    /// Which checks speak against events, after something was made wrong in what the peer or the account said of them.
    fn speak_of(
        calendar: Option<&Calendar>,
        events: &[Event],
        wrong: fn(&mut Posted, &mut Kept),
    ) -> Vec<&'static str> {
        let mut posted = post_all_by(calendar, events);
        let mut kept = keep(calendar, events, Asked::AfterEach);
        wrong(&mut posted, &mut kept);
        let speaks = |(_, check): &&(&str, Check)| check(events, &posted, &kept).is_some();
        CHECKS
            .iter()
            .filter(speaks)
            .map(|(name, _)| *name)
            .collect()
    }

    /// The same of the worked example.
    fn speak(wrong: fn(&mut Posted, &mut Kept)) -> Vec<&'static str> {
        let events = [
            bill(100, 10_000),
            bill(130, 5_000),
            payment(131, 4_000),
            cut(131),
        ];
        speak_of(None, &events, wrong)
    }

    /// The same of a cut on the fifth working day, with the weekends on days 3, 4, 10, 11 and so on of the calendar.
    fn speak_by_calendar(wrong: fn(&mut Posted, &mut Kept)) -> Vec<&'static str> {
        let weekdays = calendar(20, |place| ![3, 4].contains(&(place % 7)));
        let events = [
            bill(0, 6_000),
            notice(20),
            call(24),
            cut(25),
            call(26),
            cut(27),
        ];
        speak_of(Some(&weekdays), &events, wrong)
    }

    #[test]
    fn nothing_speaks_against_what_is_right() {
        assert_eq!(speak(|_, _| {}), [""; 0]);
    }

    #[test]
    fn nothing_but_the_history_of_a_book_speaks_against_a_calendar() {
        assert_eq!(speak_by_calendar(|_, _| {}), ["history"]);
    }

    #[test]
    fn a_wrong_calendar_is_seen() {
        let none = |posted: &mut Posted, _: &mut Kept| posted.calendar = None;
        assert_eq!(speak_by_calendar(none), ["worked", "history", "alone"]);
        let some = |posted: &mut Posted, _: &mut Kept| {
            posted.calendar.as_mut().unwrap().bits[31] ^= 1 << 63;
        };
        assert_eq!(speak_by_calendar(some), ["worked", "history", "alone"]);
        let count = |_: &mut Posted, kept: &mut Kept| kept.worked[5].told += 1;
        assert_eq!(speak_by_calendar(count), ["worked", "history"]);
        assert_eq!(speak(count), ["worked"]);
        let fewer = |_: &mut Posted, kept: &mut Kept| kept.worked.truncate(5);
        assert_eq!(speak(fewer), ["worked"]);
    }

    #[test]
    fn a_wrong_answer_is_seen() {
        let number = |posted: &mut Posted, _: &mut Kept| posted.answers[3] = 13;
        assert_eq!(speak(number), ["answers", "would"]);
        let would = |_: &mut Posted, kept: &mut Kept| kept.would[3] = Answer::Accepted(0);
        assert_eq!(speak(would), ["would"]);
        assert_eq!(speak(|_, kept| kept.is_fine = false), ["would"]);
        let receipt = |_: &mut Posted, kept: &mut Kept| kept.replies[2].0 = Answer::Accepted(2);
        assert_eq!(speak(receipt), ["answers"]);
        let owed = |_: &mut Posted, kept: &mut Kept| kept.replies[1].1 -= 75;
        assert_eq!(speak(owed), ["answers", "history"]);
    }

    #[test]
    fn a_wrong_standing_is_seen() {
        // The same sums, but items of other days.
        let other_day = |posted: &mut Posted, _: &mut Kept| posted.accepted[0].day = 99;
        assert_eq!(speak(other_day), ["told", "days", "alone"]);
        assert_eq!(speak(|_, kept| kept.told.swap(0, 1)), ["told"]);
        let once = |_: &mut Posted, kept: &mut Kept| kept.told.truncate(1);
        assert_eq!(speak(once), ["told"]);
    }

    #[test]
    fn a_wrong_word_for_a_day_is_seen() {
        let cents = |_: &mut Posted, kept: &mut Kept| kept.days[3][1].1[0] += 1;
        assert_eq!(speak(cents), ["days"]);
        let certified = |_: &mut Posted, kept: &mut Kept| kept.days[0][2].1[3] += 1;
        assert_eq!(speak(certified), ["days"]);
        let fewer = |_: &mut Posted, kept: &mut Kept| kept.days[0].truncate(1);
        assert_eq!(speak(fewer), ["days"]);
    }

    #[test]
    fn changed_memory_is_seen() {
        let changed = |_: &mut Posted, kept: &mut Kept| kept.changed = Some((3, vec![8]));
        assert_eq!(speak(changed), ["refused"]);
        let fresh = |_: &mut Posted, kept: &mut Kept| kept.account = Account::fresh();
        assert_eq!(speak(fresh), ["alone"]);
        assert_eq!(speak(|_, kept| kept.is_touched_around = true), ["around"]);
    }
}
