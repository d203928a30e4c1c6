//! The days and counts that hints tell, against the core: an event is posted after histories in which what the hint speaks of
//! lies on each day in turn, and is refused by the hint's number exactly on the days that the hint says.
mod common;

use common::last_answer;
use std::ops::RangeInclusive;
use tools::core::{Answer, Calendar};
use tools::dates::{day, day_of, LAST_DAY};
use tools::event::Event;
use tools::hints::{
    arrears_days, call_days, conduct_from, hint, notice_days, under, Before, Days,
    CERTIFICATE_DAYS, DEPOSIT_NOTICES, NOTICE_LASTS, NOTICE_WAITS, RETURNABLE,
    SHORT_CERTIFICATES_FROM, SHORT_CERTIFICATE_DAYS,
};
use tools::words::counted;

fn bill(day: u32, amount: u64) -> Event {
    Event::of(1, day, amount)
}

fn payment(day: u32, amount: u64) -> Event {
    Event::of(2, day, amount)
}

fn returned(day: u32, receipt: u64) -> Event {
    Event::of(3, day, receipt)
}

/// A payment or a returned one at a till.
fn at(till: u8, event: Event) -> Event {
    let option = till;
    Event { option, ..event }
}

/// A deposit that becomes full on a day.
fn deposit(day: u32) -> [Event; 2] {
    [Event::of(5, day, 10_000), Event::of(6, day, 10_000)]
}

fn moved(day: u32) -> Event {
    Event::of(7, day, 0)
}

fn certificate(day: u32, days: u64) -> Event {
    Event::of(9, day, days)
}

fn notice(day: u32) -> Event {
    Event::of(12, day, 0)
}

fn call(day: u32) -> Event {
    Event::of(13, day, 0)
}

fn cut(day: u32) -> Event {
    Event::of(14, day, 0)
}

fn reconnection(day: u32) -> Event {
    Event::of(15, day, 0)
}

/// A lawful disconnection on a day.
fn lawful(day: u32) -> [Event; 3] {
    [notice(day - 5), call(day - 1), cut(day)]
}

/// The account before an event, as its hint looks at it.
fn before(events: &[Event]) -> Before {
    after(Before::default(), events)
}

fn after(mut before: Before, events: &[Event]) -> Before {
    for &event in events {
        assert!(matches!(before.post(event), Answer::Accepted(_)));
    }
    before
}

/// Whether the number refuses the last event, posted after the others, which have to be accepted.
fn refused_by(number: u8, events: &[Event]) -> bool {
    match last_answer(events) {
        Answer::Accepted(_) => false,
        answer => {
            assert_eq!(answer, Answer::Refused(number), "{events:?}");
            true
        }
    }
}

/// The days for which the number does not refuse the last event of a history.
fn passing(number: u8, days: RangeInclusive<u32>, history: impl Fn(u32) -> Vec<Event>) -> Vec<u32> {
    days.filter(|&day| !refused_by(number, &history(day)))
        .collect()
}

fn all(days: Option<Days>) -> Vec<u32> {
    days.map_or(Vec::new(), |days| (days.first..=days.last).collect())
}

#[test]
fn a_disconnection_wants_a_notice_of_these_days() {
    let t = 200;
    let noticed_on = |n| match n < t {
        true => vec![bill(0, 60_000), notice(n), call(t - 1), cut(t)],
        false => vec![bill(0, 60_000), call(t - 1), notice(n), cut(t)],
    };
    assert_eq!(passing(12, 20..=t, noticed_on), all(notice_days(t)));
}

/// A calendar whose days are those of one word, again and again.
fn calendar(first: u32, word: u64) -> Calendar {
    let bits = [word; 32];
    Calendar { first, bits }
}

/// Whether a day of the calendar is a working day, by its bit.
fn is_working(calendar: &Calendar, day: u32) -> bool {
    let at = (day - calendar.first) as usize;
    calendar.bits[at / 64] >> (at % 64) & 1 == 1
}

/// The days whose dates a line names after its colon.
fn named(line: &str) -> Vec<u32> {
    let (_, dates) = line.split_once(": ").unwrap_or_default();
    let dates = dates.split(';').next().unwrap().split(", ");
    dates.filter_map(day_of).collect()
}

/// A disconnection on day t that only its notice may refuse, with the notice on each of the calendar's days about those that count.
fn waits_so_many_working_days(calendar: &Calendar, t: u32) {
    let first = notice_days(t).unwrap().first;
    for n in calendar.first.max(first - 3)..=t {
        let mut events = [bill(0, 60_000), notice(n), call(t - 1)];
        events.sort_by_key(|event| event.day);
        let before = after(Before::begun(Some(calendar)), &events);
        let days: Vec<u32> = (n + 1..=t).filter(|&d| is_working(calendar, d)).collect();
        let is_lawful = n >= first && days.len() >= NOTICE_WAITS as usize;
        let answer = before.account().would_answer(cut(t));
        let expected = match is_lawful {
            true => Answer::Accepted(0),
            false => Answer::Refused(12),
        };
        assert_eq!(answer, expected, "notice {n}, cut {t}");
        let told = under(answer, &cut(t), &before).unwrap();
        if n < first {
            let beginning = format!("it has to be of {} or later, ", day(first));
            assert!(told.starts_with(&beginning), "{told}");
            continue;
        }
        let count = counted(days.len() as u64, "working day");
        let beginning = format!("{count} after the notice of {}", day(n));
        assert!(told.starts_with(&beginning), "{told}");
        assert_eq!(named(&told), days, "{told}");
        let wanted = format!("; {NOTICE_WAITS} are wanted");
        assert_eq!(told.ends_with(&wanted), !is_lawful, "{told}");
    }
}

#[test]
fn with_a_calendar_a_notice_waits_so_many_working_days() {
    let t = 2_200;
    let weeks = (0..64).filter(|at| at % 7 < 5).map(|at| 1 << at).sum();
    // All days, weeks, every third day, the ends of each word, none.
    for word in [u64::MAX, weeks, u64::MAX / 7, 1 << 63 | 1, 0] {
        // From long before; from the day of the oldest notice that counts, and of the next; from too late on.
        let oldest = t - NOTICE_LASTS;
        for first in [t - 1_000, oldest, oldest + 1, t - 5, t - 4, t] {
            waits_so_many_working_days(&calendar(first, word), t);
        }
        // To the day itself.
        waits_so_many_working_days(&calendar(t - 2_047, word), t);
    }
}

#[test]
fn four_working_days_are_too_few_and_five_enough() {
    // The disconnection is of the calendar's last day, whose bit is 63 of the last word; bit 53 is that of the notice's day.
    let events = [bill(0, 60_000), notice(2_090), call(2_099)];
    let answer = |last_word| {
        let mut calendar = calendar(53, 0);
        calendar.bits[31] = last_word;
        let before = after(Before::begun(Some(&calendar)), &events);
        before.account().would_answer(cut(2_100))
    };
    for too_few in [0b1111 << 59, 0b1111 << 60, 0b1111 << 60 | 1 << 53] {
        assert_eq!(answer(too_few), Answer::Refused(12), "{too_few:x}");
    }
    for enough in [0b11111 << 59, 0b1111 << 60 | 1 << 54, u64::MAX] {
        assert_eq!(answer(enough), Answer::Accepted(0), "{enough:x}");
    }
}

#[test]
fn a_notice_and_a_disconnection_are_of_days_of_the_calendar() {
    for first in [0, 100, LAST_DAY - 2_047, LAST_DAY, LAST_DAY + 1, u32::MAX] {
        let before = Before::begun(Some(&calendar(first, u64::MAX)));
        let (first, last) = (i64::from(first), i64::from(first) + 2_047);
        let told = hint(24, &cut(0), &before).unwrap();
        let beginning = format!("the calendar has day {first}");
        assert!(told.starts_with(&beginning), "{told}");
        assert!(told.contains(&format!(" to day {last}")), "{told}");
        for d in [first - 1, first, last, last + 1, 0, LAST_DAY.into()] {
            let Some(day) = u32::try_from(d).ok().filter(|&d| d <= LAST_DAY) else {
                continue;
            };
            // Where it does not refuse them, 10 does: nothing is in arrears.
            let number = if d < first || last < d { 24 } else { 10 };
            for event in [notice(day), cut(day)] {
                let answer = before.account().would_answer(event);
                assert_eq!(answer, Answer::Refused(number), "{event:?} {told}");
            }
            let answer = before.account().would_answer(call(day));
            assert_eq!(answer, Answer::Accepted(0), "{day} {told}");
        }
    }
}

#[test]
fn a_disconnection_wants_a_call_on_one_of_these_days() {
    let t = 200;
    let called_on = |c| vec![bill(0, 60_000), notice(t - 20), call(c), cut(t)];
    assert_eq!(passing(13, t - 20..=t, called_on), all(call_days(t)));
}

#[test]
fn charges_of_these_days_are_in_arrears() {
    for t in [0, 19, 20, 21, 200] {
        let billed_on = |d| vec![bill(d, 60_000), notice(t)];
        assert_eq!(passing(10, 0..=t, billed_on), all(arrears_days(t)));
    }
}

#[test]
fn a_reconnection_wants_no_charges_of_these_days() {
    let t = 100;
    let paid_up = [&[bill(0, 6_000)], &lawful(25)[..], &[payment(25, 7_500)]].concat();
    let billed_on = |d| [&paid_up[..], &[bill(d, 1), reconnection(t)]].concat();
    let last = arrears_days(t).unwrap().last;
    let after: Vec<u32> = (last + 1..=t).collect();
    assert_eq!(passing(16, 25..=t, billed_on), after);
}

/// The dates of a deposit that becomes full, and from which it is earned.
const YEARS: &str = "\
2000-01-01 2001-01-01, 2000-02-28 2001-02-28, 2000-02-29 2001-03-01, 2000-03-01 2001-03-01, \
2000-12-31 2001-12-31, 2023-02-28 2024-02-28, 2023-03-01 2024-03-01, 2024-02-28 2025-02-28, \
2024-02-29 2025-03-01, 2024-03-01 2025-03-01, 2096-02-29 2097-03-01, 2099-02-28 2100-02-28, \
2099-03-01 2100-03-01, 2100-02-28 2101-02-28, 2100-03-01 2101-03-01, 2103-02-28 2104-02-28, \
2103-03-01 2104-03-01, 2104-02-29 2105-03-01, 2198-12-31 2199-12-31";

/// The day from which on the deposit is told to be earned, under a move on day t that is refused: it is the first on which the
/// core does not refuse it so. What is told before that day stands at the beginning.
fn earned_as_told(events: &[Event], t: u32, beginning: &str) -> u32 {
    let moved_on = |day| refused_by(8, &[events, &[moved(day)]].concat());
    assert!(moved_on(t), "{t}");
    let told = hint(8, &moved(t), &before(events)).unwrap();
    let earned = named_from(&told);
    let expected = format!(
        "{beginning}; it is earned from {} on, with at most {DEPOSIT_NOTICES} final notices and no disconnection from {} on",
        day(earned),
        day(conduct_from(earned))
    );
    assert_eq!(told, expected);
    assert!(moved_on(earned - 1) && !moved_on(earned), "{told}");
    earned
}

/// The day that is told after `earned from`.
fn named_from(told: &str) -> u32 {
    let (_, named) = told.split_once("earned from day ").expect(told);
    named.split(' ').next().unwrap().parse().unwrap()
}

#[test]
fn a_deposit_is_earned_from_the_same_date_a_year_later() {
    for dates in YEARS.split(", ") {
        let (full, earned) = dates.split_once(' ').unwrap();
        let (full, earned) = (day_of(full).unwrap(), day_of(earned).unwrap());
        for t in [full, full + 1, full + 364, earned - 1] {
            let beginning = format!("it has been full since {}", day(full));
            let told = earned_as_told(&deposit(full), t, &beginning);
            assert_eq!(told, earned, "{dates}");
        }
    }
}

#[test]
fn a_deposit_is_full_since_the_newest_part_of_it() {
    let events = [
        Event::of(5, 10, 9_000),
        Event::of(6, 10, 9_000),
        Event::of(5, 59, 10_000),
        Event::of(6, 59, 400),
        Event::of(6, 60, 600),
    ];
    let beginning = format!("it has been full since {}", day(60));
    assert_eq!(earned_as_told(&events, 375, &beginning), 425);
}

#[test]
fn a_deposit_is_earned_where_another_number_refuses_its_move() {
    // The payments leave no room for a credit.
    let events = [vec![payment(0, 10_000_000_000); 100], deposit(0).to_vec()].concat();
    let before = before(&events);
    let answer = |t| before.account().would_answer(moved(t));
    assert_eq!([365, 366].map(answer), [8, 19].map(Answer::Refused));
    assert_eq!(before.earned_from(0), Some(366));
}

/// A deposit that is held by an account, and by waiting is not earned up to the last day; closing moves it.
fn goes_back_by_closing(events: &[Event], t: u32, beginning: &str) {
    for day in [t, LAST_DAY] {
        assert!(refused_by(8, &[events, &[moved(day)]].concat()));
    }
    let told = hint(8, &moved(t), &before(events)).unwrap();
    let last = day(LAST_DAY);
    let expected = format!(
        "{beginning}; up to {last}, the last, it is not earned by waiting, but closing the account moves it"
    );
    assert_eq!(told, expected);
    let closed = [events, &[Event::of(16, t, 0)]].concat();
    let owed = |events: &[Event]| before(events).account().owed();
    assert_eq!(owed(&closed), owed(events) - 10_000);
}

#[test]
fn a_deposit_for_which_no_day_is_left_goes_back_by_closing() {
    for full in [72_684, 72_685, LAST_DAY] {
        let beginning = format!("it has been full since {}", day(full));
        for t in [full, LAST_DAY] {
            goes_back_by_closing(&deposit(full), t, &beginning);
        }
    }
    // One that was earned before a disconnection that bars it to the last day.
    let from = conduct_from(LAST_DAY);
    let conduct = format!(
        "with no final notices and 1 disconnection from {} on",
        day(from)
    );
    let beginning = format!("it has been full since {}, but {conduct}", day(0));
    goes_back_by_closing(&with_deposit(&lawful(from)), LAST_DAY, &beginning);
}

/// A debt, a deposit that is full from day 0 on, and then other events.
fn with_deposit(events: &[Event]) -> Vec<Event> {
    [&deposit(0)[..], &[bill(0, 60_000)], events].concat()
}

/// So many final notices, each as soon after the one before as can be.
fn notices(first: u32, count: usize) -> Vec<Event> {
    (0..count as u32).map(|k| notice(first + 21 * k)).collect()
}

#[test]
fn so_many_notices_from_this_day_on_are_too_many() {
    let t = 1_000;
    let from = conduct_from(t);
    for count in 1..=DEPOSIT_NOTICES + 2 {
        let first = t - 21 * (count as u32 - 1);
        let events = [notices(first, count), vec![moved(t)]].concat();
        let refused = refused_by(8, &with_deposit(&events));
        assert_eq!(refused, count > DEPOSIT_NOTICES, "{count}");
    }
    // One too many, if the oldest of them is not earlier.
    let oldest_on = |n| {
        let events = [notices(n, DEPOSIT_NOTICES + 1), vec![moved(t)]].concat();
        with_deposit(&events)
    };
    let earlier: Vec<u32> = (20..from).collect();
    assert_eq!(passing(8, 20..=from + 50, oldest_on), earlier);
}

#[test]
fn a_disconnection_from_this_day_on_is_one_too_many() {
    let t = 1_000;
    let cut_on = |c| with_deposit(&[&lawful(c)[..], &[moved(t)]].concat());
    let earlier: Vec<u32> = (25..conduct_from(t)).collect();
    assert_eq!(passing(8, 25..=t, cut_on), earlier);
}

#[test]
fn what_is_in_the_way_of_a_deposit_is_told_with_the_day_on_which_it_ends() {
    let full = format!("it has been full since {}, but with", day(0));
    let notices = with_deposit(&notices(400, DEPOSIT_NOTICES + 1));
    for t in [442, 500, 764] {
        let from = day(conduct_from(t));
        let beginning = format!("{full} 3 final notices and no disconnections from {from} on");
        assert_eq!(earned_as_told(&notices, t, &beginning), 765);
    }
    let cut = with_deposit(&lawful(400));
    for (t, notices) in [
        (400, "1 final notice"),
        (759, "1 final notice"),
        (760, "no final notices"),
    ] {
        let from = day(conduct_from(t));
        let beginning = format!("{full} {notices} and 1 disconnection from {from} on");
        assert_eq!(earned_as_told(&cut, t, &beginning), 765);
    }
    // The year is over after what is in the way; the day told is that of the year.
    let early = [&[bill(0, 60_000)], &lawful(30)[..], &deposit(59)].concat();
    let full = format!("it has been full since {}", day(59));
    let from = day(30);
    let barred = format!("{full}, but with no final notices and 1 disconnection from {from} on");
    for (t, beginning) in [(394, barred), (395, full)] {
        assert_eq!(earned_as_told(&early, t, &beginning), 425);
    }
}

#[test]
fn so_many_of_the_newest_payments_can_be_returned() {
    for count in [
        0,
        1,
        RETURNABLE - 1,
        RETURNABLE,
        RETURNABLE + 1,
        3 * RETURNABLE,
    ] {
        let payments = vec![payment(0, 100); count as usize];
        for receipt in 1..=count + 2 {
            let events = [&payments[..], &[returned(0, receipt)]].concat();
            let is_newest = receipt <= count && count - receipt < RETURNABLE;
            assert_eq!(refused_by(6, &events), !is_newest, "{receipt} of {count}");
            let told = hint(6, &returned(0, receipt), &before(&payments)).unwrap();
            assert_eq!(told.contains("till 0 has given "), receipt > count);
        }
    }
}

#[test]
fn a_till_s_newest_are_not_those_of_another() {
    // One till with so many payments, another with many more before, between and after them.
    let busy = vec![at(1, payment(0, 100)); 2 * RETURNABLE as usize];
    for count in [0, 1, RETURNABLE, RETURNABLE + 1] {
        let mut payments = busy.clone();
        for _ in 0..count {
            payments.extend([at(3, payment(0, 100)), at(1, payment(0, 100))]);
        }
        payments.extend(busy.clone());
        let given = [(1, count + 4 * RETURNABLE), (3, count), (4, 0)];
        for (till, given) in given {
            for receipt in 1..=given + 2 {
                let event = at(till, returned(0, receipt));
                let events = [&payments[..], &[event]].concat();
                let is_newest = receipt <= given && given - receipt < RETURNABLE;
                assert_eq!(refused_by(6, &events), !is_newest, "{receipt} of {till}");
                let told = hint(6, &event, &before(&payments)).unwrap();
                let expected = match receipt > given {
                    true if given == 0 => format!("till {till} has given no receipt"),
                    true => format!("till {till} has given receipts up to {given}"),
                    false => format!("only the newest {RETURNABLE} of {given} payments at till {till} can be returned"),
                };
                assert_eq!(told, expected);
            }
        }
    }
}

#[test]
fn a_payment_is_returned_once() {
    let events = [payment(0, 100), returned(7, 1), returned(8, 1)];
    assert!(refused_by(6, &events));
    let told = hint(6, &events[2], &before(&events[..2]));
    assert_eq!(told, Some(format!("it was returned on {}", day(7))));
}

#[test]
fn one_number_is_a_payment_at_each_till() {
    let paid: Vec<Event> = (0..5).map(|till| at(till, payment(0, 100))).collect();
    for back in 0..5 {
        let back = at(back, returned(7, 1));
        let events = [&paid[..], &[back]].concat();
        for till in 0..5 {
            let again = at(till, returned(8, 1));
            let refused = refused_by(6, &[&events[..], &[again]].concat());
            assert_eq!(refused, till == back.option, "{back:?} {till}");
        }
        let told = hint(6, &back, &before(&events));
        assert_eq!(told, Some(format!("it was returned on {}", day(7))));
    }
}

#[test]
fn a_returned_payment_keeps_its_place_among_the_newest() {
    let payments = vec![at(2, payment(0, 100)); RETURNABLE as usize + 1];
    let events = [&payments[..], &[at(2, returned(7, 2))]].concat();
    for (receipt, refused) in [(1, true), (2, true), (3, false)] {
        let event = at(2, returned(8, receipt));
        let events = [&events[..], &[event]].concat();
        assert_eq!(refused_by(6, &events), refused, "{receipt}");
    }
}

/// What bars a disconnection by a number, and is told for it, ends as the hint says: on its last day, and not on the next.
fn bars_to_the_day_told(number: u8, bar: Event, end: u32) {
    let t = end - 3;
    let mut events = vec![bill(0, 60_000), notice(end - 10), bar];
    events.sort_by_key(|event| event.day);
    let told = hint(number, &cut(t), &before(&events)).unwrap();
    assert!(told.ends_with(&format!(" to {}", day(end))), "{told}");
    for (day, refused) in [(t, true), (end, true), (end + 1, false)] {
        let later = [&events[..], &[call(day - 1), cut(day)]].concat();
        assert_eq!(refused_by(number, &later), refused, "day {day}");
    }
}

#[test]
fn a_certificate_is_live_to_the_day_told() {
    // A long one is not cut short where it runs on past the day from which on they are shorter.
    let from = SHORT_CERTIFICATES_FROM;
    for (first, days) in [
        (100, 5),
        (100, 30),
        (100, CERTIFICATE_DAYS),
        (from - CERTIFICATE_DAYS as u32, CERTIFICATE_DAYS),
        (from - 1, CERTIFICATE_DAYS),
        (from, SHORT_CERTIFICATE_DAYS),
    ] {
        bars_to_the_day_told(15, certificate(first, days), first + days as u32 - 1);
    }
}

#[test]
fn a_certificate_has_so_many_days_at_most() {
    let from = SHORT_CERTIFICATES_FROM;
    for (t, most) in [
        (0, CERTIFICATE_DAYS),
        (from - 1, CERTIFICATE_DAYS),
        (from, SHORT_CERTIFICATE_DAYS),
        (LAST_DAY, SHORT_CERTIFICATE_DAYS),
    ] {
        for days in (0..=2 * CERTIFICATE_DAYS).chain([u64::MAX]) {
            let event = certificate(t, days);
            let told = hint(3, &event, &before(&[]));
            assert_eq!(refused_by(3, &[event]), told.is_some(), "{event:?}");
            let range = format!(" a certificate has 1 to {most} days; this one has {days}");
            assert!(told.is_none_or(|told| told.ends_with(&range)), "{event:?}");
        }
        // One with an option is refused for that: its days are told only where they are out of range too.
        for (days, is_told) in [(most, false), (most + 1, true)] {
            let option = 1;
            let event = Event {
                option,
                ..certificate(t, days)
            };
            assert!(refused_by(3, &[event]));
            let told = hint(3, &event, &before(&[]));
            assert_eq!(told.is_some(), is_told, "{event:?}");
        }
    }
}

#[test]
fn an_arrangement_is_in_force_to_the_day_told() {
    // Nothing is paid, so that it falls behind with its first part.
    bars_to_the_day_told(14, Event::new(11, 2, 100, 0), 129);
}

#[test]
fn a_notice_is_live_to_the_day_told() {
    let told = hint(11, &notice(30), &before(&[bill(0, 60_000), notice(25)])).unwrap();
    assert!(told.ends_with(&format!(" to {}", day(45))), "{told}");
    assert!(refused_by(11, &[bill(0, 60_000), notice(25), notice(45)]));
    assert!(!refused_by(11, &[bill(0, 60_000), notice(25), notice(46)]));
}

#[test]
fn the_last_accepted_event_has_the_first_day_of_the_next() {
    for last in [1, 100, 73_048] {
        let early = call(last - 1);
        assert!(refused_by(2, &[call(last), early]));
        assert!(!refused_by(2, &[call(last), call(last)]));
        let told = hint(2, &early, &before(&[call(last)])).unwrap();
        assert!(told.ends_with(&day(last)));
    }
}
