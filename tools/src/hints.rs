//! One line beside a refusal: the days that its rule looks at, and what the account's accepted events have there.
//! That an event is refused, and by which number, is the core's to say; a hint only points at what to look for.
//! Where an account has a calendar, a line beside a disconnection names the working days that its notice waited.
//!
//! What lasts to which day, from which day on a deposit is earned, and what is in arrears, is asked of the core. The days and
//! counts that can't be asked have a name each, so that a test holds them against the core at all their ends
//! (tools/tests/hints.rs).
use crate::calendar;
use crate::core::{Account, Answer, Calendar};
use crate::dates::{date, day, LAST_DAY};
use crate::event::Event;
use crate::words::{counted, money};
use std::fmt;

const PAYMENT: u8 = 2;
const RETURNED_PAYMENT: u8 = 3;
const DEPOSIT_PAID: u8 = 6;
const DEPOSIT_MOVED: u8 = 7;
const CERTIFICATE: u8 = 9;
const ARRANGEMENT: u8 = 11;
const FINAL_NOTICE: u8 = 12;
const CALL: u8 = 13;
const DISCONNECTION: u8 = 14;

/// A final notice waits so many days before a disconnection; with a calendar, so many working days.
pub const NOTICE_WAITS: u32 = 5;
/// So many days after its own a final notice is live.
pub const NOTICE_LASTS: u32 = 20;
/// So many of the newest payments of each till can be returned.
pub const RETURNABLE: u64 = 16;
/// A charge is in arrears so many days after its own.
pub const IN_ARREARS_AFTER: u32 = 20;
/// A deposit looks back on so many days of final notices and disconnections, that of its move among them.
const CONDUCT_DAYS: u32 = 365;
/// So many final notices in those days are not too many.
pub const DEPOSIT_NOTICES: usize = 2;
/// The number that refuses a move of a deposit that is not earned.
const NOT_EARNED: u8 = 8;
/// So many days a certificate has at most.
pub const CERTIFICATE_DAYS: u64 = 180;
/// Certificates of this day and later, 1 January 2026, are shorter.
pub const SHORT_CERTIFICATES_FROM: u32 = 9_497;
/// So many days they have at most.
pub const SHORT_CERTIFICATE_DAYS: u64 = 90;

/// Days from the first to the last, both among them.
#[derive(Clone, Copy, Debug, PartialEq, Eq)]
pub struct Days {
    pub first: u32,
    pub last: u32,
}

impl Days {
    /// Those that lie `least` to `most` days before a day; none where all of them would lie before day 0.
    fn before(day: u32, least: u32, most: u32) -> Option<Days> {
        let last = day.checked_sub(least)?;
        let first = day.saturating_sub(most);
        Some(Days { first, last })
    }
}

impl fmt::Display for Days {
    fn fmt(&self, out: &mut fmt::Formatter) -> fmt::Result {
        write!(out, "{} to {}", day(self.first), day(self.last))
    }
}

/// A disconnection on day t wants a final notice of these days; with a calendar one of the first of them or later.
pub fn notice_days(t: u32) -> Option<Days> {
    Days::before(t, NOTICE_WAITS, NOTICE_LASTS)
}

/// A disconnection on day t wants a call on one of these days.
pub fn call_days(t: u32) -> Option<Days> {
    Days::before(t, 1, 3)
}

/// What is unpaid of the charges of these days is in arrears on day t.
pub fn arrears_days(t: u32) -> Option<Days> {
    Days::before(t, IN_ARREARS_AFTER, t)
}

/// Final notices and disconnections from this day on speak against moving a deposit on day t.
pub fn conduct_from(t: u32) -> u32 {
    t.saturating_sub(CONDUCT_DAYS - 1)
}

/// An account before an event.
#[derive(Clone, Default)]
pub struct Before {
    accepted: Vec<Event>,
    account: Account,
    /// The first day of its calendar, where it has one.
    first: Option<u32>,
}

impl Before {
    /// An account without events, begun with a calendar or without one.
    pub fn begun(calendar: Option<&Calendar>) -> Before {
        Before {
            accepted: Vec::new(),
            account: calendar.map_or_else(Account::fresh, Account::begin),
            first: calendar.map(|calendar| calendar.first),
        }
    }

    /// Posts an event, and keeps it where the core accepts it.
    pub fn post(&mut self, event: Event) -> Answer {
        let answer = self.account.post(event);
        if let Answer::Accepted(_) = answer {
            self.accepted.push(event);
        }
        answer
    }

    pub fn account(&self) -> &Account {
        &self.account
    }

    /// The day of the newest event, 0 where there is none.
    pub fn newest_day(&self) -> u32 {
        self.accepted.last().map_or(0, |event| event.day)
    }

    /// The newest event of a kind.
    fn newest(&self, kind: u8) -> Option<&Event> {
        self.accepted.iter().rev().find(|event| event.kind == kind)
    }

    /// The last of the days from t on for which the core says yes, one after another.
    pub fn last_day(&self, t: u32, ask: fn(&Account, u32) -> Result<bool, u8>) -> Option<u32> {
        (t..=LAST_DAY)
            .take_while(|&day| ask(&self.account, day) == Ok(true))
            .last()
    }

    /// The first day from t on for which the core does not say that the full deposit is not earned, where nothing else comes.
    /// A year has at most 366 days, and no final notice or disconnection bars for longer: the day is found within so many, or
    /// fewer are left and there is none.
    pub fn earned_from(&self, t: u32) -> Option<u32> {
        let moved = |day| self.account.would_answer(Event::of(DEPOSIT_MOVED, day, 0));
        (t..=LAST_DAY).find(|&day| moved(day) != Answer::Refused(NOT_EARNED))
    }
}

/// The line under the answer to an event: a hint where it is refused, and the working days that a disconnection counted.
pub fn under(answer: Answer, event: &Event, before: &Before) -> Option<String> {
    match answer {
        Answer::Refused(number) => hint(number, event, before),
        Answer::Accepted(_) if event.kind == DISCONNECTION => waited(event.day, before),
        Answer::Accepted(_) => None,
    }
}

/// The hint for an event that the number refuses.
pub fn hint(number: u8, event: &Event, before: &Before) -> Option<String> {
    let t = event.day;
    match number {
        2 => last_event(before),
        3 if event.kind == CERTIFICATE => certificate_days(event),
        6 => Some(receipt(event.option, event.amount, before)),
        NOT_EARNED => deposit(t, before),
        9 => arrangement_refused(t, before),
        10 | 16 => arrears(t, before),
        11 => live_notice(t, before),
        12 => notice(t, before),
        13 => call(t, before),
        14 => arrangement(t, before),
        15 => certificate(t, before),
        17 => Some(required(before)),
        24 => before
            .first
            .map(|first| format!("the calendar has {}", calendar::days(first))),
        _ => None,
    }
}

fn last_event(before: &Before) -> Option<String> {
    let last = before.accepted.last()?;
    Some(format!("the last accepted event is of {}", day(last.day)))
}

/// Nothing where the days are in range: then it has an option, and the words of the event show it.
fn certificate_days(event: &Event) -> Option<String> {
    let from = day(SHORT_CERTIFICATES_FROM);
    let (when, most) = if event.day < SHORT_CERTIFICATES_FROM {
        (format!("before {from}"), CERTIFICATE_DAYS)
    } else {
        (format!("from {from} on"), SHORT_CERTIFICATE_DAYS)
    };
    let days = event.amount;
    let told = || format!("{when} a certificate has 1 to {most} days; this one has {days}");
    (!(1..=most).contains(&days)).then(told)
}

/// The till is told even where it is 0: a return that names the wrong one is the likely mistake.
fn receipt(till: u8, receipt: u64, before: &Before) -> String {
    let of_till = |kind| {
        let events = before.accepted.iter();
        events.filter(move |event| event.kind == kind && event.option == till)
    };
    let returned = of_till(RETURNED_PAYMENT).find(|event| event.amount == receipt);
    if let Some(event) = returned {
        return format!("it was returned on {}", day(event.day));
    }
    match of_till(PAYMENT).count() as u64 {
        0 => format!("till {till} has given no receipt"),
        given if receipt > given => format!("till {till} has given receipts up to {given}"),
        given => format!(
            "only the newest {RETURNABLE} of {given} payments at till {till} can be returned"
        ),
    }
}

fn deposit(t: u32, before: &Before) -> Option<String> {
    let full = before.newest(DEPOSIT_PAID)?;
    let told = format!(
        "it has been full since {}{}",
        day(full.day),
        conduct(t, before)
    );
    let Some(earned) = before.earned_from(t) else {
        let last = day(LAST_DAY);
        return Some(format!(
            "{told}; up to {last}, the last, it is not earned by waiting, but closing the account moves it"
        ));
    };
    let (earned, from) = (day(earned), day(conduct_from(earned)));
    Some(format!(
        "{told}; it is earned from {earned} on, with at most {DEPOSIT_NOTICES} final notices and no disconnection from {from} on"
    ))
}

/// The final notices and disconnections that bar a move of the deposit on day t; nothing where they do not.
fn conduct(t: u32, before: &Before) -> String {
    let from = conduct_from(t);
    let since = |kind| {
        let events = before.accepted.iter();
        events.filter(|e| e.kind == kind && e.day >= from).count()
    };
    let (notices, cuts) = (since(FINAL_NOTICE), since(DISCONNECTION));
    if notices <= DEPOSIT_NOTICES && cuts == 0 {
        return String::new();
    }
    let notices = counted(notices as u64, "final notice");
    let cuts = counted(cuts as u64, "disconnection");
    format!(", but with {notices} and {cuts} from {} on", day(from))
}

fn arrears(t: u32, before: &Before) -> Option<String> {
    let cents = before.account.arrears(t).ok()?;
    let Some(days) = arrears_days(t) else {
        return Some(format!(
            "nothing is in arrears before day {IN_ARREARS_AFTER}"
        ));
    };
    let last = day(days.last);
    Some(match cents {
        0 => format!("nothing is in arrears: no charge up to {last} is unpaid"),
        _ => format!(
            "{} are in arrears, what is unpaid of charges up to {last}",
            money(cents.into())
        ),
    })
}

/// Either can be the reason, so that both are told.
fn arrangement_refused(t: u32, before: &Before) -> Option<String> {
    let arrears = arrears(t, before)?;
    Some(match arrangement(t, before) {
        Some(made) => format!("{made}; {arrears}"),
        None => arrears,
    })
}

fn live_notice(t: u32, before: &Before) -> Option<String> {
    let notice = before.newest(FINAL_NOTICE)?;
    let last = before.last_day(t, Account::notice_live)?;
    Some(format!(
        "it is of {}, and live to {}",
        day(notice.day),
        day(last)
    ))
}

fn notice(t: u32, before: &Before) -> Option<String> {
    let days = notice_days(t)?;
    let wanted = match before.first {
        None => format!("{days}, not used and not lapsed"),
        // One that is live has not waited long enough, or there would be no hint.
        Some(_) if before.account.notice_live(t) == Ok(true) => {
            return waited(t, before).map(|told| format!("{told}; {NOTICE_WAITS} are wanted"));
        }
        Some(first) => format!(
            "{} or later, not used and not lapsed, with {NOTICE_WAITS} working days after it up to this day",
            day(days.first.max(first))
        ),
    };
    let last = match before.newest(FINAL_NOTICE) {
        Some(notice) => format!("the last one is of {}", day(notice.day)),
        None => "there was none".to_string(),
    };
    Some(format!("it has to be of {wanted}; {last}"))
}

/// The working days that the newest final notice has waited on day t, each of them asked for; nothing without a calendar.
fn waited(t: u32, before: &Before) -> Option<String> {
    let account = &before.account;
    let notice = before.newest(FINAL_NOTICE)?.day;
    let count = counted(account.working_days(notice, t)?, "working day");
    let is_working = |&day: &u32| account.working_days(day - 1, day) == Some(1);
    let days = (notice + 1..=t).filter(is_working).filter_map(date);
    let days: Vec<String> = days.collect();
    let colon = if days.is_empty() { "" } else { ": " };
    let (notice, days) = (day(notice), days.join(", "));
    Some(format!("{count} after the notice of {notice}{colon}{days}"))
}

fn call(t: u32, before: &Before) -> Option<String> {
    let days = call_days(t)?;
    // A call on the day of the disconnection does not count, so it is not the one to show.
    let mut earlier = before.accepted.iter().rev();
    let last = match earlier.find(|event| event.kind == CALL && event.day < t) {
        Some(call) => format!("the last before is of {}", day(call.day)),
        None => "there was none before".to_string(),
    };
    Some(format!("it has to be of {days}; {last}"))
}

fn arrangement(t: u32, before: &Before) -> Option<String> {
    let made = before.newest(ARRANGEMENT)?;
    let last = before.last_day(t, Account::in_force)?;
    Some(format!(
        "it was made on {} in {} parts; without another payment it is in force to {}",
        day(made.day),
        made.option,
        day(last)
    ))
}

fn required(before: &Before) -> String {
    let required = money(before.account.required().into());
    let held = money(before.account.held().into());
    format!("{required} are required, and {held} held")
}

fn certificate(t: u32, before: &Before) -> Option<String> {
    let last = before.last_day(t, Account::certified)?;
    Some(format!("a certificate is live to {}", day(last)))
}

#[cfg(test)]
mod tests {
    use super::*;

    /// The account after events that the core accepts.
    fn before(events: &[Event]) -> Before {
        after(Before::default(), events)
    }

    fn after(mut before: Before, events: &[Event]) -> Before {
        for &event in events {
            let answer = before.post(event);
            assert!(
                matches!(answer, Answer::Accepted(_)),
                "{event:?} {answer:?}"
            );
        }
        before
    }

    fn cut(number: u8, day: u32, events: &[Event]) -> String {
        hint(number, &Event::of(14, day, 0), &before(events)).unwrap()
    }

    /// A bill, and a final notice for it.
    const NOTICED: [Event; 2] = [event(1, 0, 6_000), event(FINAL_NOTICE, 20, 0)];

    const fn event(kind: u8, day: u32, amount: u64) -> Event {
        let option = 0;
        Event {
            kind,
            option,
            day,
            amount,
        }
    }

    fn noticed(events: &[Event]) -> Vec<Event> {
        [&NOTICED[..], events].concat()
    }

    #[test]
    fn a_disconnection_shows_its_days_and_what_there_was() {
        let events = noticed(&[event(CALL, 21, 0), event(CALL, 25, 0)]);
        assert_eq!(
            cut(13, 25, &events),
            "it has to be of day 22 (2000-01-23) to day 24 (2000-01-25); the last before is of day 21 (2000-01-22)"
        );
        assert_eq!(
            cut(12, 24, &events[..2]),
            "it has to be of day 4 (2000-01-05) to day 19 (2000-01-20), not used and not lapsed; the last one is of day 20 (2000-01-21)"
        );
        assert!(cut(13, 25, &[]).ends_with("there was none before"));
        assert!(cut(12, 25, &[]).ends_with("there was none"));
        assert_eq!(
            cut(10, 25, &[event(1, 5, 4_999)]),
            "49.99 are in arrears, what is unpaid of charges up to day 5 (2000-01-06)"
        );
        assert_eq!(cut(10, 19, &[]), "nothing is in arrears before day 20");
        assert_eq!(
            cut(10, 25, &[event(1, 6, 4_999)]),
            "nothing is in arrears: no charge up to day 5 (2000-01-06) is unpaid"
        );
    }

    /// From day 20 on, in which every second day is a working day, the first of them day 21.
    const CALENDAR: Calendar = Calendar {
        first: 20,
        bits: [0xAAAA_AAAA_AAAA_AAAA; 32],
    };

    #[test]
    fn a_calendar_shows_the_working_days_that_were_counted() {
        let before = after(Before::begun(Some(&CALENDAR)), &NOTICED);
        let told = |answer, t| under(answer, &event(14, t, 0), &before);
        let refused = Answer::Refused(12);
        assert_eq!(
            told(refused, 20).as_deref(),
            Some("no working days after the notice of day 20 (2000-01-21); 5 are wanted")
        );
        assert_eq!(
            told(refused, 28).as_deref(),
            Some(
                "4 working days after the notice of day 20 (2000-01-21): \
                2000-01-22, 2000-01-24, 2000-01-26, 2000-01-28; 5 are wanted"
            )
        );
        assert_eq!(
            told(Answer::Accepted(0), 29).as_deref(),
            Some(
                "5 working days after the notice of day 20 (2000-01-21): \
                2000-01-22, 2000-01-24, 2000-01-26, 2000-01-28, 2000-01-30"
            )
        );
        assert_eq!(
            told(refused, 41).as_deref(),
            Some(
                "it has to be of day 21 (2000-01-22) or later, not used and not lapsed, with 5 working days after it up to this day; \
                the last one is of day 20 (2000-01-21)"
            )
        );
        assert_eq!(
            told(Answer::Refused(24), 2_068).as_deref(),
            Some("the calendar has day 20 (2000-01-21) to day 2067 (2005-08-29)")
        );
    }

    #[test]
    fn with_a_calendar_a_notice_that_does_not_live_shows_what_it_has_to_be() {
        let told = |events: &[Event]| {
            let before = after(Before::begun(Some(&CALENDAR)), events);
            hint(12, &event(14, 30, 0), &before).unwrap()
        };
        // Day 10 is twenty days back, and the calendar begins on day 20.
        let wanted = "it has to be of day 20 (2000-01-21) or later, not used and not lapsed, with 5 working days after it up to this day";
        assert_eq!(told(&[]), format!("{wanted}; there was none"));
        let last = format!("{wanted}; the last one is of day 20 (2000-01-21)");
        // It lapses where a payment leaves too little in arrears, and a disconnection uses it up.
        assert_eq!(told(&noticed(&[event(PAYMENT, 21, 2_000)])), last);
        let used = [event(CALL, 28, 0), event(DISCONNECTION, 29, 0)];
        assert_eq!(told(&noticed(&used)), last);
    }

    #[test]
    fn without_a_calendar_no_working_days_are_told() {
        let before = before(&noticed(&[event(CALL, 22, 0)]));
        let cut = event(14, 25, 0);
        assert_eq!(under(Answer::Accepted(0), &cut, &before), None);
        let told = |number| hint(number, &cut, &before);
        assert_eq!(under(Answer::Refused(13), &cut, &before), told(13));
        assert_eq!(told(24), None);
    }

    #[test]
    fn an_arrangement_has_nothing_to_be_about_or_one_is_in_force() {
        let made = Event::new(ARRANGEMENT, 3, 22, 0);
        let told = |events: &[Event]| hint(9, &Event { day: 25, ..made }, &before(events)).unwrap();
        assert_eq!(
            told(&[event(1, 6, 60)]),
            "nothing is in arrears: no charge up to day 5 (2000-01-06) is unpaid"
        );
        assert_eq!(
            told(&noticed(&[made])),
            "it was made on day 22 (2000-01-23) in 3 parts; without another payment it is in force to day 51 (2000-02-21); \
             60.00 are in arrears, what is unpaid of charges up to day 5 (2000-01-06)"
        );
    }

    #[test]
    fn a_reconnection_shows_the_deposit_that_it_wants() {
        let events = [event(5, 20, 24_000), event(6, 21, 10_050)];
        let told = hint(17, &event(15, 25, 0), &before(&events));
        assert_eq!(
            told.as_deref(),
            Some("240.00 are required, and 100.50 held")
        );
    }

    #[test]
    fn what_bars_a_disconnection_is_named() {
        let arrangement = Event::new(ARRANGEMENT, 3, 22, 0);
        assert_eq!(
            cut(14, 25, &noticed(&[arrangement])),
            "it was made on day 22 (2000-01-23) in 3 parts; without another payment it is in force to day 51 (2000-02-21)"
        );
        let certificates = [event(9, 21, 30), event(9, 23, 5)];
        assert_eq!(
            cut(15, 25, &noticed(&certificates)),
            "a certificate is live to day 50 (2000-02-20)"
        );
        let events = noticed(&[event(FINAL_NOTICE, 50, 0)]);
        let third = hint(11, &event(FINAL_NOTICE, 60, 0), &before(&events));
        assert_eq!(
            third.as_deref(),
            Some("it is of day 50 (2000-02-20), and live to day 70 (2000-03-11)")
        );
    }

    /// A deposit that is full since a day, and what is told of it on another, with other events before.
    fn deposit_told(full: u32, others: &[Event], t: u32) -> String {
        let mut events = vec![event(5, full, 900), event(DEPOSIT_PAID, full, 900)];
        events.extend(others);
        events.sort_by_key(|event| event.day);
        hint(NOT_EARNED, &event(DEPOSIT_MOVED, t, 0), &before(&events)).unwrap()
    }

    #[test]
    fn a_deposit_shows_from_which_day_on_it_is_earned() {
        let told =
            "it has been full since day 8825 (2024-02-29); it is earned from day 9191 (2025-03-01) on, \
            with at most 2 final notices and no disconnection from day 8827 (2024-03-02) on";
        for t in [8_825, 9_190] {
            assert_eq!(deposit_told(8_825, &[], t), told);
        }
        assert_eq!(
            deposit_told(72_684, &[], 73_048),
            "it has been full since day 72684 (2199-01-01); up to day 73048 (2199-12-31), the last, it is not earned by waiting, \
            but closing the account moves it"
        );
        let none = hint(NOT_EARNED, &event(DEPOSIT_MOVED, 5, 0), &Before::default());
        assert_eq!(none, None);
    }

    #[test]
    fn a_deposit_shows_what_is_in_its_way() {
        let cut = noticed(&[event(CALL, 22, 0), event(DISCONNECTION, 25, 0)]);
        assert_eq!(
            deposit_told(0, &cut, 389),
            "it has been full since day 0 (2000-01-01), but with no final notices and 1 disconnection from day 25 (2000-01-26) on; \
            it is earned from day 390 (2001-01-25) on, with at most 2 final notices and no disconnection from day 26 (2000-01-27) on"
        );
    }

    #[test]
    fn a_receipt_was_returned_or_never_given_or_is_too_old() {
        let mut events = vec![event(PAYMENT, 5, 100); 40];
        events.push(event(RETURNED_PAYMENT, 6, 39));
        let before = before(&events);
        let told = |number| hint(6, &event(RETURNED_PAYMENT, 7, number), &before).unwrap();
        assert_eq!(told(39), "it was returned on day 6 (2000-01-07)");
        assert_eq!(
            told(24),
            "only the newest 16 of 40 payments at till 0 can be returned"
        );
        assert_eq!(told(41), "till 0 has given receipts up to 40");
    }

    #[test]
    fn a_receipt_is_looked_for_at_its_till() {
        let paid = |till| Event::new(PAYMENT, till, 5, 100);
        let returned = |till, receipt| Event::new(RETURNED_PAYMENT, till, 6, receipt);
        let mut events = vec![paid(1); 40];
        events.extend([paid(0), paid(3), paid(3), returned(3, 2), returned(1, 39)]);
        let before = before(&events);
        let told = |till, receipt| hint(6, &returned(till, receipt), &before).unwrap();
        for (till, receipt) in [(3, 2), (1, 39)] {
            assert_eq!(told(till, receipt), "it was returned on day 6 (2000-01-07)");
        }
        // The same receipts of other tills.
        assert_eq!(told(0, 2), "till 0 has given receipts up to 1");
        assert_eq!(told(3, 39), "till 3 has given receipts up to 2");
        assert_eq!(told(2, 1), "till 2 has given no receipt");
        assert_eq!(
            told(1, 2),
            "only the newest 16 of 40 payments at till 1 can be returned"
        );
    }

    #[test]
    fn a_certificate_shows_how_many_days_it_may_have() {
        let told = |event: Event| hint(3, &event, &Before::default());
        assert_eq!(
            told(event(CERTIFICATE, 9_496, 181)).as_deref(),
            Some("before day 9497 (2026-01-01) a certificate has 1 to 180 days; this one has 181")
        );
        assert_eq!(
            told(event(CERTIFICATE, 9_497, 120)).as_deref(),
            Some("from day 9497 (2026-01-01) on a certificate has 1 to 90 days; this one has 120")
        );
        // What is wrong with it is its option.
        assert_eq!(told(Event::new(CERTIFICATE, 2, 9_497, 90)), None);
    }

    #[test]
    fn other_numbers_speak_for_themselves() {
        for number in [0, 1, 3, 4, 5, 7, 18, 19] {
            let none = hint(number, &event(14, 25, 0), &before(&NOTICED));
            assert_eq!(none, None);
        }
        let late = hint(2, &event(13, 4, 0), &before(&[event(13, 5, 0)]));
        assert_eq!(
            late.as_deref(),
            Some("the last accepted event is of day 5 (2000-01-06)")
        );
    }

    #[test]
    fn no_days_lie_before_the_first_or_past_the_event() {
        let days = [notice_days, call_days, arrears_days];
        for t in [0, 1, 4, 5, 19, 20, 364, 365, 73_048, u32::MAX] {
            for days in days.iter().filter_map(|days| days(t)) {
                assert!(days.first <= days.last && days.last <= t, "{days:?} of {t}");
            }
        }
        // Where the first of them would lie before day 0, and where all of them would.
        assert_eq!(notice_days(5), Some(Days { first: 0, last: 0 }));
        assert_eq!(notice_days(4), None);
        assert_eq!((conduct_from(363), conduct_from(365)), (0, 1));
    }
}
