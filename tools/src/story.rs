//! An account in words for the support desk: its history, what it says of a day, and what would come of an event. All answers
//! are the core's; here they only get words.
use crate::calendar;
use crate::core::{Account, Answer, Calendar};
use crate::dates::{date, day};
use crate::event::Event;
use crate::hints::{self, Before};
use crate::history::{History, Step};
use crate::table::{table, Row, Side};
use crate::words::{self, counted, money};

const DISCONNECTION: u8 = 14;

/// An account of a book, as it is told.
#[derive(Clone, Copy)]
pub struct Subject<'a> {
    pub account: usize,
    /// How many the book has.
    pub accounts: usize,
    pub events: &'a [Event],
    /// The one that it is begun with, if any: a book holds none.
    pub calendar: Option<&'a Calendar>,
}

impl Subject<'_> {
    pub fn history(&self) -> (History, Vec<Step>) {
        History::begun(self.calendar, self.events)
    }

    /// What stands above all that is told of it.
    fn heading(&self, how: &str) -> String {
        let Subject {
            account, accounts, ..
        } = self;
        let calendar = match self.calendar {
            Some(calendar) => format!("Its calendar has {}.\n", calendar::days(calendar.first)),
            None => String::new(),
        };
        format!("Account {account} of {accounts}{how}. Sums are in dollars.\n{calendar}\n")
    }
}

/// The history as a table with an answer for each event, the open charges, and the standing.
pub fn tell(subject: &Subject) -> String {
    let (history, steps) = subject.history();
    let mut text = subject.heading("");
    if !steps.is_empty() {
        text += &table_of(&steps, "");
        text += "\n";
    }
    text += &open_charges(history.account());
    text += &standing(&history);
    text
}

/// What would come of an event after all others.
pub fn tried(subject: &Subject, event: Event) -> String {
    let (history, _) = subject.history();
    let table = table_of(&[history.tried(event)], "would be ");
    subject.heading(", tried with nothing changed") + &table
}

/// What the account says of a day after all events.
pub fn on(subject: &Subject, t: u32) -> String {
    let (history, _) = subject.history();
    let told = said_of(&history, t).unwrap_or_else(|number| day_refused(&history, t, number));
    subject.heading(&format!(" on {}, after all events", day(t))) + &told
}

fn table_of(steps: &[Step], tense: &str) -> String {
    let head = ["day", "date", "event", "owed", "answer"].map(String::from);
    let mut rows = vec![Row::of(head.into())];
    rows.extend(steps.iter().map(|step| Row {
        cells: vec![
            step.event.day.to_string(),
            date(step.event.day).unwrap_or_else(|| "-".to_string()),
            words::event(&step.event),
            money(step.owed.into()),
            tense.to_string() + &answer(step),
        ],
        note: step.note.clone(),
    }));
    let sides = [Side::Right, Side::Left, Side::Left, Side::Right, Side::Left];
    table(&sides, &rows)
}

fn answer(step: &Step) -> String {
    let mut text = match step.answer {
        Answer::Refused(number) => return refused(number, step.event.kind),
        Answer::Accepted(_) => "accepted".to_string(),
    };
    if let Some(receipt) = step.receipt() {
        text += &format!(", receipt {receipt}");
    }
    if let Some(again) = step.again {
        text += &format!(", {} charged again", money(again.into()));
    }
    if step.added > 0 {
        let what = words::added(step.event.kind);
        text += &format!(", {} {what} added", money(step.added));
    }
    if step.added < 0 {
        text += &format!(", {} of deposit credited", money(-step.added));
    }
    text
}

fn refused(number: u8, kind: u8) -> String {
    format!("refused {number}: {}", words::reason(number, kind))
}

/// The charges that are not paid in full. All of them: they are never more than the events above them.
fn open_charges(account: &Account) -> String {
    let head = ["day", "date", "unpaid"].map(String::from);
    let mut rows = vec![Row::of(head.into())];
    rows.extend(account.open_items().map(|item| {
        // The day of an open charge is that of an accepted event.
        let day = item.day as u32;
        let date = date(day).unwrap_or_else(|| "-".to_string());
        Row::of(vec![day.to_string(), date, money(item.unpaid.into())])
    }));
    if rows.len() == 1 {
        return String::new();
    }
    let rows = table(&[Side::Right, Side::Left, Side::Right], &rows);
    format!("Open charges, the oldest first:\n\n{rows}\n")
}

fn standing(history: &History) -> String {
    let account = history.account();
    let owed = match i128::from(account.owed()) {
        cents if cents < 0 => format!("{} of credit", money(-cents)),
        cents => format!("{} owed", money(cents)),
    };
    let held = deposit(history.before());
    let open = counted(account.open_count(), "open charge");
    let service = account.service();
    let refused = counted(history.refused as u64, "event");
    format!("Standing: {owed}, {held}, {open}, service {service}, {refused} refused.\n")
}

fn deposit(before: &Before) -> String {
    let account = before.account();
    let (held, required) = (account.held(), account.required());
    let sum = money(held.into());
    match required {
        0 => "no deposit held".to_string(),
        _ if held == required => format!("{sum} of deposit held, {}", earned(before)),
        _ => format!("{sum} held of a deposit of {}", money(required.into())),
    }
}

/// From which day on the full deposit is earned, where nothing else comes; asked from the day of the newest event on.
fn earned(before: &Before) -> String {
    let newest = before.newest_day();
    match before.earned_from(newest) {
        Some(first) if first == newest => "already earned".to_string(),
        Some(first) => format!("earned from {} on", day(first)),
        None => "not earned by waiting".to_string(),
    }
}

/// What the core answers to the questions for a day, or the number that refuses the day.
fn said_of(history: &History, t: u32) -> Result<String, u8> {
    let account = history.account();
    let arrears = account.arrears(t)?;
    let row = |name: &str, told: String| Row::of(vec![name.to_string(), told]);
    let lasting = |ask, yes: &str| match history.before().last_day(t, ask) {
        Some(last) => format!("{yes} to {}", day(last)),
        None => format!("none {yes}"),
    };
    let rows = [
        row("arrears", money(arrears.into())),
        row("final notice", lasting(Account::notice_live, "live")),
        row(
            "payment arrangement",
            lasting(Account::in_force, "in force"),
        ),
        row("medical certificate", lasting(Account::certified, "live")),
        disconnection(history, t),
    ];
    Ok(table(&[Side::Left, Side::Left], &rows))
}

/// Whether a disconnection would be accepted on a day.
fn disconnection(history: &History, t: u32) -> Row {
    let event = Event::of(DISCONNECTION, t, 0);
    let answer = history.account().would_answer(event);
    let told = match answer {
        Answer::Accepted(_) => "allowed".to_string(),
        Answer::Refused(number) => format!("not allowed, {}", refused(number, DISCONNECTION)),
    };
    let cells = vec!["disconnection".to_string(), told];
    let note = hints::under(answer, &event, history.before());
    Row { cells, note }
}

/// A day is refused as that of an event is.
fn day_refused(history: &History, t: u32, number: u8) -> String {
    let event = Event::of(DISCONNECTION, t, 0);
    let mut text = refused(number, DISCONNECTION) + "\n";
    if let Some(hint) = hints::hint(number, &event, history.before()) {
        text += &format!("  {hint}\n");
    }
    text
}

#[cfg(test)]
mod tests {
    use super::*;
    use crate::text;

    fn events(written: &str) -> Vec<Event> {
        let events = written.split("; ").map(|event| text::event(event).unwrap());
        events.collect()
    }

    /// The first of two accounts, which has no calendar.
    fn subject(events: &[Event]) -> Subject<'_> {
        Subject {
            account: 0,
            accounts: 2,
            events,
            calendar: None,
        }
    }

    #[test]
    fn the_columns_stand_under_each_other() {
        let events = events("9 bill 10000; 131 payment 4000; 131 bill 700; 131 cut");
        let expected = "\
Account 0 of 2. Sums are in dollars.

day  date        event               owed  answer
  9  2000-01-10  bill of 100.00    100.00  accepted
131  2000-05-11  payment of 40.00   60.00  accepted, receipt 1
131  2000-05-11  bill of 7.00       67.45  accepted, 0.45 late charge added
131  2000-05-11  disconnection      67.45  refused 12: no live final notice, or it is too new or too old
                                             it has to be of day 111 (2000-04-21) to day 126 (2000-05-06), not used and not lapsed; there was none

Open charges, the oldest first:

day  date        unpaid
  9  2000-01-10   60.00
131  2000-05-11    7.45

Standing: 67.45 owed, no deposit held, 2 open charges, service on, 1 event refused.
";
        assert_eq!(tell(&subject(&events)), expected);
    }

    /// The answers to events, in the words of the table.
    fn answers(written: &str) -> Vec<String> {
        History::of(&events(written)).1.iter().map(answer).collect()
    }

    #[test]
    fn what_an_event_added_has_its_name() {
        let told = answers("0 fee 2; 0 bill 6000; 20 notice; 22 call; 25 cut");
        let [fee, bill, notice, call, cut] = &told[..] else {
            panic!("{told:?}");
        };
        assert_eq!(fee, "accepted, 150.00 fee added");
        assert_eq!(bill, "accepted, 1.12 late charge added");
        assert_eq!(notice, "accepted, 15.00 final notice fee added");
        assert_eq!((&call[..], &cut[..]), ("accepted", "accepted"));
        let told = answers("0 payment 4000; 1 returned 1; 2 payment 9000; 2 close");
        assert_eq!(
            told[1],
            "accepted, 40.00 charged again, 25.00 returned check fee added"
        );
        assert_eq!(told[2], "accepted, receipt 2");
        let told =
            answers("0 payment 4000; 0 payment 50 till=3; 1 returned 1 till=3; 2 payment 7 till=3");
        assert_eq!(told[1], "accepted, receipt 1");
        assert_eq!(
            told[2],
            "accepted, 0.50 charged again, 25.00 returned check fee added"
        );
        assert_eq!(told[3], "accepted, receipt 2");
        let back = "0 bill 6000; 20 notice; 22 call; 25 cut; 26 payment 7500; 26 reconnection 1";
        let told = answers(back);
        assert_eq!(told[5], "accepted, 75.00 reconnection fee added");
        let told = answers("0 deposit-asked 900; 0 deposit-paid 900; 1 close; 2 close");
        assert_eq!(told[2], "accepted, 9.00 of deposit credited");
        assert!(told[3].starts_with("refused 4: "));
    }

    #[test]
    fn a_standing_has_words_for_credit_deposit_and_counts() {
        let stands = |written| standing(&History::of(&events(written)).0);
        assert_eq!(
            stands("0 payment 250; 0 deposit-asked 900; 0 deposit-paid 900"),
            "Standing: 2.50 of credit, 9.00 of deposit held, earned from day 366 (2001-01-01) on, no open charges, service on, \
            no events refused.\n"
        );
        assert_eq!(
            stands("0 bill 5; 0 deposit-asked 900; 0 deposit-paid 100; 0 cut; 0 cut; 0 close"),
            "Standing: 0.95 of credit, no deposit held, no open charges, service closed, 2 events refused.\n"
        );
        assert!(stands("0 deposit-asked 900").contains(", 0.00 held of a deposit of 9.00, "));
    }

    #[test]
    fn a_standing_tells_from_which_day_on_the_deposit_is_earned() {
        let full = |day| format!("{day} deposit-asked 900; {day} deposit-paid 900; ");
        for (events, told) in [
            (full(0) + "365 call", "earned from day 366 (2001-01-01) on"),
            (full(0) + "366 call", "already earned"),
            (full(0) + "400 call", "already earned"),
            (
                full(72_683) + "72684 call",
                "earned from day 73048 (2199-12-31) on",
            ),
            (full(72_684) + "73048 call", "not earned by waiting"),
        ] {
            let stands = standing(&History::of(&self::events(&events)).0);
            let expected =
                format!("Standing: 0.00 owed, 9.00 of deposit held, {told}, no open charges, ");
            assert!(stands.starts_with(&expected), "{stands}");
        }
    }

    const NOTICED: &str = "0 bill 6000; 20 notice; 22 call";

    #[test]
    fn a_day_is_told_by_all_its_questions() {
        let told = on(&subject(&events(NOTICED)), 25);
        let expected = "\
Account 0 of 2 on day 25 (2000-01-26), after all events. Sums are in dollars.

arrears              60.00
final notice         live to day 40 (2000-02-10)
payment arrangement  none in force
medical certificate  none live
disconnection        allowed
";
        assert_eq!(told, expected);
        let barred = format!("{NOTICED}; 22 arrangement 2; 23 certificate 9");
        let told = on(&subject(&events(&barred)), 24);
        let expected = "\
payment arrangement  in force to day 51 (2000-02-21)
medical certificate  live to day 31 (2000-02-01)
disconnection        not allowed, refused 12: no live final notice, or it is too new or too old
                       it has to be of day 4 (2000-01-05) to day 19 (2000-01-20), not used and not lapsed; the last one is of day 20 (2000-01-21)
";
        assert!(told.ends_with(expected), "{told}");
    }

    /// What is told of an account with a calendar, whose first five working days are 21, 22, 23, 25 and 26.
    fn by_calendar(tell: impl Fn(&Subject) -> String) -> String {
        let events = events("0 bill 6000; 20 notice; 24 call");
        let calendar = Calendar {
            first: 20,
            bits: [0b110_1110; 32],
        };
        tell(&Subject {
            calendar: Some(&calendar),
            ..subject(&events)
        })
    }

    const COUNTED: &str = "5 working days after the notice of day 20 (2000-01-21): \
        2000-01-22, 2000-01-23, 2000-01-24, 2000-01-26, 2000-01-27\n";

    #[test]
    fn a_day_is_told_by_the_calendar_too() {
        let told = |t| by_calendar(|subject| on(subject, t));
        let expected = "\
Account 0 of 2 on day 25 (2000-01-26), after all events. Sums are in dollars.
Its calendar has day 20 (2000-01-21) to day 2067 (2005-08-29).

arrears              60.00
final notice         live to day 40 (2000-02-10)
payment arrangement  none in force
medical certificate  none live
disconnection        not allowed, refused 12: no live final notice, or it is too new or too old
                       4 working days after the notice of day 20 (2000-01-21): 2000-01-22, 2000-01-23, 2000-01-24, 2000-01-26; 5 are wanted
";
        assert_eq!(told(25), expected);
        let allowed = format!("\ndisconnection        allowed\n                       {COUNTED}");
        assert!(told(26).ends_with(&allowed));
        assert!(told(2_068).ends_with(
            "\ndisconnection        not allowed, refused 24: the day lies outside the account's calendar\n                       \
            the calendar has day 20 (2000-01-21) to day 2067 (2005-08-29)\n"
        ));
    }

    #[test]
    fn a_disconnection_that_is_tried_names_its_working_days() {
        let cut = text::event("26 cut").unwrap();
        let expected = format!(
            "\
Account 0 of 2, tried with nothing changed. Sums are in dollars.
Its calendar has day 20 (2000-01-21) to day 2067 (2005-08-29).

day  date        event           owed  answer
 26  2000-01-27  disconnection  75.00  would be accepted
                                         {COUNTED}"
        );
        assert_eq!(by_calendar(|subject| tried(subject, cut)), expected);
    }

    #[test]
    fn a_day_that_is_refused_is_told_in_words() {
        let told = |t| on(&subject(&events(NOTICED)), t);
        assert!(told(21).ends_with(
            ".\n\nrefused 2: the day is before that of the last accepted event\n  \
            the last accepted event is of day 22 (2000-01-23)\n"
        ));
        assert!(told(73_048).contains("\ndisconnection "));
        assert_eq!(
            told(73_049),
            "Account 0 of 2 on day 73049, after all events. Sums are in dollars.\n\n\
            refused 1: the day is after 31 December 2199\n"
        );
    }

    #[test]
    fn what_is_tried_is_told_as_what_would_be() {
        let told = |event| tried(&subject(&events(NOTICED)), text::event(event).unwrap());
        let expected = "\
Account 0 of 2, tried with nothing changed. Sums are in dollars.

day  date        event           owed  answer
 22  2000-01-23  bill of 10.00  85.56  would be accepted, 0.56 late charge added
";
        assert_eq!(told("22 bill 1000"), expected);
        assert!(told("22 payment 100").ends_with("  74.00  would be accepted, receipt 1\n"));
        assert!(told("22 payment 100 till=9").contains(
            "payment of 1.00 at till 9  75.00  would be refused 3: the amount or the till is out of its range;"
        ));
        let refused = told("24 cut");
        assert!(refused.contains("disconnection  75.00  would be refused 12: no live"));
        assert!(refused.ends_with("the last one is of day 20 (2000-01-21)\n"));
    }
}
