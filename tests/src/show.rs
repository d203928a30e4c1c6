//! Events and answers in words.
use crate::peer::calendar::Calendar;
use crate::peer::kind::*;
use crate::peer::post_all_by;
use tools::event::Event;

/// An event as one reads it aloud, with its numbers where it is not as its kind should be.
pub fn event(event: Event) -> String {
    let Event {
        kind,
        option,
        day,
        amount,
    } = event;
    if !crate::peer::rows::well_formed(event) {
        return format!("day {day} kind {kind} option {option} amount {amount}");
    }
    let words = match kind {
        FEE => format!("fee {option}"),
        ARRANGEMENT => format!("arrangement {option}"),
        PAYMENT | RETURNED if option != 0 => format!("{} {amount} at till {option}", name(kind)),
        RECONNECTION if option == 1 => String::from("reconnection after hours"),
        _ if amount != 0 => format!("{} {amount}", name(kind)),
        _ => String::from(name(kind)),
    };
    format!("day {day} {words}")
}

pub fn name(kind: u8) -> &'static str {
    match kind {
        BILL => "bill",
        PAYMENT => "payment",
        RETURNED => "returned",
        FEE => "fee",
        DEPOSIT_ASKED => "deposit asked",
        DEPOSIT_PAID => "deposit paid",
        DEPOSIT_MOVED => "deposit moved",
        PAYOUT => "payout",
        CERTIFICATE => "certificate",
        APPROVAL => "approval",
        ARRANGEMENT => "arrangement",
        NOTICE => "final notice",
        CALL => "call",
        CUT => "cut",
        RECONNECTION => "reconnection",
        CLOSE => "close",
        _ => "unknown",
    }
}

/// The events of each account, a line for each, with the peer's answer.
pub fn accounts(list: &[Vec<Event>]) -> String {
    let accounts = list.iter().enumerate();
    let shown: Vec<String> = accounts
        .map(|(index, events)| account(index, None, events))
        .collect();
    shown.concat()
}

/// The same of one account, which may have a calendar.
pub fn account(index: usize, calendar: Option<&Calendar>, events: &[Event]) -> String {
    let mut text = format!("  account {index}\n");
    text += &calendar.map_or(String::new(), words_of);
    let answers = post_all_by(calendar, events).answers;
    for (&one, answer) in events.iter().zip(answers) {
        let answer = match answer {
            0 => String::from("accepted"),
            number => format!("refused {number}"),
        };
        text += &format!("    {}, by the peer {answer}\n", event(one));
    }
    text
}

/// A calendar: its first day, and its words with the first of them first.
fn words_of(calendar: &Calendar) -> String {
    let mut text = format!(
        "    calendar from day {}, in words of 64 days\n",
        calendar.first
    );
    for line in calendar.bits.chunks(4) {
        let line: Vec<String> = line.iter().map(|word| format!("{word:016x}")).collect();
        text += &format!("      {}\n", line.join(" "));
    }
    text
}

/// Bytes that are no list of events, sixteen to a line; of many the first.
pub fn bytes(book: &[u8]) -> String {
    let mut text = format!("  {} bytes\n", book.len());
    for line in book.chunks(16).take(12) {
        let line: Vec<String> = line.iter().map(|byte| format!("{byte:3}")).collect();
        text += &format!("    {}\n", line.join(" "));
    }
    if book.len() > 12 * 16 {
        text += "    and so on\n";
    }
    text
}

/// What was expected and what was found, line by line.
pub fn texts(expected: &[u8], found: &[u8]) -> String {
    let indented = |text: &[u8]| {
        let text = String::from_utf8_lossy(text).into_owned();
        let lines: Vec<String> = text.lines().map(|line| format!("    {line}\n")).collect();
        lines.concat()
    };
    let (expected, found) = (indented(expected), indented(found));
    format!("  expected\n{expected}  found\n{found}")
}

/// A number with commas.
pub fn count(number: usize) -> String {
    let digits = number.to_string();
    let mut text = String::new();
    for (at, digit) in digits.chars().enumerate() {
        if at > 0 && (digits.len() - at).is_multiple_of(3) {
            text.push(',');
        }
        text.push(digit);
    }
    text
}

#[cfg(test)]
mod tests {
    use super::*;
    use crate::make;

    #[test]
    fn an_event_is_read_aloud() {
        assert_eq!(event(make::payment(131, 4_000)), "day 131 payment 4000");
        let at_till = make::returned_at(4, 131, 7);
        assert_eq!(event(at_till), "day 131 returned 7 at till 4");
        assert_eq!(event(make::cut(131)), "day 131 cut");
        assert_eq!(event(make::fee(7, 2)), "day 7 fee 2");
        assert_eq!(event(make::arrangement(7, 2)), "day 7 arrangement 2");
    }

    #[test]
    fn an_odd_event_shows_its_numbers() {
        let odd = Event::new(17, 1, 2, 3);
        assert_eq!(event(odd), "day 2 kind 17 option 1 amount 3");
    }

    #[test]
    fn a_calendar_is_shown_by_its_words() {
        let calendar = make::calendar(20, |place| [0, 8, 127].contains(&place));
        let shown = account(3, Some(&calendar), &[make::cut(19)]);
        let lines: Vec<&str> = shown.lines().collect();
        assert_eq!(
            lines[..2],
            [
                "  account 3",
                "    calendar from day 20, in words of 64 days"
            ]
        );
        let words = "      0000000000000101 8000000000000000 0000000000000000 0000000000000000";
        assert_eq!((lines[2], lines.len()), (words, 11));
        assert_eq!(lines[10], "    day 19 cut, by the peer refused 24");
    }

    #[test]
    fn thousands_have_commas() {
        assert_eq!(
            [0, 999, 1_000, 20_000_000].map(count).join(" "),
            "0 999 1,000 20,000,000"
        );
    }
}
