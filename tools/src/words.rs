//! Words for the support desk: what a number means, what an event is, a customer's class, money.
use crate::event::Event;
use crate::kinds::{self, Named};

/// What number n means stands at n - 1.
const MEANINGS: [&str; 24] = [
    "the day is after 31 December 2199",
    "the day is before that of the last accepted event",
    "a field of the event is out of its range, or set where it should be 0",
    "the account is closed; only payments, returned payments and payouts go in",
    "service does not allow it: on for a notice, call or disconnection, off for a reconnection",
    "the till has no payment of this receipt that can be returned",
    "the sum does not fit: a payout over the credit, or a deposit that is over, not higher, or not full",
    "the deposit is not earned",
    "nothing is in arrears, or a payment arrangement is in force",
    "the arrears are under 50.00",
    "a final notice is live already",
    "no live final notice, or it is too new or too old",
    "no call on the three days before",
    "a payment arrangement is in force",
    "a medical certificate is live and no approval covers the day",
    "there are arrears, and no payment arrangement in force",
    "less deposit is held than required",
    "64 charges are open already",
    "charges or credits would pass 10,000,000,000.00 in all",
    "the book's length, its header or its table of accounts is wrong",
    "a record of the book has an unknown kind, or spare bytes that are not 0",
    "the memory lent is too short",
    "the class is not 1 to 3, or the usage is over 10,000,000 kWh",
    "the day lies outside the account's calendar",
];

/// Why a book is refused, as the commands say it.
pub fn book_refused(number: u8) -> String {
    format!("book refused {number}: {}", meaning(number))
}

/// Why no book is made of an account list.
pub fn list_refused(number: u8) -> String {
    match number {
        20 => {
            "book refused 20: more than 1,024 accounts, or more records than a book can hold".into()
        }
        21 => "book refused 21: a record has an unknown kind".into(),
        _ => book_refused(number),
    }
}

/// What a refusing number means.
pub fn meaning(number: u8) -> &'static str {
    usize::from(number)
        .checked_sub(1)
        .and_then(|at| MEANINGS.get(at))
        .unwrap_or(&"no number of the table")
}

/// Why an event of a kind is refused: the meaning of the number, or the part of it that concerns the kind.
pub fn reason(number: u8, kind: u8) -> &'static str {
    match (number, kind) {
        (3, 2) => "the amount or the till is out of its range; the tills are 0 to 4",
        (3, 3) => "the receipt or the till is out of its range; the tills are 0 to 4",
        (3, 9) => "it has no days, or too many for its day, or an option",
        (5, 15) => "service is not off",
        (5, _) => "service is not on",
        (7, 5) => "the deposit asked is not over what is held",
        (7, 6) => "with it more would be held than required",
        (7, 7) => "there is no full deposit",
        (7, 8) => "the payout is over the credit",
        _ => meaning(number),
    }
}

/// Why a sum is told no usage: the part of the meaning that concerns it, since no usage is given that could be too large.
pub fn no_reading(number: u8) -> &'static str {
    match number {
        23 => "the class is not 1 to 3",
        _ => meaning(number),
    }
}

/// What a kind adds to what is owed, beyond the sum that the event itself speaks of.
pub fn added(kind: u8) -> &'static str {
    match kind {
        1 => "late charge",
        3 => "returned check fee",
        12 => "final notice fee",
        15 => "reconnection fee",
        _ => "fee",
    }
}

/// Whose a class is, where there is such a class.
pub fn class(class: u8) -> Option<&'static str> {
    match class {
        1 => Some("residential"),
        2 => Some("single phase"),
        3 => Some("three phase"),
        _ => None,
    }
}

/// So many of what is named by one of it.
pub fn counted(number: u64, what: &str) -> String {
    match number {
        0 => format!("no {what}s"),
        1 => format!("1 {what}"),
        _ => format!("{number} {what}s"),
    }
}

/// Cents as money, 110.75 for 11075.
pub fn money(cents: i128) -> String {
    let sign = if cents < 0 { "-" } else { "" };
    let cents = cents.unsigned_abs();
    format!("{sign}{}.{:02}", cents / 100, cents % 100)
}

/// An event in words.
pub fn event(event: &Event) -> String {
    let amount = money(event.amount.into());
    let (number, option) = (event.amount, event.option);
    let words = match event.kind {
        1 => format!("bill of {amount}"),
        2 => format!("payment of {amount}{}", till("at", option)),
        3 => format!("returned payment, receipt {number}{}", till("of", option)),
        4 => format!("fee, {}", fee(option)),
        5 => format!("deposit of {amount} asked"),
        6 => format!("deposit of {amount} paid"),
        7 => "deposit moved to the account".to_string(),
        8 => format!("payout of {amount}"),
        9 => format!("medical certificate, {number} days"),
        10 => format!("approval, {number} days"),
        11 => format!("payment arrangement, {option} parts"),
        12 => "final notice".to_string(),
        13 => "call".to_string(),
        14 => "disconnection".to_string(),
        15 => format!("reconnection {}", hours(option)),
        16 => "closing".to_string(),
        kind => format!("unknown event {kind}"),
    };
    words + &odd_fields(event)
}

/// A till with a word before it. Till 0 is not named: an office with one till has no need of its number.
fn till(before: &str, option: u8) -> String {
    match option {
        0 => String::new(),
        _ => format!(" {before} till {option}"),
    }
}

fn fee(option: u8) -> String {
    match option {
        1 => "connection after hours".to_string(),
        2 => "tampering".to_string(),
        3 => "meter test".to_string(),
        _ => format!("number {option}"),
    }
}

fn hours(option: u8) -> String {
    match option {
        0 => "in hours".to_string(),
        1 => "after hours".to_string(),
        _ => format!("with option {option}"),
    }
}

/// Fields that the kind does not name are worth a word only where they are set, which refuses the event.
fn odd_fields(event: &Event) -> String {
    let kind = kinds::of_number(event.kind);
    let named = kind.map_or(Named::Nothing, |kind| kind.named);
    let takes_option = named == Named::Option || kind.is_some_and(|kind| kind.beside.is_some());
    let mut words = String::new();
    if !takes_option && event.option != 0 {
        words += &format!(", option {}", event.option);
    }
    if named != Named::Amount && event.amount != 0 {
        words += &format!(", amount {}", event.amount);
    }
    words
}

#[cfg(test)]
mod tests {
    use super::*;

    #[test]
    fn money_has_two_places() {
        assert_eq!(money(0), "0.00");
        assert_eq!(money(11_075), "110.75");
        assert_eq!(money(-5), "-0.05");
        assert_eq!(money(u64::MAX.into()), "184467440737095516.15");
    }

    #[test]
    fn every_number_of_the_table_has_its_own_meaning() {
        // The first words of each, in the order of the numbers.
        let beginnings = "the day is after; the day is before; a field; the account; service; the till; the sum; \
            the deposit; nothing; the arrears; a final; no live; no call; a payment; a medical; there are; less; 64 charges; \
            charges or; the book's; a record; the memory; the class; the day lies";
        for (beginning, number) in beginnings.split("; ").zip(1..=24) {
            let begins_so = |number: &u8| meaning(*number).starts_with(beginning);
            let found: Vec<u8> = (0..=25).filter(begins_so).collect();
            assert_eq!(found, [number], "{beginning}");
        }
        assert_eq!(meaning(0), "no number of the table");
        assert_eq!(meaning(25), meaning(0));
    }

    #[test]
    fn a_reason_speaks_of_the_kind_alone() {
        assert_eq!(reason(5, 13), "service is not on");
        assert_eq!(reason(5, 15), "service is not off");
        let words = ["asked", "with it", "no full", "payout"];
        for (kind, word) in (5..=8).zip(words) {
            assert!(reason(7, kind).contains(word), "{word}");
        }
        assert!(reason(3, 2).starts_with("the amount or the till is out of"));
        assert!(reason(3, 3).starts_with("the receipt or the till is out of"));
        assert!(reason(3, 9).contains("too many for its day"));
        assert_eq!(reason(3, 1), meaning(3));
        assert_eq!(reason(12, 14), meaning(12));
    }

    #[test]
    fn every_kind_has_its_own_words() {
        let told: Vec<String> = (0..=17)
            .map(|kind| {
                event(&Event {
                    kind,
                    ..Event::default()
                })
            })
            .collect();
        for (kind, words) in told.iter().enumerate() {
            assert_eq!(told.iter().position(|other| other == words), Some(kind));
        }
    }

    #[test]
    fn a_field_that_should_not_be_there_is_told() {
        let call = Event {
            kind: 13,
            option: 2,
            day: 5,
            amount: 9,
        };
        assert_eq!(event(&call), "call, option 2, amount 9");
        let bill = Event { kind: 1, ..call };
        assert_eq!(event(&bill), "bill of 0.09, option 2");
    }

    #[test]
    fn a_till_is_told_where_it_is_not_the_first() {
        for (till, at, of) in [
            (0, "", ""),
            (3, " at till 3", " of till 3"),
            (9, " at till 9", " of till 9"),
        ] {
            let paid = Event::new(2, till, 131, 4_000);
            assert_eq!(event(&paid), format!("payment of 40.00{at}"));
            let returned = Event::new(3, till, 140, 2);
            assert_eq!(event(&returned), format!("returned payment, receipt 2{of}"));
        }
    }
}
