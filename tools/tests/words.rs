//! Numbers that the tools tell in words are the core's: each is taken out of the text and tried at both of its sides.
mod common;

use common::last_answer;
use tools::core::bills::{bill, reading};
use tools::core::Answer;
use tools::dates::{date, LAST_DAY};
use tools::event::Event;
use tools::kinds::{of_word, Named, KINDS};
use tools::words::{self, meaning};

const ACCEPTED: Answer = Answer::Accepted(0);

/// The numbers of a text in their order, `10,000.00` being 1000000.
fn numbers(text: &str) -> Vec<u64> {
    let plain = text.replace([',', '.'], "");
    let words = plain.split(|c: char| !c.is_ascii_digit());
    words.filter_map(|digits| digits.parse().ok()).collect()
}

/// Whether a kind takes an option and an amount on a day.
fn takes_on(day: u32, kind: usize, option: u64, amount: u64) -> bool {
    let event = Event::new(kind as u8 + 1, option as u8, day, amount);
    last_answer(&[event]) != Answer::Refused(3)
}

fn takes(kind: usize, option: u64, amount: u64) -> bool {
    takes_on(0, kind, option, amount)
}

#[test]
fn a_kind_names_the_field_that_the_core_takes() {
    for (at, kind) in KINDS.iter().enumerate() {
        let first = numbers(kind.number).first().copied().unwrap_or(1);
        let (option, amount) = match kind.named {
            Named::Amount => (0, first),
            Named::Option => (first, 0),
            Named::Nothing => (0, 0),
        };
        assert!(takes(at, option, amount), "{}", kind.word);
        let other = match kind.named {
            // An option that has a word is taken too.
            Named::Amount if kind.beside.is_some() => {
                assert!(takes(at, 1, amount), "{}", kind.word);
                vec![(u64::from(u8::MAX), amount)]
            }
            Named::Amount => vec![(1, amount)],
            Named::Option => vec![(option, 1)],
            Named::Nothing => vec![(1, 0), (0, 1)],
        };
        for (option, amount) in other {
            assert!(!takes(at, option, amount), "{}", kind.word);
        }
    }
}

/// The number of a kind lies in the range on a day, as the core has it.
fn is_its_range(at: usize, day: u32, first: u64, last: u64) {
    let kind = &KINDS[at];
    let takes = |number| match kind.named {
        Named::Option => takes_on(day, at, number, 0),
        _ => takes_on(day, at, 0, number),
    };
    assert!(takes(first) && takes(last), "{} {day}", kind.word);
    assert!(!takes(last + 1), "{} {day}", kind.word);
    assert!(first == 0 || !takes(first - 1), "{} {day}", kind.word);
}

#[test]
fn a_range_that_is_told_is_the_core_s() {
    let mut told = 0;
    for (at, kind) in KINDS.iter().enumerate() {
        let [first, last] = numbers(kind.number)[..] else {
            continue;
        };
        for day in [0, LAST_DAY] {
            is_its_range(at, day, first, last);
        }
        told += 1;
    }
    // Fees, approvals, arrangements and reconnections.
    assert_eq!(told, 4);
}

/// Of a certificate two ranges are told, and with its date the day from which on the second holds.
#[test]
fn the_ranges_of_a_certificate_are_the_core_s() {
    let at = usize::from(of_word("certificate").unwrap()) - 1;
    let told = KINDS[at].number;
    let [first, last, later_first, later_last, from, _, _, _] = numbers(told)[..] else {
        panic!("{told}");
    };
    let from = from as u32;
    let both = format!("day {from}, {},", date(from).unwrap());
    assert!(told.contains(&both), "{told}");
    for day in [0, from - 1] {
        is_its_range(at, day, first, last);
    }
    for day in [from, LAST_DAY] {
        is_its_range(at, day, later_first, later_last);
    }
}

#[test]
fn the_tills_are_the_core_s() {
    for (at, kind) in KINDS.iter().enumerate() {
        if kind.beside != Some("till") {
            continue;
        }
        let told = words::reason(3, at as u8 + 1);
        let [first, last] = numbers(told)[..] else {
            panic!("{told}");
        };
        for till in 0..=u64::from(u8::MAX) {
            let is_told = (first..=last).contains(&till);
            assert_eq!(takes(at, till, 1), is_told, "{} {till}", kind.word);
        }
    }
}

#[test]
fn the_last_day_is_the_core_s() {
    assert_eq!(last_answer(&[Event::of(13, LAST_DAY, 0)]), ACCEPTED);
    assert_eq!(
        last_answer(&[Event::of(13, LAST_DAY + 1, 0)]),
        Answer::Refused(1)
    );
    assert_eq!(date(LAST_DAY).as_deref(), Some("2199-12-31"));
    assert!(meaning(1).ends_with("31 December 2199"));
}

#[test]
fn the_arrears_that_a_notice_wants_are_the_core_s() {
    let enough = numbers(meaning(10))[0];
    let notice = |bill| last_answer(&[Event::of(1, 0, bill), Event::of(12, 20, 0)]);
    assert_eq!(notice(enough), ACCEPTED);
    assert_eq!(notice(enough - 1), Answer::Refused(10));
}

#[test]
fn the_days_for_a_call_are_the_core_s() {
    let days: Vec<u32> = (0..=25)
        .filter(|&day| {
            let mut events = [
                Event::of(1, 0, 6_000),
                Event::of(12, 20, 0),
                Event::of(13, day, 0),
            ];
            events.sort_by_key(|event| event.day);
            last_answer(&[&events[..], &[Event::of(14, 25, 0)]].concat()) == ACCEPTED
        })
        .collect();
    assert_eq!(days, [22, 23, 24]);
    assert_eq!(meaning(13), "no call on the three days before");
}

#[test]
fn the_classes_and_the_most_usage_are_the_core_s() {
    let [first, last, most] = numbers(meaning(23))[..] else {
        panic!("{}", meaning(23));
    };
    for class in 0..=u8::MAX {
        let known = (first..=last).contains(&u64::from(class));
        let expected = if known { None } else { Some(23) };
        assert_eq!(bill(class, most).err(), expected, "class {class}");
        assert_eq!(words::class(class).is_some(), known, "class {class}");
        assert_eq!(bill(class, most + 1), Err(23), "class {class}");
        assert_eq!(reading(class, 0).err(), expected, "class {class}");
    }
    // Of a sum the first half of the words is said.
    assert!(meaning(23).starts_with(words::no_reading(23)));
    assert_eq!(words::no_reading(22), meaning(22));
}

#[test]
fn the_open_charges_are_the_core_s() {
    let most = numbers(meaning(18))[0] as usize;
    let fees = |count| last_answer(&vec![Event::new(4, 3, 0, 0); count]);
    assert_eq!(fees(most), ACCEPTED);
    assert_eq!(fees(most + 1), Answer::Refused(18));
}

#[test]
fn the_largest_sum_is_the_core_s() {
    let most = numbers(meaning(19))[0];
    let largest = 10_000_000_000;
    let mut payments = vec![Event::of(2, 0, largest); (most / largest) as usize];
    let rest = most % largest;
    payments.extend((rest > 0).then(|| Event::of(2, 0, rest)));
    let receipt = payments.len() as u64;
    assert_eq!(last_answer(&payments), Answer::Accepted(receipt));
    payments.push(Event::of(2, 0, 1));
    assert_eq!(last_answer(&payments), Answer::Refused(19));
}
