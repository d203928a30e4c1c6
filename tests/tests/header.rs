//! The numbers of include/hollupaq.h are those of the library, of the tools and of README's table. That the functions are the same
//! is held in outward.rs; that the header compiles, in .ci/link.
use std::fs;
use std::path::Path;
use tools::core::lent::{self, ACCEPTED, CALENDAR_DAYS, CALENDAR_WORDS, WORDS};
use tools::core::{self, bills, books, Account, Calendar};
use tools::event::Event;
use tools::kinds::KINDS;
use tools::text;

fn read(name: &str) -> String {
    let path = Path::new(env!("CARGO_MANIFEST_DIR")).join("..").join(name);
    fs::read_to_string(&path).unwrap_or_else(|e| panic!("{}: {e}", path.display()))
}

/// The number that a line of the header defines.
fn defined(name: &str) -> u64 {
    let header = read("include/hollupaq.h");
    let start = format!("#define {name} ");
    let number = header.lines().find_map(|line| line.strip_prefix(&start));
    let number = number.unwrap_or_else(|| panic!("the header has no {name}"));
    number
        .parse()
        .unwrap_or_else(|e| panic!("{name} {number}: {e}"))
}

/// The names of the header's enums that begin so, without that beginning, and their numbers, in order.
fn enumerated(beginning: &str) -> Vec<(String, u64)> {
    let header = read("include/hollupaq.h");
    header
        .lines()
        .filter_map(|line| line.strip_prefix("    ")?.strip_prefix(beginning))
        .filter_map(|line| line.split_once(" = "))
        .map(|(name, rest)| {
            let digits = rest.split(|c: char| !c.is_ascii_digit()).next().unwrap();
            (name.to_string(), digits.parse().unwrap())
        })
        .collect()
}

fn number(name: &str) -> u64 {
    let found = enumerated("HOLLUPAQ_");
    let found = found.into_iter().find(|(n, _)| n == name);
    found
        .unwrap_or_else(|| panic!("the header has no {name}"))
        .1
}

fn fresh() -> [u64; WORDS] {
    *Account::fresh().words()
}

#[test]
fn every_refusal_has_one_name() {
    let numbers: Vec<u64> = enumerated("HOLLUPAQ_REFUSED_")
        .into_iter()
        .map(|(_, number)| number)
        .collect();
    assert_eq!(numbers, (0..=24).collect::<Vec<u64>>());
}

#[test]
fn readme_has_every_refusal_once() {
    let readme = read("README.md");
    let table = readme.split("| number | refused, because |").nth(1);
    let numbers: Vec<u64> = table
        .expect("the table")
        .split("\n\n")
        .next()
        .unwrap()
        .lines()
        .filter_map(|line| line.strip_prefix("| ")?.split(' ').next()?.parse().ok())
        .collect();
    assert_eq!(numbers, (1..=24).collect::<Vec<u64>>());
}

/// For each name of a rule, a history whose last event it refuses, as the text of a book has it.
fn histories() -> Vec<(&'static str, String)> {
    let noticed = "0 bill 6000; 20 notice; ";
    let cut = "0 bill 6000; 20 notice; 22 call; 25 cut; ";
    let open = "0 fee 1; ".repeat(64);
    let paid = "0 bill 10000000000; 0 payment 10000000000; ".repeat(100);
    [
        ("LATE_DAY", "", "73049 bill 1"),
        ("EARLY_DAY", "5 call; ", "4 call"),
        ("FIELD", "", "0 bill 0"),
        ("CLOSED", "0 close; ", "0 close"),
        ("SERVICE", "", "0 reconnection 0"),
        ("RECEIPT", "", "0 returned 1"),
        ("SUM", "", "0 payout 1"),
        (
            "NOT_EARNED",
            "10 deposit-asked 9; 10 deposit-paid 9; ",
            "374 deposit-moved",
        ),
        ("ARRANGEMENT", "", "0 arrangement 2"),
        ("LOW_ARREARS", "", "0 cut"),
        ("NOTICE_LIVE", noticed, "20 notice"),
        ("NO_NOTICE", noticed, "22 call; 24 cut"),
        ("NO_CALL", noticed, "21 call; 25 cut"),
        ("IN_FORCE", noticed, "22 call; 22 arrangement 2; 25 cut"),
        ("CERTIFICATE", noticed, "21 certificate 5; 22 call; 25 cut"),
        ("ARREARS", cut, "25 reconnection 0"),
        (
            "LOW_DEPOSIT",
            cut,
            "25 payment 7500; 25 deposit-asked 1; 25 reconnection 0",
        ),
        ("OPEN_CHARGES", &open, "0 fee 1"),
        ("TOTAL", &paid, "0 bill 1"),
    ]
    .map(|(name, before, last)| (name, format!("{before}{last}")))
    .to_vec()
}

#[test]
fn a_name_says_what_is_refused() {
    let histories = histories();
    assert_eq!(histories.len(), 19);
    for (name, history) in histories {
        let text = format!("account # 0\n{}\n", history.replace("; ", "\n"));
        let list = text::read(&text).unwrap_or_else(|e| panic!("{name}: {e:?}"));
        let (last, before) = list[0].split_last().unwrap();
        let mut account = fresh();
        for event in before {
            let answer = lent::post(&mut account, *event);
            assert!(answer >= ACCEPTED, "{name}: {event:?} is refused {answer}");
        }
        let refused = number(&format!("REFUSED_{name}"));
        assert_eq!(lent::would_answer(&account, *last), refused, "{name}");
        assert_eq!(lent::post(&mut account, *last), refused, "{name}");
    }
}

/// A final notice and a disconnection on both sides of each end of a calendar, whose days are all working days.
#[test]
fn a_name_says_that_a_day_lies_outside_the_calendar() {
    let first = 3_000;
    let bits = [u64::MAX; CALENDAR_WORDS];
    let (last, outside) = (first + CALENDAR_DAYS - 1, number("REFUSED_CALENDAR"));
    let mut account = *Account::begin(&Calendar { first, bits }).words();
    let post =
        |account: &mut [u64], kind, day, amount| lent::post(account, Event::of(kind, day, amount));
    assert_eq!(post(&mut account, 1, 0, 6_000), ACCEPTED);
    for kind in [12, 14] {
        assert_eq!(post(&mut account, kind, first - 1, 0), outside);
    }
    let no_notice = number("REFUSED_NO_NOTICE");
    assert_eq!(post(&mut account.clone(), 14, first, 0), no_notice);
    assert_eq!(post(&mut account.clone(), 12, first, 0), ACCEPTED);
    assert_eq!(post(&mut account.clone(), 12, last, 0), ACCEPTED);
    assert_eq!(post(&mut account.clone(), 12, last + 1, 0), outside);
    assert_eq!(post(&mut account, 12, last - 5, 0), ACCEPTED);
    assert_eq!(post(&mut account, 13, last - 1, 0), ACCEPTED);
    assert_eq!(post(&mut account.clone(), 14, last + 1, 0), outside);
    assert_eq!(post(&mut account, 14, last, 0), ACCEPTED);
}

#[test]
fn a_calendar_has_the_days_and_words_that_the_header_says() {
    assert_eq!(defined("HOLLUPAQ_CALENDAR_DAYS"), CALENDAR_DAYS.into());
    assert_eq!(defined("HOLLUPAQ_CALENDAR_WORDS"), CALENDAR_WORDS as u64);
    let bits = [u64::MAX; CALENDAR_WORDS];
    let account = *Account::begin(&Calendar { first: 7, bits }).words();
    let all = ACCEPTED + u64::from(CALENDAR_DAYS);
    assert_eq!(lent::working_days(&account, 0, u32::MAX), all);
    let none = defined("HOLLUPAQ_NO_CALENDAR");
    assert_eq!(lent::working_days(&fresh(), 0, u32::MAX), none);
    for shorter in 0..CALENDAR_WORDS {
        assert_eq!(lent::begin(&mut fresh(), 7, &bits[..shorter]), 0);
    }
}

#[test]
fn a_name_says_why_a_book_is_refused() {
    let refused = |name: &str| Err(number(&format!("REFUSED_{name}")) as u8);
    assert_eq!(core::history(&[0; 7], 0).map(|_| ()), refused("BOOK"));
    let mut book = books::write(&[vec![Event::of(1, 0, 1)]]).unwrap();
    let mut numbers = [0; 0];
    let too_short = core::history_into(&book, 0, &mut numbers, &mut [0]);
    assert_eq!(too_short, refused("TOO_SHORT"));
    book[16] = 17; // the kind of the record
    assert_eq!(core::history(&book, 0).map(|_| ()), refused("RECORD"));
}

#[test]
fn a_name_says_why_there_is_no_bill() {
    let refused = Err(number("REFUSED_READING") as u8);
    assert_eq!(bills::bill(0, 0), refused);
    assert_eq!(bills::bill(1, 10_000_001), refused);
    assert_eq!(bills::bill(1, 10_000_000), Ok(73_101_031));
}

#[test]
fn a_name_says_why_a_sum_is_told_no_usage() {
    let refused = Err(number("REFUSED_READING") as u8);
    for sum in [0, 1_031, u64::MAX] {
        assert_eq!(bills::reading(0, sum), refused, "{sum}");
        assert_eq!(bills::reading(4, sum), refused, "{sum}");
    }
    assert_eq!(bills::TOO_LITTLE, defined("HOLLUPAQ_TOO_LITTLE"));
    assert_eq!(bills::reading(1, 1_030), Ok(None));
    assert_eq!(bills::reading(1, 1_031), Ok(Some(0)));
    for sum in [1 << 32, u64::MAX] {
        assert_eq!(bills::reading(1, sum), Ok(Some(10_000_000)), "{sum}");
    }
}

/// The names are those of the words that a text has for the kinds.
#[test]
fn kinds_have_their_words_and_numbers() {
    let expected: Vec<(String, u64)> = KINDS
        .iter()
        .map(|kind| kind.word.replace('-', "_").to_uppercase())
        .zip(1..)
        .collect();
    let found: Vec<(String, u64)> = enumerated("HOLLUPAQ_")
        .into_iter()
        .skip_while(|(name, _)| *name != expected[0].0)
        .take(expected.len())
        .collect();
    assert_eq!(found, expected);
}

/// A name for each standing of service, asked of accounts that stand so.
#[test]
fn services_are_those_of_accounts() {
    let mut account = fresh();
    assert_eq!(u64::from(lent::service(&account)), number("ON"));
    // A bill, a final notice, a call, a disconnection.
    for (kind, day, amount) in [(1, 0, 6_000), (12, 20, 0), (13, 22, 0), (14, 25, 0)] {
        let answer = lent::post(&mut account, Event::of(kind, day, amount));
        assert_eq!(answer, ACCEPTED, "kind {kind}");
    }
    assert_eq!(u64::from(lent::service(&account)), number("OFF"));
    assert_eq!(lent::post(&mut account, Event::of(16, 25, 0)), ACCEPTED);
    assert_eq!(u64::from(lent::service(&account)), number("CLOSED"));
}

#[test]
fn an_account_has_the_words_that_the_header_says() {
    assert_eq!(defined("HOLLUPAQ_WORDS"), WORDS as u64);
    assert_eq!(defined("HOLLUPAQ_WORDS"), lent::words());
    let bytes = tests::show::count(8 * WORDS);
    let size = format!("{WORDS} words of 64 bits, {bytes} bytes");
    assert!(read("README.md").contains(&size), "README has no {size}");
    assert_eq!(defined("HOLLUPAQ_ACCEPTED"), ACCEPTED);
}

#[test]
fn header_library_and_packages_have_one_version() {
    assert_eq!(defined("HOLLUPAQ_VERSION"), core::version());
    let parts = env!("CARGO_PKG_VERSION").split('.');
    let parts = parts.map(|part| part.parse::<u64>().unwrap());
    assert_eq!(core::version(), parts.fold(0, |all, part| all * 100 + part));
}

#[test]
fn an_account_begins_with_its_layout() {
    let layout = defined("HOLLUPAQ_LAYOUT");
    let account = fresh();
    assert_eq!(account[0], layout);
    assert_eq!(lent::ok(&account), 1);
    let last_day = u64::from(tools::dates::LAST_DAY);
    for other in [0, last_day, layout - 1, layout + 1, u64::MAX] {
        let mut account = account;
        account[0] = other;
        let before = account;
        assert_eq!(lent::ok(&account), 0, "{other}");
        let bill = Event::of(1, 0, 100);
        let refused = number("REFUSED_NO_ACCOUNT");
        assert_eq!(lent::would_answer(&account, bill), refused, "{other}");
        assert_eq!(lent::post(&mut account, bill), refused, "{other}");
        assert_eq!(account, before, "{other}");
    }
}

/// Memory of the layout before the number was there: a word less, and a day in its first word.
#[test]
fn an_account_of_the_layout_before_is_refused() {
    let mut account = fresh()[1..].to_vec();
    assert_eq!(lent::ok(&account), 0);
    account.push(0);
    assert_eq!(lent::ok(&account), 0);
}
