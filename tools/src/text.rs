//! The readable text of a book, both ways. One event on a line, under the account that it belongs to:
//!
//! ```text
//! account # a family in arrears
//!   100 bill 10000
//!   131 payment 4000
//!   131 payment 2500 till=3
//!   131 cut
//! ```
//!
//! A line is the day, the event's word, and the number that the event names: an amount, a receipt, days, parts. The day may
//! be a date, 2000-04-10, and an event may have another of its names (`kinds`). What follows `#` is for the reader. The till
//! of a payment, or of a returned one, stands behind its number where it is not till 0. A field that the event does not name
//! is written `option=N` or `amount=N` where it is not 0, so that every book has a text.
use crate::dates;
use crate::event::{AccountList, Event};
use crate::kinds::{self, Kind, Named};
use crate::shown::{character, shown};
use std::fmt;

/// What is wrong with a text: the line, counted from 1, and what was expected there.
#[derive(Clone, Debug, PartialEq, Eq)]
pub struct Mistake {
    pub line: usize,
    pub words: String,
}

impl fmt::Display for Mistake {
    fn fmt(&self, f: &mut fmt::Formatter) -> fmt::Result {
        write!(f, "line {}: {}", self.line, self.words)
    }
}

/// The account list of a text.
pub fn read(text: &str) -> Result<AccountList, Mistake> {
    let mut list = AccountList::new();
    each_line(text, |words| read_line(words, &mut list))?;
    Ok(list)
}

/// Hands on the words of each line, until one is a mistake.
pub fn each_line(
    text: &str,
    mut take: impl FnMut(&[&str]) -> Result<(), String>,
) -> Result<(), Mistake> {
    // Some editors put a mark of the encoding before the first line.
    let text = text.strip_prefix('\u{feff}').unwrap_or(text);
    for (index, line) in text.lines().enumerate() {
        let taken = words(line).and_then(|words| take(&words));
        taken.map_err(|words| Mistake {
            line: index + 1,
            words,
        })?;
    }
    Ok(())
}

fn read_line(words: &[&str], list: &mut AccountList) -> Result<(), String> {
    match *words {
        [] => {}
        ["account"] => list.push(Vec::new()),
        ["account", ..] => {
            return Err("nothing may follow `account` but a remark after #".to_string());
        }
        [first, ref rest @ ..] => {
            let event = read_event(first, rest)?;
            let account = list.last_mut().ok_or(
                "an event stands before the first account: a line `account` has to come first",
            )?;
            account.push(event);
        }
    }
    Ok(())
}

/// The event of one line.
pub fn event(line: &str) -> Result<Event, String> {
    match words(line)?[..] {
        [first, ref rest @ ..] => read_event(first, rest),
        [] => Err("expected a day and an event, found nothing".to_string()),
    }
}

/// The words of a line before a remark. What can't be seen has no place in a text, not even in a remark: somebody will look
/// at it in a terminal.
fn words(line: &str) -> Result<Vec<&str>, String> {
    if let Some(c) = line.chars().find(|&c| c.is_control() && c != '\t') {
        let byte = character(c);
        return Err(format!("the control byte {byte} has no place in a text"));
    }
    let told = line.split('#').next().unwrap_or("");
    Ok(told.split_whitespace().collect())
}

/// A day by its number or its date.
pub fn day(word: &str) -> Result<u32, String> {
    if !dates::is_written_so(word) {
        let day = written_number(word, "the day", "a date or a whole number", u32::MAX.into())?;
        return Ok(day as u32);
    }
    dates::day_of(word).ok_or_else(|| {
        format!("`{word}` is no day: there is no such date, or it is before 2000-01-01")
    })
}

fn read_event(first: &str, rest: &[&str]) -> Result<Event, String> {
    let day = day(first)?;
    let Some(word) = rest.first() else {
        let all = kinds::all_words();
        return Err(format!("after the day comes an event: {all}"));
    };
    let Some((kind, count)) = kinds::of_words(rest) else {
        let (word, all) = (shown(word), kinds::all_words());
        return Err(format!("`{word}` is no event; the events are {all}"));
    };
    let mut event = Event::of(kind, day, 0);
    read_fields(
        &kinds::KINDS[usize::from(kind) - 1],
        &rest[count..],
        &mut event,
    )?;
    Ok(event)
}

/// The number of the field that the kind names comes first, then the other fields by name.
fn read_fields(kind: &Kind, fields: &[&str], event: &mut Event) -> Result<(), String> {
    let (mut option, mut amount) = (None, None);
    let own = kind.option_word();
    let mut others = fields;
    if kind.named != Named::Nothing {
        let Some((first, rest)) = fields.split_first().filter(|(f, _)| !f.contains('=')) else {
            return Err(format!("`{}` needs {}", kind.word, kind.number));
        };
        others = rest;
        match kind.named {
            Named::Amount => amount = Some(number(first, kind.number, u64::MAX)?),
            _ => option = Some(number(first, kind.number, u8::MAX.into())?),
        }
    }
    for field in others {
        let (name, digits) = field.split_once('=').unwrap_or(("", field));
        let (place, name, largest) = match name {
            "amount" => (&mut amount, name, u64::MAX),
            // A text from before there were tills names a till by its field.
            _ if name == own || name == "option" => (&mut option, own, u8::MAX.into()),
            _ => return Err(unexpected(kind, field)),
        };
        if place.is_some() {
            return Err(format!("`{}` has its {name} twice", kind.word));
        }
        *place = Some(number(digits, &format!("the {name}"), largest)?);
    }
    event.option = option.unwrap_or(0) as u8;
    event.amount = amount.unwrap_or(0);
    Ok(())
}

fn unexpected(kind: &Kind, field: &str) -> String {
    let takes = match kind.named {
        Named::Nothing => "no number",
        _ => "one number",
    };
    let written = match kind.beside {
        Some(word) => format!("its {word} is written {word}=N"),
        None => "a field that it does not name is written option=N or amount=N".to_string(),
    };
    format!(
        "`{}` takes {takes}, and `{}` is left over; {written}",
        kind.word,
        shown(field)
    )
}

fn number(digits: &str, what: &str, largest: u64) -> Result<u64, String> {
    written_number(digits, what, "a whole number", largest)
}

/// A whole number; `_` and `,` may group its digits. `form` says how it may be written.
fn written_number(digits: &str, what: &str, form: &str, largest: u64) -> Result<u64, String> {
    let is_group = |c: char| c == '_' || c == ',';
    let plain = digits.replace(is_group, "");
    let is_number = !plain.is_empty() && plain.bytes().all(|b| b.is_ascii_digit());
    if !is_number || digits.starts_with(is_group) || digits.ends_with(is_group) {
        let found = shown(digits);
        return Err(format!("expected {what} as {form}, found `{found}`"));
    }
    match plain.parse() {
        Ok(n) if n <= largest => Ok(n),
        _ => Err(format!(
            "expected {what}, found `{}`, and it is {largest} at most",
            shown(digits)
        )),
    }
}

/// The text of an account list. There is no word for a kind that is not 1 to 16; no accepted book has one.
pub fn write(list: &[Vec<Event>]) -> Result<String, String> {
    let mut text = String::new();
    for (index, account) in list.iter().enumerate() {
        text.push_str(&format!("account # {index}\n"));
        for event in account {
            text.push_str(&format!("  {}\n", write_event(event)?));
        }
    }
    Ok(text)
}

fn write_event(event: &Event) -> Result<String, String> {
    let Some(kind) = kinds::of_number(event.kind) else {
        return Err(format!("there is no event of kind {}", event.kind));
    };
    let mut line = format!("{} {}", event.day, kind.word);
    match kind.named {
        Named::Amount => line.push_str(&format!(" {}", event.amount)),
        Named::Option => line.push_str(&format!(" {}", event.option)),
        Named::Nothing => {}
    }
    if kind.named != Named::Option && event.option != 0 {
        line.push_str(&format!(" {}={}", kind.option_word(), event.option));
    }
    if kind.named != Named::Amount && event.amount != 0 {
        line.push_str(&format!(" amount={}", event.amount));
    }
    Ok(line)
}

#[cfg(test)]
mod tests {
    use super::*;

    /// The words of the mistake in a text, which is in the line given.
    fn mistake(text: &str, line: usize) -> String {
        let mistake = read(text).unwrap_err();
        assert_eq!(mistake.line, line, "{mistake}");
        mistake.words
    }

    #[test]
    fn every_kind_comes_back_with_any_fields() {
        let mut list = vec![vec![], vec![]];
        for kind in 1..=16 {
            for option in [0, 1, 6, 255] {
                for amount in [0, 1, 10_000, u64::MAX] {
                    list[0].push(Event::new(kind, option, 0, amount));
                    list[1].push(Event::new(kind, option, u32::MAX, amount));
                }
            }
        }
        list.insert(1, vec![]);
        assert_eq!(read(&write(&list).unwrap()).unwrap(), list);
    }

    #[test]
    fn a_plain_event_is_a_plain_line() {
        let list = [vec![
            Event::new(1, 0, 100, 10_000),
            Event::new(14, 0, 131, 0),
            Event::new(11, 3, 140, 0),
            Event::new(13, 2, 141, 7),
        ]];
        let text = "account # 0\n  100 bill 10000\n  131 cut\n  140 arrangement 3\n  141 call option=2 amount=7\n";
        assert_eq!(write(&list).unwrap(), text);
    }

    #[test]
    fn a_till_is_written_where_it_is_not_the_first() {
        let list = [vec![
            Event::of(2, 131, 4_000),
            Event::new(2, 3, 131, 4_000),
            Event::new(3, 3, 140, 2),
            Event::of(3, 140, 2),
            Event::new(2, 255, 141, 7),
            Event::new(1, 3, 141, 7),
        ]];
        let text = "account # 0\n  131 payment 4000\n  131 payment 4000 till=3\n  140 returned 2 till=3\n  \
            140 returned 2\n  141 payment 7 till=255\n  141 bill 7 option=3\n";
        assert_eq!(write(&list).unwrap(), text);
        assert_eq!(read(text).unwrap(), list);
    }

    #[test]
    fn a_till_may_have_the_name_of_its_field() {
        for fields in ["till=3", "option=3", "till=3 # x"] {
            let line = format!("131 payment 4000 {fields}");
            assert_eq!(event(&line), Ok(Event::new(2, 3, 131, 4_000)), "{line}");
            let line = format!("140 returned check 2 {fields}");
            assert_eq!(event(&line), Ok(Event::new(3, 3, 140, 2)), "{line}");
        }
        for fields in ["till=0", "option=0", ""] {
            let line = format!("131 payment 4000 {fields}");
            assert_eq!(event(&line), Ok(Event::of(2, 131, 4_000)), "{line}");
        }
    }

    #[test]
    fn remarks_empty_lines_and_grouped_digits_are_fine() {
        let text =
            "# a story\r\n\naccount # one\r\n 1,000 bill 10_000 # the first\n\t1001 cut\naccount";
        let expected = vec![
            vec![Event::new(1, 0, 1_000, 10_000), Event::new(14, 0, 1_001, 0)],
            vec![],
        ];
        assert_eq!(read(text).unwrap(), expected);
        assert_eq!(read("").unwrap(), AccountList::new());
        assert_eq!(read("\u{feff}account").unwrap(), vec![vec![]]);
    }

    #[test]
    fn a_day_may_be_a_date() {
        let text = "account\n2000-04-10 bill 5\n2199-12-31 call\n2200-01-01 call";
        let days: Vec<u32> = read(text).unwrap()[0].iter().map(|e| e.day).collect();
        assert_eq!(days, [100, 73_048, 73_049]);
        let told = mistake("account\n2001-02-29 call", 2);
        assert!(told.starts_with("`2001-02-29` is no day: "), "{told}");
        assert!(mistake("account\n2000-4-10 call", 2).contains("as a date or a whole number"));
    }

    #[test]
    fn an_event_may_have_another_of_its_names() {
        let text = "account
            1 cut\n1 disconnection\n2 notice\n2 final-notice\n2 final notice
            3 arrangement 4\n3 payment arrangement 4\n5 returned 6\n5 returned payment 6 option=7";
        let expected = vec![
            Event::of(14, 1, 0),
            Event::of(14, 1, 0),
            Event::of(12, 2, 0),
            Event::of(12, 2, 0),
            Event::of(12, 2, 0),
            Event::new(11, 4, 3, 0),
            Event::new(11, 4, 3, 0),
            Event::of(3, 5, 6),
            Event::new(3, 7, 5, 6),
        ];
        assert_eq!(read(text).unwrap(), [expected]);
    }

    #[test]
    fn one_event_is_read_alone() {
        assert_eq!(event("131 payment 4000 # x"), Ok(Event::of(2, 131, 4_000)));
        assert_eq!(event(" 2000-05-11  cut "), Ok(Event::of(14, 131, 0)));
        for line in ["", " # 1 cut", "account", "cut", "1", "1 cut\n2 cut"] {
            assert!(event(line).is_err(), "{line}");
        }
    }

    #[test]
    fn control_bytes_are_named_and_not_printed() {
        let told = "the control byte \\u{1b} has no place in a text";
        assert_eq!(mistake("account\n5 \u{1b}[2Jbil 7", 2), told);
        assert_eq!(mistake("# \u{1b}[2J", 1), told);
        assert!(mistake("account\n5 call\0", 2).contains("byte \\0 has"));
        assert!(mistake("account\r5 call", 1).contains("byte \\r has"));
        // What can't be seen and is no control byte is shown by its number as well.
        assert!(mistake("account\n5 b\u{202e}l", 2).starts_with("`b\\u{202e}l` is no event"));
        assert!(mistake("account\n\u{200b}5 call", 2).contains("found `\\u{200b}5`"));
        assert!(mistake("account\n5 call \u{200b}", 2).contains("`\\u{200b}` is left over"));
        let long = "account\n5 ".to_string() + &"x".repeat(1_000);
        assert!(mistake(&long, 2).len() < 400);
    }

    #[test]
    fn an_event_needs_an_account_a_day_and_a_word() {
        assert!(mistake("# x\n\n5 call", 3).contains("before the first account"));
        assert!(mistake("account Smith", 1).contains("after #"));
        assert!(mistake("account\nbill 5", 2)
            .contains("the day as a date or a whole number, found `bill`"));
        assert!(mistake("account\n-5 call", 2).contains("found `-5`"));
        assert!(mistake("account\n4294967296 call", 2).contains("4294967295"));
        assert!(mistake("account\n5", 2).starts_with("after the day comes an event: bill, "));
        assert!(mistake("account\n5 bil 7", 2).starts_with("`bil` is no event"));
    }

    #[test]
    fn a_number_is_asked_for_by_what_it_is() {
        assert_eq!(
            mistake("account\n5 bill", 2),
            "`bill` needs its amount in cents"
        );
        assert_eq!(
            mistake("account\n5 arrangement amount=3", 2),
            "`arrangement` needs its parts, 2 to 6"
        );
        assert!(mistake("account\n5 bill 12.50", 2).contains("found `12.50`"));
        assert!(mistake("account\n5 bill _12", 2).contains("found `_12`"));
        assert!(mistake("account\n5 bill 12,", 2).contains("found `12,`"));
        assert!(mistake("account\n5 bill 18446744073709551616", 2).contains("at most"));
        assert!(mistake("account\n5 fee 256", 2).contains("255"));
        assert!(mistake("account\n5 bill 99999999999999999999999", 2).contains("at most"));
    }

    #[test]
    fn fields_left_over_or_given_twice_are_said() {
        assert!(mistake("account\n5 call 3", 2).starts_with("`call` takes no number"));
        assert!(mistake("account\n5 bill 3 4", 2).starts_with("`bill` takes one number"));
        assert!(mistake("account\n5 bill 3 opt=4", 2).contains("`opt=4` is left over"));
        assert_eq!(
            mistake("account\n5 bill 3 amount=4", 2),
            "`bill` has its amount twice"
        );
        assert_eq!(
            mistake("account\n5 call option=1 option=1", 2),
            "`call` has its option twice"
        );
        assert!(mistake("account\n5 call option=", 2).contains("the option as a whole number"));
    }

    #[test]
    fn a_till_left_over_wrong_or_given_twice_is_said() {
        let told = |line: &str| event(line).unwrap_err();
        for fields in ["till=1 till=1", "till=1 option=1", "option=0 till=0"] {
            let line = format!("5 payment 7 {fields}");
            assert_eq!(told(&line), "`payment` has its till twice", "{line}");
        }
        assert_eq!(
            told("5 payment 7 3"),
            "`payment` takes one number, and `3` is left over; its till is written till=N"
        );
        assert_eq!(
            told("5 returned 7 at=3"),
            "`returned` takes one number, and `at=3` is left over; its till is written till=N"
        );
        assert_eq!(
            told("5 bill 7 till=3"),
            "`bill` takes one number, and `till=3` is left over; a field that it does not name is written option=N or amount=N"
        );
        assert_eq!(
            told("5 payment till=3"),
            "`payment` needs its amount in cents"
        );
        assert!(told("5 payment 7 till=").contains("the till as a whole number, found ``"));
        assert!(told("5 payment 7 till=drop").contains("the till as a whole number, found `drop`"));
        assert!(told("5 payment 7 till=256").contains("it is 255 at most"));
    }

    #[test]
    fn a_kind_without_a_word_is_not_written() {
        assert!(write(&[vec![Event::new(17, 0, 0, 0)]]).is_err());
        assert!(write(&[vec![Event::new(0, 0, 0, 0)]]).is_err());
    }
}
