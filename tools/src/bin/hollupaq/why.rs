//! Tells the history of one account event by event, with the core's answers in words: why was this refused? And what it says of a
//! day, and what would come of an event.
use crate::arguments::{Choice, Given};
use crate::command::{Command, Wrong};
use crate::{files, standard};
use std::ffi::OsStr;
use tools::core::{books, Calendar};
use tools::event::{AccountList, Event};
use tools::story::Subject;
use tools::{calendar, csv, story, text, words};

const ON: Choice = Choice {
    name: "--on",
    value: "DAY",
    about: "what the account says of a day after all its events: 131, or 2000-05-11",
};

const TRY: Choice = Choice {
    name: "--try",
    value: "'DAY EVENT ..'",
    about: "what would come of one event more, with nothing changed: '131 payment 4000'",
};

const CSV: Choice = Choice {
    name: "--csv",
    value: "",
    about: "the history for a spreadsheet, comma-separated; sums are in cents",
};

const CALENDAR: Choice = Choice {
    name: "--calendar",
    value: "FILE",
    about: "also alone: the account is begun with the calendar of a file",
};

pub const COMMAND: Command = Command {
    name: "why",
    takes: &["BOOK", "[N]"],
    choices: &[&[ON, TRY, CSV], &[CALENDAR]],
    about: "tells the history of an account, and why something was refused",
    more: "\
N is the number of the account, the first (0) where none is named. Sums are in
dollars. What an event added to what is owed stands in its answer, and under a
refusal what to look for. An event for --try is written as in the text of a book,
its sum in cents, a till as till=3 (see hollupaq pack --help).

The columns of --csv are
  day,date,event,option,amount,answer,receipt,added,owed,reason
where option is the till of a payment or of a returned one, answer is 0 for accepted
and else the number that refuses the event, and added is what the event changed of
what is owed beyond its own amount.

A book holds no calendar. With --calendar the events are posted to an account that has
one of 2048 days: a final notice then waits five working days. A disconnection that is
accepted, or has too few, names those that it counted. FILE is a text; a day in it is
a number or a date, and a week without names has no working day:

  first 2026-01-01           # the first of its days
  week mon tue wed thu fri   # the weekdays that are working days
  off 2026-12-24 2026-12-25  # single days that are none
  on 2026-12-19              # single days that are one",
    run,
};

/// What is asked about an account.
enum Asked {
    History,
    Csv,
    On(u32),
    Try(Event),
}

fn run(given: &Given) -> Result<(), Wrong> {
    // What is wrong with the call is said before a file is looked at.
    let account = account(given).map_err(Wrong::Call)?;
    let asked = asked(given).map_err(Wrong::Call)?;
    let calendar = calendar_file(given).map_err(Wrong::Call)?;
    let book = files::read(given.file(0))?;
    let list = books::read(&book).map_err(words::book_refused)?;
    let events = list
        .get(account)
        .ok_or_else(|| no_account(account, &list))?;
    let calendar = calendar.map(read_calendar).transpose()?;
    let subject = Subject {
        account,
        accounts: list.len(),
        events,
        calendar: calendar.as_ref(),
    };
    let text = match asked {
        Asked::History => story::tell(&subject),
        Asked::Csv => csv::tell(&subject.history().1),
        Asked::On(day) => story::on(&subject, day),
        Asked::Try(event) => story::tried(&subject, event),
    };
    Ok(standard::print(text.as_bytes())?)
}

fn account(given: &Given) -> Result<usize, String> {
    match given.name(1) {
        None => Ok(0),
        Some(_) => given.number(1, "N is the number of an account"),
    }
}

fn asked(given: &Given) -> Result<Asked, String> {
    if let Some(value) = given.value(&ON) {
        let day = text::day(&value.to_string_lossy());
        return day.map(Asked::On).map_err(|words| wrong(&ON, words));
    }
    if let Some(value) = given.value(&TRY) {
        let event = text::event(&value.to_string_lossy());
        return event.map(Asked::Try).map_err(|words| wrong(&TRY, words));
    }
    Ok(match given.value(&CSV) {
        Some(_) => Asked::Csv,
        None => Asked::History,
    })
}

fn wrong(option: &Choice, words: String) -> String {
    format!("{}: {words}", option.name)
}

fn calendar_file(given: &Given) -> Result<Option<&OsStr>, String> {
    match given.value(&CALENDAR) {
        Some(file) if file == "-" && given.file(0) == "-" => {
            let words = "only one of BOOK and FILE can be standard input";
            Err(wrong(&CALENDAR, words.to_string()))
        }
        file => Ok(file),
    }
}

/// Beside the book it is a second file, so that it is named in what is wrong with it.
fn read_calendar(file: &OsStr) -> Result<Calendar, String> {
    let bytes = files::read(file)?;
    let calendar = calendar::read(&String::from_utf8_lossy(&bytes));
    calendar.map_err(|words| format!("{}: {words}", files::told(file)))
}

fn no_account(account: usize, list: &AccountList) -> String {
    match list.len() {
        0 => format!("there is no account {account}: the book has none"),
        1 => format!("there is no account {account}: the book's only account is 0"),
        n => format!(
            "there is no account {account}: the book's accounts are 0 to {}",
            n - 1
        ),
    }
}
