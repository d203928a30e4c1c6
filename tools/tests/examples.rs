//! The books of examples/: text, book and standing belong together.
use std::fs;
use std::path::{Path, PathBuf};
use tools::core::books;
use tools::history::History;
use tools::{calendar, core, dates, text};

fn folder() -> PathBuf {
    Path::new(env!("CARGO_MANIFEST_DIR")).join("../examples")
}

fn read(name: &str, ending: &str) -> Vec<u8> {
    let path = folder().join(format!("{name}.{ending}"));
    fs::read(&path).unwrap_or_else(|e| panic!("{}: {e}", path.display()))
}

/// The names of all example texts.
fn names() -> Vec<String> {
    let mut names: Vec<String> = fs::read_dir(folder())
        .unwrap()
        .map(|entry| entry.unwrap().path())
        .filter(|path| path.extension().is_some_and(|ending| ending == "txt"))
        .map(|path| path.file_stem().unwrap().to_str().unwrap().to_string())
        .collect();
    names.sort();
    names
}

#[test]
fn there_are_eight() {
    let expected = [
        "deposit-way",
        "family-in-arrears",
        "five-working-days",
        "sample",
        "shop-with-returned-checks",
        "shorter-certificates",
        "three-tills",
        "twelve-months",
    ];
    assert_eq!(names(), expected);
}

#[test]
fn each_text_packs_to_its_book() {
    for name in names() {
        let list = text::read(&String::from_utf8(read(&name, "txt")).unwrap()).unwrap();
        assert_eq!(books::write(&list), Ok(read(&name, "book")), "{name}");
    }
}

#[test]
fn each_book_unpacks_and_packs_again() {
    for name in names() {
        let book = read(&name, "book");
        let unpacked = text::write(&books::read(&book).unwrap()).unwrap();
        assert_eq!(
            books::write(&text::read(&unpacked).unwrap()),
            Ok(book),
            "{name}"
        );
    }
}

#[test]
fn each_book_stands_as_written() {
    for name in names() {
        let standing = core::report(&read(&name, "book"));
        assert_eq!(standing, read(&name, "standing"), "{name}");
    }
}

/// A remark that begins with `refused` stands exactly on the lines that the core refuses.
#[test]
fn the_remarks_tell_what_is_refused() {
    for name in names() {
        let told = String::from_utf8(read(&name, "txt")).unwrap();
        let remarks: Vec<bool> = told
            .lines()
            .filter(|line| line.starts_with("  "))
            .map(|line| line.contains("# refused"))
            .collect();
        let book = read(&name, "book");
        let answers: Vec<bool> = (0..books::accounts(&book).unwrap())
            .flat_map(|account| core::history(&book, account).unwrap())
            .map(|reply| reply.number != 0)
            .collect();
        assert_eq!(remarks, answers, "{name}");
    }
}

/// The dates that its remark names, and the answers to the book that speaks of it.
#[test]
fn the_calendar_moves_the_disconnection() {
    let calendar = String::from_utf8(read("sample", "calendar")).unwrap();
    assert!(calendar.contains("to 10 August 2031"));
    let calendar = calendar::read(&calendar).unwrap();
    assert!(calendar::days(calendar.first).ends_with("(2031-08-10)"));
    let list = books::read(&read("five-working-days", "book")).unwrap();
    let numbers = |calendar| -> Vec<u8> {
        let (_, steps) = History::begun(calendar, &list[0]);
        steps.iter().map(|step| step.number()).collect()
    };
    assert_eq!(numbers(None), [0, 0, 0, 0, 5, 5]);
    assert_eq!(numbers(Some(&calendar)), [0, 0, 0, 12, 0, 0]);
}

/// The last days that its remarks name, and the answers: a disconnection is refused up to that day, and not after it.
#[test]
fn a_certificate_bars_the_disconnection_to_its_last_day() {
    let remarks = String::from_utf8(read("shorter-certificates", "txt")).unwrap();
    let list = books::read(&read("shorter-certificates", "book")).unwrap();
    for (events, numbers, last, date) in [
        (
            &list[0],
            &[0, 0, 0, 0, 0, 0, 15, 0, 0, 0, 0, 15, 0][..],
            "live to day 9675, 28 June",
            "live to day 9675 (2026-06-28)",
        ),
        (
            &list[1],
            &[0, 3, 0, 0, 0, 0, 0, 15, 0],
            "live to day 9594, 8 April",
            "live to day 9594 (2026-04-08)",
        ),
    ] {
        assert!(remarks.contains(last), "{last}");
        let (_, steps) = History::of(events);
        let answers: Vec<u8> = steps.iter().map(|step| step.number()).collect();
        assert_eq!(answers, numbers);
        for step in steps.iter().filter(|step| step.number() == 15) {
            let note = step.note.as_deref().unwrap();
            assert!(note.ends_with(date), "{note}");
        }
    }
}

/// A move is refused on the days before the one that is told, and accepted on that.
#[test]
fn a_deposit_is_moved_on_the_day_from_which_it_is_earned() {
    let list = books::read(&read("twelve-months", "book")).unwrap();
    let earned = ["2025-03-01", "2024-03-01", "2024-03-02"];
    for (events, date) in list.iter().zip(earned) {
        let (_, steps) = History::of(events);
        let moves: Vec<_> = steps.iter().filter(|step| step.event.kind == 7).collect();
        let (last, refused) = moves.split_last().unwrap();
        assert_eq!(
            (last.number(), dates::day_of(date)),
            (0, Some(last.event.day))
        );
        assert!(!refused.is_empty());
        for step in refused {
            let told = format!("; it is earned from {} on, ", dates::day(last.event.day));
            assert_eq!(step.number(), 8);
            assert!(step.note.as_deref().unwrap().contains(&told));
        }
    }
    assert_eq!(list.len(), earned.len());
}

/// What `hollupaq why` tells is taken of an account that is posted to: it is the core's history of the book, and its standing.
#[test]
fn an_account_that_is_posted_to_answers_as_the_book_does() {
    for name in names() {
        let book = read(&name, "book");
        let standing = String::from_utf8(read(&name, "standing")).unwrap();
        for (index, events) in books::read(&book).unwrap().iter().enumerate() {
            let (history, steps) = History::of(events);
            let told: Vec<(u8, i64)> = steps.iter().map(|s| (s.number(), s.owed)).collect();
            let replies = core::history(&book, index).unwrap();
            let replies: Vec<(u8, i64)> = replies.iter().map(|r| (r.number, r.owed)).collect();
            assert_eq!(told, replies, "{name} {index}");
            let account = history.account();
            let line = format!(
                "{index} {} {} {} {} {}",
                account.owed(),
                account.held(),
                account.open_count(),
                account.service(),
                history.refused
            );
            assert_eq!(standing.lines().nth(index + 1), Some(&line[..]), "{name}");
        }
    }
}
