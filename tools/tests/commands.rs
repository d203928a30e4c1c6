//! The command as a whole: its help, its version, wrong calls, and the short subcommands.
mod run;

use run::{complaint, folder, pack, printed, run, run_words, TEXT};
use std::fs;
use tools::core;

const COMMANDS: [&str; 6] = ["why", "bill", "reading", "pack", "unpack", "standing"];

#[test]
fn help_is_printed_where_it_is_asked_for() {
    let help = printed(run("--help", b""));
    assert!(help.contains("\nusage: hollupaq COMMAND ..\n"));
    for name in COMMANDS {
        assert!(help.contains(&format!("\n  {name} ")), "{name}");
    }
    for words in ["help", "-h", "help help", "help --help"] {
        assert_eq!(printed(run(words, b"")), help, "{words}");
    }
}

#[test]
fn each_command_has_a_help_of_its_own() {
    for name in COMMANDS {
        let help = printed(run(&format!("{name} --help"), b""));
        assert!(help.starts_with(&format!("hollupaq {name} ")), "{help}");
        assert!(help.contains(&format!("\nusage: hollupaq {name} ")));
        assert!(help.lines().all(|line| line.len() <= 100), "{help}");
        for words in [
            "help NAME",
            "NAME -h",
            "NAME a b c d --help",
            "NAME --x --help",
        ] {
            let words = words.replace("NAME", name);
            assert_eq!(printed(run(&words, b"")), help, "{words}");
        }
    }
    let help = printed(run("why --help", b""));
    for option in [
        "--on DAY",
        "--try 'DAY EVENT ..'",
        "--csv",
        "--calendar FILE",
    ] {
        assert!(help.contains(&format!("\n  {option} ")), "{option}");
    }
    // The calendar that it shows is one.
    let (_, shown) = help.split_once("\n\n  first ").unwrap();
    assert!(tools::calendar::read(&format!("first {shown}")).is_ok());
    // The help names the columns in words of its own.
    assert!(help.contains(&format!("\n  {}\n", tools::csv::COLUMNS)));
    assert!(help.contains("sums are in cents"));
    // Where the text of an event is told, so is its till.
    for name in ["why", "pack"] {
        let help = printed(run(&format!("{name} --help"), b""));
        assert!(help.contains("till=3"), "{help}");
    }
}

#[test]
fn the_version_is_the_library_s() {
    assert_eq!(core::version(), 10_600);
    for words in ["--version", "-V"] {
        assert_eq!(printed(run(words, b"")), "hollupaq 1.6.0\n");
    }
}

#[test]
fn without_arguments_the_help_is_a_complaint() {
    let help = printed(run("--help", b""));
    assert_eq!(complaint(&run("", b""), 2), help);
}

/// The usage of each command, and of the command without one.
const USAGES: [(&str, &str); 7] = [
    (
        "hollupaq",
        "hollupaq COMMAND ..   (`hollupaq help` lists the commands)",
    ),
    (
        "hollupaq why",
        "hollupaq why BOOK [N] [--on DAY | --try 'DAY EVENT ..' | --csv] [--calendar FILE]",
    ),
    ("hollupaq bill", "hollupaq bill CLASS USAGE"),
    ("hollupaq reading", "hollupaq reading CLASS CENTS"),
    ("hollupaq pack", "hollupaq pack TEXT [BOOK]"),
    ("hollupaq unpack", "hollupaq unpack BOOK [TEXT]"),
    ("hollupaq standing", "hollupaq standing BOOK"),
];

/// Wrong calls, and the reason that each is told.
const WRONG: &str = "\
wy => hollupaq: there is no command `wy`
help wy => hollupaq: there is no command `wy`
--verbose => hollupaq: `--verbose` is not known
--version 2 => hollupaq: `2` is one word too many
help why pack => hollupaq: `pack` is one word too many
why => hollupaq why: BOOK is missing
why - 0 1 => hollupaq why: `1` is one word too many
why - --all => hollupaq why: `--all` is not known
why - --on => hollupaq why: DAY is missing after --on
why - --csv=1 => hollupaq why: nothing follows --csv
why - --csv --csv => hollupaq why: --csv is given twice
why - --csv --on 5 => hollupaq why: --csv and --on do not go together
why - --calendar => hollupaq why: FILE is missing after --calendar
why - --calendar=a --calendar b => hollupaq why: --calendar is given twice
why - --calendar - => hollupaq why: --calendar: only one of BOOK and FILE can be standard input
why - one => hollupaq why: N is the number of an account, 0 or more, and not `one`
bill => hollupaq bill: CLASS is missing
bill 1 => hollupaq bill: USAGE is missing
bill 1 2 3 => hollupaq bill: `3` is one word too many
bill home 5 => hollupaq bill: CLASS is the number of a class, 0 or more, and not `home`
bill 1 60,000 => hollupaq bill: USAGE is a number of kilowatt-hours, 0 or more, and not `60,000`
bill 1 18446744073709551616 => hollupaq bill: USAGE is a number of kilowatt-hours, 0 or more, and not `18446744073709551616`
reading => hollupaq reading: CLASS is missing
reading 1 => hollupaq reading: CENTS is missing
reading 1 2 3 => hollupaq reading: `3` is one word too many
reading home 5 => hollupaq reading: CLASS is the number of a class, 0 or more, and not `home`
reading 1 100.00 => hollupaq reading: CENTS is a whole number of cents (10000 is 100.00 dollars), 0 or more, and not `100.00`
reading 1 10,000 => hollupaq reading: CENTS is a whole number of cents (10000 is 100.00 dollars), 0 or more, and not `10,000`
reading 1 18446744073709551616 => hollupaq reading: CENTS is a whole number of cents (10000 is 100.00 dollars), 0 or more, and not `18446744073709551616`
pack => hollupaq pack: TEXT is missing
pack a b c => hollupaq pack: `c` is one word too many
unpack => hollupaq unpack: BOOK is missing
unpack -x => hollupaq unpack: `-x` is not known
standing => hollupaq standing: BOOK is missing
standing a 0 => hollupaq standing: `0` is one word too many";

#[test]
fn a_wrong_call_is_told_with_its_usage() {
    for line in WRONG.lines() {
        let (words, reason) = line.split_once(" => ").unwrap();
        let name = reason.split(':').next().unwrap();
        let (_, usage) = USAGES.iter().find(|(called, _)| *called == name).unwrap();
        let told = complaint(&run(words, b""), 2);
        assert_eq!(told, format!("{reason}\nusage: {usage}\n"), "{words}");
    }
}

#[test]
fn control_bytes_of_a_call_are_shown_by_their_numbers() {
    let told = complaint(&run_words(&["\u{1b}[2J"], b""), 2);
    assert!(told.starts_with("hollupaq: there is no command `\\u{1b}[2J`\n"));
    let told = complaint(&run_words(&["why", "no\u{7}\nfile"], b""), 1);
    assert!(told.starts_with("hollupaq why: can't read no\\u{7}\\nfile: "));
    let told = complaint(&run_words(&["why", ""], b""), 1);
    assert!(told.starts_with("hollupaq why: can't read '': "), "{told}");
}

#[test]
fn a_bill_is_worked_out_and_a_reading_refused() {
    let told = printed(run("bill 1 1000", b""));
    assert_eq!(told, tools::bill::tell(1, 1_000));
    assert!(told.ends_with(": DAY bill 8341\n"), "{told}");
    // The amount that is told is the one of the bill that is posted.
    let book = pack(b"account\n  100 bill 8341\n");
    let standing = printed(run("standing -", &book));
    assert!(standing.ends_with("\n0 8341 0 1 on 0\n"), "{standing}");
    for words in ["bill 4 0", "bill 257 1000", "bill 1 10000001"] {
        let told = printed(run(words, b""));
        assert!(told.contains("\n\nrefused 23: the class "), "{told}");
    }
}

#[test]
fn a_sum_is_told_the_usage_that_it_pays_for() {
    let told = printed(run("reading 1 8000", b""));
    assert_eq!(told, tools::reading::tell(1, 8_000));
    // The usage that is told has a bill of at most the sum, and one more has not.
    let rows = "\npays for  953  79.97\none more  954  80.05\n";
    assert!(told.contains(rows), "{told}");
    let bill = printed(run("bill 1 953", b""));
    assert!(bill.ends_with(": DAY bill 7997\n"), "{bill}");
    let bill = printed(run("bill 1 954", b""));
    assert!(bill.ends_with(": DAY bill 8005\n"), "{bill}");
    for words in ["reading 0 5000", "reading 4 0", "reading 257 5000"] {
        let told = printed(run(words, b""));
        assert!(
            told.ends_with("\n\nrefused 23: the class is not 1 to 3\n"),
            "{told}"
        );
    }
}

#[test]
fn the_standing_is_the_core_s_text() {
    let book = pack(TEXT);
    let text = printed(run("standing -", &book));
    assert_eq!(text.as_bytes(), core::report(&book));
    assert_eq!(
        text,
        "account owed held open service refused\n0 11075 0 2 on 1\n"
    );
    let file = folder("standing").join("a.book");
    fs::write(&file, &book).unwrap();
    assert_eq!(
        printed(run_words(&["standing", file.to_str().unwrap()], b"")),
        text
    );
}

#[test]
fn a_refused_book_has_the_core_s_text_and_a_status() {
    let refused = run("standing -", b"1234567");
    assert_eq!(refused.status.code(), Some(1));
    assert_eq!(refused.stdout, b"book refused 20\n");
    assert_eq!(
        String::from_utf8(refused.stderr).unwrap(),
        "hollupaq standing: book refused 20: the book's length, its header or its table of accounts is wrong\n"
    );
}
