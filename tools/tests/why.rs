//! `hollupaq why`: the history of an account, a day, an event that is only tried, and the spreadsheet.
mod run;

use run::{complaint, folder, pack, printed, run, run_words, shell, TEXT};
use std::fs;
use std::path::PathBuf;

/// What `why` prints of the sample book.
fn why(words: &[&str]) -> String {
    let words = [&["why", "-"], words].concat();
    printed(run_words(&words, &pack(TEXT)))
}

#[test]
fn a_refusal_is_explained() {
    let told = why(&[]);
    assert_eq!(told, why(&["0"]));
    assert!(told.contains("payment of 40.00  110.75  accepted, receipt 1\n"));
    assert!(told.contains("disconnection     110.75  refused 12: "));
    assert!(told.contains("bill of 50.00     150.75  accepted, 0.75 late charge added\n"));
    assert!(told.ends_with(
        "\n100  2000-04-10   60.00\n130  2000-05-10   50.75\n\n\
        Standing: 110.75 owed, no deposit held, 2 open charges, service on, 1 event refused.\n"
    ));
}

#[test]
fn the_arrears_are_told_where_a_refusal_speaks_of_them() {
    let text = "account\n 0 bill 4000\n 25 notice\n 25 arrangement 2\n 25 arrangement 3\n\
        account\n 0 bill 6000\n 19 arrangement 2\n 20 notice\n 22 call\n 25 cut\n 26 reconnection 0\n";
    let book = pack(text.as_bytes());
    let told = printed(run("why - 0", &book));
    let lines: Vec<&str> = told.lines().map(str::trim).collect();
    let arrears = "40.00 are in arrears, what is unpaid of charges up to day 5 (2000-01-06)";
    assert!(lines[4].ends_with("  refused 10: the arrears are under 50.00"));
    assert_eq!(lines[5], arrears);
    assert!(lines[7].contains("  refused 9: nothing is in arrears, or a payment arrangement is in"));
    assert!(lines[8].starts_with("it was made on day 25 (2000-01-26) in 2 parts; "));
    assert!(lines[8].ends_with(&format!(" to day 54 (2000-02-24); {arrears}")));
    let told = printed(run("why - 1", &book));
    assert!(
        told.contains(" nothing is in arrears before day 20\n"),
        "{told}"
    );
    assert!(told
        .contains(" 60.00 are in arrears, what is unpaid of charges up to day 6 (2000-01-07)\n"));
}

#[test]
fn an_account_without_events_is_shown_too() {
    let told = printed(run("why -", &pack(b"account\n")));
    let expected = "Account 0 of 1. Sums are in dollars.\n\n\
        Standing: 0.00 owed, no deposit held, no open charges, service on, no events refused.\n";
    assert_eq!(told, expected);
}

#[test]
fn all_open_charges_are_listed() {
    let text = format!("account\n{}", "5 fee 3\n".repeat(65));
    let told = printed(run("why -", &pack(text.as_bytes())));
    assert_eq!(
        told.matches("\n  5  2000-01-06   30.00\n".trim_start())
            .count(),
        64
    );
    assert!(told.contains("refused 18: 64 charges are open already\n"));
}

#[test]
fn what_can_not_be_shown_is_told_in_words() {
    let book = pack(TEXT);
    let told = complaint(&run("why - 1", &book), 1);
    assert_eq!(
        told,
        "hollupaq why: there is no account 1: the book's only account is 0\n"
    );
    let told = complaint(&run("why - 0", &[0; 8]), 1);
    assert_eq!(
        told,
        "hollupaq why: there is no account 0: the book has none\n"
    );
    let told = complaint(&run("why -", &book[1..]), 1);
    assert!(told.starts_with("hollupaq why: book refused 20: "));
    let told = complaint(&run("why no-such-file", b""), 1);
    assert_eq!(
        told,
        "hollupaq why: can't read no-such-file: No such file or directory\n"
    );
}

#[test]
fn a_day_is_a_number_or_a_date() {
    let told = why(&["--on", "131"]);
    assert!(told.starts_with("Account 0 of 1 on day 131 (2000-05-11), after all events. "));
    assert!(told.contains("\narrears              60.00\nfinal notice         none live\n"));
    assert!(told.contains("\ndisconnection        not allowed, refused 12: no live final notice, "));
    for words in [&["0", "--on", "2000-05-11"][..], &["--on=131", "0"]] {
        assert_eq!(why(words), told);
    }
    assert!(why(&["--on", "150"]).contains("\narrears              110.75\n"));
}

#[test]
fn a_disconnection_that_is_allowed_is_told_so() {
    let text = "account\n 0 bill 6000\n 20 final notice\n 22 call\n";
    let told = printed(run("why - --on 25", &pack(text.as_bytes())));
    assert!(told.contains("\nfinal notice         live to day 40 (2000-02-10)\n"));
    assert!(told.ends_with("\ndisconnection        allowed\n"));
}

#[test]
fn a_day_that_the_core_refuses_is_told_in_words() {
    assert!(why(&["--on", "130"]).ends_with(
        "\nrefused 2: the day is before that of the last accepted event\n  \
        the last accepted event is of day 131 (2000-05-11)\n"
    ));
    for day in ["73049", "2200-01-01", "4294967295"] {
        let told = why(&["--on", day]);
        assert!(told.ends_with("\nrefused 1: the day is after 31 December 2199\n"));
    }
}

/// An option with a value that is none, and how the reason begins.
const WRONG: &str = "\
--on soon => expected the day as a date or a whole number, found `soon`
--on -1 => expected the day as a date or a whole number, found `-1`
--on 2001-02-29 => `2001-02-29` is no day: there is no such date, or it is before 2000-01-01
--on 1999-12-31 => `1999-12-31` is no day: there is no such date, or it is before 2000-01-01
--try 131 bil 5 => `bil` is no event; the events are bill, payment, returned, 
--try 131 payment => `payment` needs its amount in cents
--try 131 payment 40.00 => expected its amount in cents as a whole number, found `40.00`
--try 131 certificate => `certificate` needs its days, 1 to 180 (1 to 90 from day 9497, 2026-01-01, on)
--try 131 certificate long => expected its days, 1 to 180 (1 to 90 from day 9497, 2026-01-01, on) as a whole number, found `long`
--try 131 payment 4000 3 => `payment` takes one number, and `3` is left over; its till is written till=N
--try 131 payment 4000 till=box => expected the till as a whole number, found `box`
--try cut => expected the day as a date or a whole number, found `cut`
--try # => expected a day and an event, found nothing
--try 131 cut\t\u{7} => the control byte \\u{7} has no place in a text";

#[test]
fn what_is_no_day_or_event_is_a_wrong_call() {
    for line in WRONG.lines() {
        let (words, reason) = line.split_once(" => ").unwrap();
        let (option, value) = words.split_once(' ').unwrap();
        // The book is not even looked for.
        let told = complaint(&run_words(&["why", "no-such-file", option, value], b""), 2);
        let expected = format!("hollupaq why: {option}: {reason}");
        assert!(told.starts_with(&expected), "{told}");
        assert_eq!(told.lines().count(), 2);
        assert!(told.contains("\nusage: hollupaq why BOOK [N] [--on DAY | "));
    }
}

#[test]
fn an_event_is_tried_with_nothing_changed() {
    let told = why(&["--try", "131 payment 4000"]);
    assert_eq!(
        told,
        "Account 0 of 1, tried with nothing changed. Sums are in dollars.\n\n\
        day  date        event              owed  answer\n\
        131  2000-05-11  payment of 40.00  70.75  would be accepted, receipt 2\n"
    );
    let told = why(&["--try", "2000-05-11 cut"]);
    assert!(told.contains("\n131  2000-05-11  disconnection  110.75  would be refused 12: "));
    assert!(told.ends_with(" not used and not lapsed; there was none\n"));
    assert_eq!(why(&["--try", "131 disconnection"]), told);
    let told = why(&["--try", "150 bill 1000"]);
    assert!(told.ends_with("  121.58  would be accepted, 0.83 late charge added\n"));
}

/// Two tills, each with receipts from 1 on.
const TILLS: &[u8] = b"account
  5 payment 4000
  5 payment 300 till=1
  6 payment 5000
  7 returned 1 till=1
  7 returned 2 till=1
  7 returned 1 till=3
  7 returned 1
  7 payment 600 till=1
  7 payment 700 till=5
";

#[test]
fn each_till_has_receipts_of_its_own() {
    let expected = "\
Account 0 of 1. Sums are in dollars.

day  date        event                                    owed  answer
  5  2000-01-06  payment of 40.00                       -40.00  accepted, receipt 1
  5  2000-01-06  payment of 3.00 at till 1              -43.00  accepted, receipt 1
  6  2000-01-07  payment of 50.00                       -93.00  accepted, receipt 2
  7  2000-01-08  returned payment, receipt 1 of till 1  -65.00  accepted, 3.00 charged again, 25.00 returned check fee added
  7  2000-01-08  returned payment, receipt 2 of till 1  -65.00  refused 6: the till has no payment of this receipt that can be returned
                                                                  till 1 has given receipts up to 1
  7  2000-01-08  returned payment, receipt 1 of till 3  -65.00  refused 6: the till has no payment of this receipt that can be returned
                                                                  till 3 has given no receipt
  7  2000-01-08  returned payment, receipt 1              0.00  accepted, 40.00 charged again, 25.00 returned check fee added
  7  2000-01-08  payment of 6.00 at till 1               -6.00  accepted, receipt 2
  7  2000-01-08  payment of 7.00 at till 5               -6.00  refused 3: the amount or the till is out of its range; the tills are 0 to 4

Standing: 6.00 of credit, no deposit held, no open charges, service on, 3 events refused.
";
    assert_eq!(printed(run("why -", &pack(TILLS))), expected);
}

#[test]
fn an_event_is_tried_at_its_till() {
    let heading = "Account 0 of 1, tried with nothing changed. Sums are in dollars.\n\n";
    let told = why(&["--try", "131 payment 4000 till=3"]);
    let expected = "\
day  date        event                        owed  answer
131  2000-05-11  payment of 40.00 at till 3  70.75  would be accepted, receipt 1
";
    assert_eq!(told, format!("{heading}{expected}"));
    let told = why(&["--try", "131 returned 1 till=3"]);
    assert!(told.contains("  returned payment, receipt 1 of till 3  110.75  would be refused 6: "));
    assert!(told.ends_with(" till 3 has given no receipt\n"), "{told}");
    let told = why(&["--try", "131 returned 2"]);
    assert!(
        told.ends_with(" till 0 has given receipts up to 1\n"),
        "{told}"
    );
    let told = why(&["--try", "131 returned 1"]);
    assert!(
        told.ends_with(" would be accepted, 40.00 charged again, 25.00 returned check fee added\n")
    );
}

/// Certificates on both sides of the day from which on they are shorter.
const CERTIFICATES: &[u8] = b"account
  9496 certificate 181
  9496 certificate 180
  9497 certificate 120
  9497 certificate 90
  9497 certificate 0
  9497 certificate 5 option=2
";

#[test]
fn a_certificate_that_is_too_long_is_told_its_range() {
    let expected = "\
Account 0 of 1. Sums are in dollars.

 day  date        event                                  owed  answer
9496  2025-12-31  medical certificate, 181 days          0.00  refused 3: it has no days, or too many for its day, or an option
                                                                 before day 9497 (2026-01-01) a certificate has 1 to 180 days; this one has 181
9496  2025-12-31  medical certificate, 180 days          0.00  accepted
9497  2026-01-01  medical certificate, 120 days          0.00  refused 3: it has no days, or too many for its day, or an option
                                                                 from day 9497 (2026-01-01) on a certificate has 1 to 90 days; this one has 120
9497  2026-01-01  medical certificate, 90 days           0.00  accepted
9497  2026-01-01  medical certificate, 0 days            0.00  refused 3: it has no days, or too many for its day, or an option
                                                                 from day 9497 (2026-01-01) on a certificate has 1 to 90 days; this one has 0
9497  2026-01-01  medical certificate, 5 days, option 2  0.00  refused 3: it has no days, or too many for its day, or an option

Standing: 0.00 owed, no deposit held, no open charges, service on, 4 events refused.
";
    let book = pack(CERTIFICATES);
    assert_eq!(printed(run("why -", &book)), expected);
    // The one of the year before runs its full length.
    let told = printed(run("why - --on 9675", &book));
    let live = "\nmedical certificate  live to day 9675 (2026-06-28)\n";
    assert!(told.contains(live), "{told}");
    // A sheet has no hints.
    let told = printed(run("why - --csv", &book));
    let line = "\n9497,2026-01-01,certificate,0,120,3,,0,0,\"it has no days, or too many for its day, or an option\"\n";
    assert!(told.contains(line), "{told}");
}

/// A deposit with a disconnection in its year, and one of the last year there is.
const DEPOSITS: &[u8] = b"account
  0 bill 6000
  10 deposit-asked 900
  20 deposit-paid 900
  20 notice
  24 call
  25 cut
  389 deposit-moved
account
  72684 deposit-asked 900
  72684 deposit-paid 900
  73048 deposit-moved
";

#[test]
fn a_deposit_that_is_not_earned_is_told_from_which_day_on_it_is() {
    let expected = "\
389  2001-01-24  deposit moved to the account  75.00  refused 8: the deposit is not earned
                                                        it has been full since day 20 (2000-01-21), but with no final notices and 1 disconnection from day 25 (2000-01-26) on; it is earned from day 390 (2001-01-25) on, with at most 2 final notices and no disconnection from day 26 (2000-01-27) on
";
    let book = pack(DEPOSITS);
    let told = printed(run("why - 0", &book));
    assert!(told.contains(expected), "{told}");
    let standing = "\nStanding: 75.00 owed, 9.00 of deposit held, earned from day 390 (2001-01-25) on, 2 open charges, ";
    assert!(told.contains(standing), "{told}");
    let told = printed(run_words(
        &["why", "-", "--try", "390 deposit-moved"],
        &book,
    ));
    assert!(
        told.ends_with("  66.00  would be accepted, 9.00 of deposit credited\n"),
        "{told}"
    );
    let expected = "\
73048  2199-12-31  deposit moved to the account  0.00  refused 8: the deposit is not earned
                                                         it has been full since day 72684 (2199-01-01); up to day 73048 (2199-12-31), the last, it is not earned by waiting, but closing the account moves it

Standing: 0.00 owed, 9.00 of deposit held, not earned by waiting, no open charges, service on, 1 event refused.
";
    let told = printed(run("why - 1", &book));
    assert!(told.ends_with(expected), "{told}");
}

#[test]
fn a_spreadsheet_gets_the_history() {
    let expected = "\
day,date,event,option,amount,answer,receipt,added,owed,reason
100,2000-04-10,bill,0,10000,0,,0,10000,
130,2000-05-10,bill,0,5000,0,,75,15075,
131,2000-05-11,payment,0,4000,0,1,0,11075,
131,2000-05-11,cut,0,0,12,,0,11075,\"no live final notice, or it is too new or too old\"
";
    assert_eq!(why(&["--csv"]), expected);
}

#[test]
fn a_spreadsheet_gets_the_tills() {
    let told = printed(run("why - --csv", &pack(TILLS)));
    let expected = "\
5,2000-01-06,payment,0,4000,0,1,0,-4000,
5,2000-01-06,payment,1,300,0,1,0,-4300,
6,2000-01-07,payment,0,5000,0,2,0,-9300,
7,2000-01-08,returned,1,1,0,,2500,-6500,
";
    assert!(told.contains(expected), "{told}");
}

/// A notice on a Friday, day 20 being 21 January 2000; two disconnections after it, each with its call.
const NOTICED: &[u8] = b"account
  0 bill 6000
  20 notice
  26 call
  27 cut
  28 cut
";

/// The Monday after it is a holiday, and the office is open on Sunday.
const OFFICE: &str =
    "first 2000-01-21 # a Friday\nweek mon tue wed thu fri\non 2000-01-23\noff 2000-01-24\n";

/// A folder with the calendar in it, under the name `office`.
fn office(name: &str) -> PathBuf {
    let folder = folder(name);
    fs::write(folder.join("office"), OFFICE).unwrap();
    folder
}

/// What `why` prints of the book of a text by the calendar.
fn by_calendar(name: &str, text: &[u8], words: &str) -> String {
    let line = format!("hollupaq why - --calendar office {words}");
    printed(shell(&line, &office(name), &pack(text)))
}

#[test]
fn a_calendar_s_working_days_are_named() {
    let expected = "\
Account 0 of 1. Sums are in dollars.
Its calendar has day 20 (2000-01-21) to day 2067 (2005-08-29).

day  date        event           owed  answer
  0  2000-01-01  bill of 60.00  60.00  accepted
 20  2000-01-21  final notice   75.00  accepted, 15.00 final notice fee added
 26  2000-01-27  call           75.00  accepted
 27  2000-01-28  disconnection  75.00  accepted
                                         5 working days after the notice of day 20 (2000-01-21): 2000-01-23, 2000-01-25, 2000-01-26, 2000-01-27, 2000-01-28
 28  2000-01-29  disconnection  75.00  refused 5: service is not on

Open charges, the oldest first:

day  date        unpaid
  0  2000-01-01   60.00
 20  2000-01-21   15.00

Standing: 75.00 owed, no deposit held, 2 open charges, service off, 1 event refused.
";
    assert_eq!(by_calendar("named", NOTICED, ""), expected);
    // A day earlier, there are four of them.
    let early = String::from_utf8(NOTICED.to_vec()).unwrap();
    let early = early.replace("26 call\n  27 cut", "25 call\n  26 cut");
    let told = by_calendar("early", early.as_bytes(), "");
    assert!(told.contains(
        "
 26  2000-01-27  disconnection  75.00  refused 12: no live final notice, or it is too new or too old
                                         4 working days after the notice of day 20 (2000-01-21): 2000-01-23, 2000-01-25, 2000-01-26, 2000-01-27; 5 are wanted
 28  2000-01-29  disconnection  75.00  accepted
                                         5 working days after the notice of day 20 (2000-01-21): 2000-01-23, 2000-01-25, 2000-01-26, 2000-01-27, 2000-01-28
"
    ), "{told}");
    // Without a calendar the days are counted, and none is named.
    let told = printed(run("why -", &pack(early.as_bytes())));
    assert!(told.contains(" 26  2000-01-27  disconnection  75.00  accepted\n 28 "));
    assert!(!told.contains("working") && !told.contains("calendar"));
}

#[test]
fn a_calendar_goes_with_the_other_options() {
    let text = b"account\n 0 bill 6000\n 20 notice\n 24 call\n";
    let heading = "Its calendar has day 20 (2000-01-21) to day 2067 (2005-08-29).\n\n";
    let told = by_calendar("on", text, "--on 2000-01-26");
    assert!(told.starts_with(&format!("Account 0 of 1 on day 25 (2000-01-26), after all events. Sums are in dollars.\n{heading}")), "{told}");
    assert!(told.ends_with(
        "
disconnection        not allowed, refused 12: no live final notice, or it is too new or too old
                       3 working days after the notice of day 20 (2000-01-21): 2000-01-23, 2000-01-25, 2000-01-26; 5 are wanted
"
    ), "{told}");
    let told = by_calendar("on", text, "--on 27");
    assert!(told.ends_with(
        "
disconnection        allowed
                       5 working days after the notice of day 20 (2000-01-21): 2000-01-23, 2000-01-25, 2000-01-26, 2000-01-27, 2000-01-28
"
    ), "{told}");
    let told = by_calendar("try", text, "--try '24 cut'");
    assert_eq!(
        told,
        format!(
            "Account 0 of 1, tried with nothing changed. Sums are in dollars.\n{heading}\
day  date        event           owed  answer
 24  2000-01-25  disconnection  75.00  would be refused 12: no live final notice, or it is too new or too old
                                         2 working days after the notice of day 20 (2000-01-21): 2000-01-23, 2000-01-25; 5 are wanted
"
        )
    );
    let told = by_calendar("csv", NOTICED, "--csv");
    let expected = "\
day,date,event,option,amount,answer,receipt,added,owed,reason
0,2000-01-01,bill,0,6000,0,,0,6000,
20,2000-01-21,notice,0,0,0,,1500,7500,
26,2000-01-27,call,0,0,0,,0,7500,
27,2000-01-28,cut,0,0,0,,0,7500,
28,2000-01-29,cut,0,0,5,,0,7500,service is not on
";
    assert_eq!(told, expected);
}

#[test]
fn a_day_outside_the_calendar_is_told_with_its_days() {
    let text =
        b"account\n 0 bill 6000\n 19 notice\n 19 bill 1\n 2067 notice\n 2068 notice\n 2068 call\n";
    let told = by_calendar("outside", text, "");
    let refused = "refused 24: the day lies outside the account's calendar\n";
    let days = " the calendar has day 20 (2000-01-21) to day 2067 (2005-08-29)\n";
    let lines: Vec<&str> = told.split_inclusive('\n').collect();
    assert!(
        lines[5].ends_with(refused) && lines[6].ends_with(days),
        "{told}"
    );
    assert!(
        lines[7].ends_with(" accepted, 0.45 late charge added\n"),
        "{told}"
    );
    assert!(lines[8].contains("  accepted, "), "{told}");
    assert!(
        lines[9].ends_with(refused) && lines[10].ends_with(days),
        "{told}"
    );
    assert!(lines[11].ends_with("  accepted\n"), "{told}");
    let told = by_calendar("outside", text, "--on 2068");
    assert!(
        told.ends_with(&format!(
            "\ndisconnection        not allowed, {refused}                      {days}"
        )),
        "{told}"
    );
}

/// What stands in the file of a calendar, between its lines a stroke, and what is told of it.
const NO_CALENDAR: &str = "\
# nothing => there is no line `first`
first 20 => there is no line `week`
first 20/week mon tues => line 2: `tues` is no weekday; they are sat, sun, mon, tue, wed, thu, fri
first 20/# x/off 19 => line 3: day 19 (2000-01-20) lies outside the calendar, day 20 (2000-01-21) to day 2067 (2005-08-29)";

#[test]
fn what_is_no_calendar_is_told_with_its_file_and_line() {
    let folder = office("no-calendar");
    let told = |bytes: &[u8]| {
        fs::write(folder.join("office"), bytes).unwrap();
        let line = "hollupaq why - --calendar office";
        complaint(&shell(line, &folder, &pack(TEXT)), 1)
    };
    for line in NO_CALENDAR.lines() {
        let (text, reason) = line.split_once(" => ").unwrap();
        let expected = format!("hollupaq why: office: {reason}\n");
        assert_eq!(told(text.replace('/', "\n").as_bytes()), expected);
    }
    assert!(told(b"first \xff")
        .ends_with(" line 1: expected the day as a date or a whole number, found `\u{fffd}`\n"));
}

/// The help and README show the same calendar, with a remark in each line.
#[test]
fn the_calendar_that_is_shown_is_one() {
    let folder = folder("shown");
    let help = printed(run("why --help", b""));
    let readme = concat!(env!("CARGO_MANIFEST_DIR"), "/../README.md");
    for text in [help, fs::read_to_string(readme).unwrap()] {
        let lines = text.lines().map(str::trim_start);
        let is_one = |line: &&str| {
            let word = line.split(' ').next().unwrap();
            ["first", "week", "off", "on"].contains(&word) && line.contains(" # ")
        };
        let lines: Vec<&str> = lines.filter(is_one).collect();
        assert_eq!(lines.len(), 4, "{lines:?}");
        fs::write(folder.join("shown"), lines.join("\n")).unwrap();
        let line = "hollupaq why - --calendar shown";
        let told = printed(shell(line, &folder, &pack(TEXT)));
        let days = "Its calendar has day 9497 (2026-01-01) to day 11544 (2031-08-10).";
        assert!(told.contains(days), "{told}");
    }
}

#[test]
fn a_calendar_that_can_not_be_read_is_told() {
    let folder = office("unreadable");
    fs::write(folder.join("a.book"), pack(TEXT)).unwrap();
    let told = |line: &str| complaint(&shell(line, &folder, &pack(TEXT)), 1);
    for (file, reason) in [
        ("nowhere", "can't read nowhere: No such file or directory"),
        (".", "can't read .: Is a directory"),
        ("''", "can't read '': No such file or directory"),
    ] {
        let told = told(&format!("hollupaq why a.book --calendar {file}"));
        assert_eq!(told, format!("hollupaq why: {reason}\n"));
    }
    // The book comes first.
    let told = told("hollupaq why nothing --calendar nowhere");
    assert!(told.contains(" can't read nothing: "), "{told}");
}

#[test]
fn a_calendar_may_be_standard_input() {
    let folder = office("input");
    fs::write(folder.join("a.book"), pack(NOTICED)).unwrap();
    let told = printed(shell(
        "hollupaq why a.book --calendar=-",
        &folder,
        OFFICE.as_bytes(),
    ));
    assert_eq!(
        told,
        printed(shell("hollupaq why a.book --calendar office", &folder, b""))
    );
    assert!(told.contains("\nIts calendar has day 20 "), "{told}");
}

/// The name of a calendar's file may be any bytes, as that of a book.
#[cfg(unix)]
#[test]
fn a_calendar_s_name_may_be_any_bytes() {
    use std::ffi::OsStr;
    use std::os::unix::ffi::OsStrExt;
    let folder = office("calendar-name");
    let path = folder.join(OsStr::from_bytes(b"b\xfcro.calendar"));
    fs::rename(folder.join("office"), &path).unwrap();
    fs::write(folder.join("a.book"), pack(NOTICED)).unwrap();
    let mut command = std::process::Command::new(run::PROGRAM);
    command.arg("why").arg(folder.join("a.book"));
    let told = printed(command.arg("--calendar").arg(path).output().unwrap());
    assert!(told.contains("\nIts calendar has day 20 "), "{told}");
}
