//! Ratios of the proved core to an implementation of the same rules in place, and to a plain-text ledger program. All
//! come from one run, since times of different days or machines say nothing about each other.
mod books;
mod clock;
mod inplace;
mod ledgers;
mod posting;
mod row;

use row::{Goal, Times};
use std::hint::black_box;
use std::process::ExitCode;
use tools::event::Event;
use tools::{core, words};

/// What a row may take at most, to the rules in place.
const STANDING_GOAL: Goal = Goal::of(2.0).with_wish(1.5);
const FULL_STANDING_GOAL: Goal = Goal::of(1.6);
const KEPT_GOAL: Goal = Goal::of(4.0);
const HISTORY_GOAL: Goal = Goal::of(15.0);
/// Flat, but for what the clock can't tell.
const GROWTH_GOAL: Goal = Goal::of(1.15);

const MANY: usize = 60;
const GROWTH_EVENTS: u64 = 16_000;

fn main() -> ExitCode {
    match run() {
        Ok(()) => ExitCode::SUCCESS,
        Err(words) => {
            eprintln!("bench: {words}");
            ExitCode::FAILURE
        }
    }
}

fn run() -> Result<(), String> {
    let one = vec![books::years(1, books::most_records(1))];
    let full = vec![books::full_house(1, books::most_records(1))];
    let many = many_accounts();
    println!("Standing of a book just under 64 KB: core to the same rules in place");
    standing("one account", STANDING_GOAL, &one)?;
    let times = standing("60 accounts", STANDING_GOAL, &many)?;
    standing("one account, 64 items open", FULL_STANDING_GOAL, &full)?;
    println!("\nPosting one event at a time on a kept account, owed asked after each: core to the same rules in place");
    kept("one account", &one[0])?;
    kept("one account, 64 items open", &full[0])?;
    println!("\nThe history of a book, posted on a lent account: core to the same rules in place");
    history("one account", &one[0])?;
    history("one account, 64 items open", &full[0])?;
    println!("\nTime of an event as one account grows, to that of 500 events");
    growth("years of events", books::years)?;
    growth("64 items open", books::full_house)?;
    println!("\nBalances of as many postings as the book of 60 accounts has events, to the core");
    ledger(&many, times.core);
    Ok(())
}

fn many_accounts() -> Vec<Vec<Event>> {
    let each = books::most_records(MANY) / MANY;
    (0..MANY)
        .map(|i| books::years(i as u64 + 2, each))
        .collect()
}

fn book_of(list: &[Vec<Event>]) -> Result<Vec<u8>, String> {
    core::books::write(list).map_err(words::list_refused)
}

/// Both texts have to be equal before anything is timed.
fn compare(book: &[u8]) -> Result<(), String> {
    let mut out = vec![0; core::report_room(book)];
    let written = inplace::report(book, &mut out);
    if core::report(book) == out[..written] {
        Ok(())
    } else {
        Err("the core and the in-place implementation print different texts".to_string())
    }
}

fn standing(name: &str, goal: Goal, list: &[Vec<Event>]) -> Result<Times, String> {
    let book = book_of(list)?;
    compare(&book)?;
    let mut out = vec![0; core::report_room(&book)];
    let mut other = out.clone();
    let times = Times::of([
        Box::new(|| {
            black_box(core::report_into(black_box(&book), &mut out));
        }),
        Box::new(|| {
            black_box(inplace::report(black_box(&book), &mut other));
        }),
    ]);
    times.show(name, goal, list.iter().map(Vec::len).sum());
    Ok(times)
}

fn kept(name: &str, events: &[Event]) -> Result<(), String> {
    let times = posting::kept(events)?;
    times.show(name, KEPT_GOAL, events.len());
    Ok(())
}

fn history(name: &str, events: &[Event]) -> Result<(), String> {
    let book = book_of(&[events.to_vec()])?;
    let times = posting::history(&book, events.len())?;
    times.show(name, HISTORY_GOAL, events.len());
    Ok(())
}

/// Each size is measured on the same number of events, in as many books of one account as that takes: the processor
/// learns a short book by heart when it meets it again and again. Each ratio is to the time of the shortest books, so
/// there are more samples than elsewhere. An account that is first filled with 64 items spends an eighth of a short
/// book on that, at a lower cost for each event, so that its row is a little over 1 without any growth.
fn growth(name: &str, events: impl Fn(u64, usize) -> Vec<Event>) -> Result<(), String> {
    let sizes = [500, 1_000, 2_000, 4_000];
    let mut tasks = Vec::new();
    for records in sizes {
        let books: Vec<Vec<u8>> = (0..GROWTH_EVENTS / records as u64)
            .map(|seed| book_of(&[events(seed, records)]))
            .collect::<Result<_, _>>()?;
        books.iter().try_for_each(|book| compare(book))?;
        tasks.push(all_reports(books));
    }
    let times = clock::medians(&mut tasks, 4 * clock::SAMPLES);
    let ratios: Vec<String> = sizes
        .iter()
        .zip(&times)
        .map(|(records, time)| format!("{records}: {:.2}", time / times[0]))
        .collect();
    let most = times
        .iter()
        .fold(0.0, |most: f64, time| most.max(time / times[0]));
    let verdict = GROWTH_GOAL.verdict(most);
    println!("  {name:<28} {}   {verdict}", ratios.join("   "));
    Ok(())
}

/// The core's reports of the books, one after another.
fn all_reports(books: Vec<Vec<u8>>) -> clock::Task<'static> {
    let room = books.iter().map(|book| core::report_room(book)).max();
    let mut out = vec![0; room.unwrap_or(0)];
    Box::new(move || {
        for book in black_box(&books) {
            black_box(core::report_into(book, &mut out));
        }
    })
}

/// A ledger program starts anew for each run; its start is measured apart by a journal without postings.
fn ledger(list: &[Vec<Event>], core: f64) {
    let Some(program) = ledgers::installed() else {
        println!("  left out: neither hledger nor ledger is installed");
        return;
    };
    let whole = ledgers::time(program, &ledgers::journal(list));
    let start = ledgers::time(program, "");
    match (whole, start) {
        (Ok(whole), Ok(start)) => {
            let ratio = (whole - start) / core;
            let verdict = if ratio > 1.0 { "met" } else { "missed" };
            let with_start = whole / core;
            println!("  {program:<28} {ratio:6.0}   goal above 1 {verdict}   (with its start {with_start:.0})");
        }
        (Err(words), _) | (_, Err(words)) => println!("  left out: {words}"),
    }
}
