//! The plain-text ledger programs, which compute balances of as many postings as a book has events.
use crate::clock::median;
use std::io::Write;
use std::process::{Command, Stdio};
use std::time::Instant;
use tools::event::Event;
use tools::{dates, words};

const RUNS: usize = 7;

/// The first of the programs that is installed.
pub fn installed() -> Option<&'static str> {
    ["hledger", "ledger"].into_iter().find(|name| {
        Command::new(name)
            .arg("--version")
            .stdout(Stdio::null())
            .stderr(Stdio::null())
            .status()
            .is_ok_and(|status| status.success())
    })
}

/// A journal with as many postings as the list has events: two for every other event.
pub fn journal(list: &[Vec<Event>]) -> String {
    let events = list
        .iter()
        .enumerate()
        .flat_map(|(index, account)| account.iter().map(move |event| (index, event)));
    let mut text = String::new();
    for (index, event) in events.step_by(2) {
        let date = dates::date(event.day).expect("a day in range");
        let sum = words::money(event.amount.into());
        let what = words::event(event);
        text += &format!("{date} {what}\n    customers:{index}  {sum}\n    utility\n\n");
    }
    text
}

/// The median time of a run over a journal, in seconds.
pub fn time(program: &str, journal: &str) -> Result<f64, String> {
    let mut times = Vec::new();
    for _ in 0..RUNS {
        let start = Instant::now();
        run(program, journal)?;
        times.push(start.elapsed().as_secs_f64());
    }
    Ok(median(times))
}

fn run(program: &str, journal: &str) -> Result<(), String> {
    let mut child = Command::new(program)
        .args(["-f", "-", "balance"])
        .stdin(Stdio::piped())
        .stdout(Stdio::null())
        .spawn()
        .map_err(|e| format!("{program} does not start: {e}"))?;
    let mut input = child.stdin.take().expect("the pipe just made");
    let fed = input.write_all(journal.as_bytes());
    drop(input);
    let status = child.wait().map_err(|e| e.to_string())?;
    match (fed, status.success()) {
        (Ok(()), true) => Ok(()),
        _ => Err(format!("{program} does not take the journal")),
    }
}
