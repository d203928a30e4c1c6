//! The program `standing` against the peer.
use crate::{library, peer, show};
use std::io::{self, Write};
use std::path::Path;
use std::process::{ChildStdin, Command, Output, Stdio};
use std::thread;
use std::time::Duration;

/// What a run costs beside its events, in the units of the shrinking.
const TRY: u64 = 1_000_000;

/// How a file reaches the program.
#[derive(Clone, Copy, Debug)]
pub enum Feed {
    Whole,
    /// In pieces of so many bytes with a rest after each of the first, so that reads come back short.
    Pieces(usize),
}

/// What the program prints for a file, and how it ends.
pub fn run(program: &Path, file: &[u8], feed: Feed) -> io::Result<Output> {
    let mut child = Command::new(program)
        .stdin(Stdio::piped())
        .stdout(Stdio::piped())
        .spawn()?;
    let input = child.stdin.take();
    // A program that has seen enough may stop reading: what it prints and its status are what counts.
    thread::scope(|scope| {
        scope.spawn(move || input.map(|input| write(input, file, feed)));
        child.wait_with_output()
    })
}

/// Whether the program printed what is expected and ended with 0.
fn agrees(output: &Output, expected: &[u8]) -> bool {
    output.status.success() && output.stdout == expected
}

fn write(mut input: ChildStdin, file: &[u8], feed: Feed) -> io::Result<()> {
    let Feed::Pieces(size) = feed else {
        return input.write_all(file);
    };
    for (at, piece) in file.chunks(size).enumerate() {
        input.write_all(piece)?;
        input.flush()?;
        if at < 12 {
            thread::sleep(Duration::from_micros(200));
        }
    }
    Ok(())
}

/// A file for which the program prints something else than the peer or doesn't end with 0, shrunk; nothing where they
/// agree.
pub fn compare(program: &Path, file: &[u8], feed: Feed) -> Option<String> {
    let output = match run(program, file, feed) {
        Ok(output) => output,
        Err(error) => return Some(format!("  {} does not run: {error}", program.display())),
    };
    let expected = peer::standing(file);
    if agrees(&output, &expected) {
        return None;
    }
    // The program prints what the library writes: where that differs too, it is shrunk without a process for each try.
    let by_library = (output.status.success() && file.len() <= peer::book::LONGEST_FILE)
        .then(|| library::compare_report(file, &expected))
        .flatten();
    by_library.or_else(|| Some(difference(program, file, feed)))
}

/// A difference of the program alone.
fn difference(program: &Path, file: &[u8], feed: Feed) -> String {
    let differs = |file: &[u8]| {
        run(program, file, feed).is_ok_and(|output| !agrees(&output, &peer::standing(file)))
    };
    let (small, shown) = library::shrink_book(file, TRY, &differs);
    let (found, end) = match run(program, &small, feed) {
        Ok(output) => (output.stdout, output.status.to_string()),
        Err(error) => (Vec::new(), error.to_string()),
    };
    let texts = show::texts(&peer::standing(&small), &found);
    format!("{shown}{texts}  {} bytes, {feed:?}, {end}", small.len())
}

#[cfg(test)]
mod tests {
    use super::*;
    use std::os::unix::process::ExitStatusExt;
    use std::process::ExitStatus;

    #[test]
    fn the_text_counts_only_with_status_0() {
        let output = |status| Output {
            status: ExitStatus::from_raw(status),
            stdout: b"text".to_vec(),
            stderr: Vec::new(),
        };
        assert!(agrees(&output(0), b"text"));
        assert!(!agrees(&output(0), b"other"));
        // Exit status 1, and a signal.
        assert!(!agrees(&output(256), b"text"));
        assert!(!agrees(&output(9), b"text"));
    }

    #[test]
    fn a_program_that_prints_something_else_or_is_not_there_is_seen() {
        for feed in [Feed::Whole, Feed::Pieces(3)] {
            // It prints the book itself.
            let told = compare(Path::new("cat"), &[0; 8], feed).unwrap();
            assert!(told.contains("account owed held open service refused"));
            let told = compare(Path::new("no-such-program"), &[0; 8], feed).unwrap();
            assert!(told.starts_with("  no-such-program does not run: "));
        }
    }
}
