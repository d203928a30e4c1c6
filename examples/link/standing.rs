// Prints the standing of a book file, through the static library. From the top of the repository, once the library is
// built:
//
//   rustc --edition 2021 -O -L target/staticlib -o target/standing-rust examples/link/standing.rs
//   target/standing-rust examples/family-in-arrears.book
//
// The crate `tools` has the same call with a safe wrapper and tests (tools/src/core.rs).
use std::io::Write;
use std::process::ExitCode;
use std::{env, fs, io};

#[link(name = "hollupaq", kind = "static")]
extern "C" {
    fn hollupaq_report(book: *const u8, book_len: usize, out: *mut u8, out_len: usize) -> u64;
}

// Enough for the header and the lines of the 1,024 accounts that a book can have.
const ROOM: usize = 39 + 113 * 1_024;

fn report(book: &[u8]) -> Vec<u8> {
    let mut text = vec![0; ROOM];
    // SAFETY: both slices are valid for their lengths while the call lasts, and the core keeps neither.
    let written =
        unsafe { hollupaq_report(book.as_ptr(), book.len(), text.as_mut_ptr(), text.len()) };
    text.truncate(written as usize);
    text
}

fn main() -> ExitCode {
    let Some(name) = env::args().nth(1) else {
        eprintln!("standing-rust BOOK");
        return ExitCode::from(2);
    };
    let printed = fs::read(&name).and_then(|book| io::stdout().write_all(&report(&book)));
    match printed {
        Ok(()) => ExitCode::SUCCESS,
        Err(e) => {
            eprintln!("{name}: {e}");
            ExitCode::FAILURE
        }
    }
}
