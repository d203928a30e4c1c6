//! Standard output and error that are full, closed, or not read to their end: nothing is lost without a word, and nothing panics.
#![cfg(target_os = "linux")]
mod run;

use run::{complaint, pack, run_into, shell, TEXT};
use std::fs::File;
use std::io::pipe;
use std::path::Path;

/// Calls that print something, with what they read.
fn calls() -> Vec<(&'static str, Vec<u8>)> {
    let book = || pack(TEXT);
    vec![
        ("pack -", TEXT.to_vec()),
        ("unpack -", book()),
        ("why -", book()),
        ("why - --csv", book()),
        ("why - --on 131", book()),
        ("standing -", book()),
        ("--help", vec![]),
        ("why --help", vec![]),
        ("--version", vec![]),
    ]
}

/// The name with which a call's complaints begin.
fn caller(words: &str) -> String {
    match words.split(' ').next().unwrap() {
        option if option.starts_with('-') => "hollupaq".to_string(),
        command => format!("hollupaq {command}"),
    }
}

#[test]
fn a_full_output_is_told() {
    for (words, input) in calls() {
        let full = File::options().write(true).open("/dev/full").unwrap();
        let told = complaint(&run_into(full, words, &input), 1);
        let name = caller(words);
        assert_eq!(
            told,
            format!("{name}: can't write standard output: No space left on device\n"),
        );
    }
}

#[test]
fn a_closed_output_is_told() {
    for (words, input) in calls() {
        let line = format!("hollupaq {words} >&-");
        let told = complaint(&shell(&line, Path::new("."), &input), 1);
        let name = caller(words);
        assert_eq!(
            told,
            format!("{name}: can't write standard output: it is closed\n"),
        );
    }
}

#[test]
fn a_reader_that_stopped_is_no_error() {
    for (words, input) in calls() {
        let (reader, writer) = pipe().unwrap();
        drop(reader);
        let output = run_into(writer, words, &input);
        assert_eq!(String::from_utf8(output.stderr).unwrap(), "", "{words}");
        assert_eq!(output.status.code(), Some(0), "{words}");
    }
}

/// More than a pipe holds, of which only the first line is read.
#[test]
fn the_first_line_can_be_taken() {
    let text = format!("account\n{}", "5 call\n".repeat(10_000));
    let line = "{ hollupaq why -; echo $? >&2; } | head -n 1";
    let output = shell(line, Path::new("."), &pack(text.as_bytes()));
    assert_eq!(output.stdout, b"Account 0 of 1. Sums are in dollars.\n");
    assert_eq!(output.stderr, b"0\n");
}

#[test]
fn nobody_has_to_hear_a_complaint() {
    for closed in ["2>/dev/full", "2>&-"] {
        for (words, status) in [("why no-such-file", 1), ("why", 2), ("", 2)] {
            let line = format!("hollupaq {words} {closed}");
            let output = shell(&line, Path::new("."), b"");
            assert_eq!(output.status.code(), Some(status), "{line}");
            assert_eq!(output.stdout, b"", "{line}");
        }
    }
}
