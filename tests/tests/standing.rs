//! The program where it can't read or write: it says so on standard error, and by its exit status.
use std::fs::{File, OpenOptions};
use std::path::{Path, PathBuf};
use std::process::{Command, Output, Stdio};

fn root() -> PathBuf {
    Path::new(env!("CARGO_MANIFEST_DIR")).join("..")
}

/// What the program does with a file of the repository for standard input, and this for standard output.
fn run(input: &str, output: Stdio) -> Output {
    let run = Command::new(root().join("crates/standing/out/standing"))
        .stdin(File::open(root().join(input)).unwrap())
        .stdout(output)
        .stderr(Stdio::piped())
        .output();
    run.expect("the program is built by `rt run` in crates/standing")
}

/// What it says on standard error, and its status.
fn said(run: &Output) -> (&str, Option<i32>) {
    (std::str::from_utf8(&run.stderr).unwrap(), run.status.code())
}

#[test]
fn a_full_output_is_told() {
    let full = OpenOptions::new().write(true).open("/dev/full").unwrap();
    assert_eq!(
        said(&run("examples/sample.book", full.into())),
        ("standing: can't write all to standard output\n", Some(1))
    );
}

#[test]
fn nothing_is_said_where_all_is_written() {
    assert_eq!(
        said(&run("examples/sample.book", Stdio::null())),
        ("", Some(0))
    );
}

/// A folder opens as a file and can't be read: nothing came, which is no book.
#[test]
fn an_input_that_cannot_be_read_is_told_after_the_text() {
    let run = run("examples", Stdio::piped());
    assert_eq!(run.stdout, b"book refused 20\n");
    assert_eq!(
        said(&run),
        ("standing: can't read all of standard input\n", Some(1))
    );
}
