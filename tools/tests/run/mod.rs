//! Runs the command as a user would, for the tests of it.
#![allow(dead_code)] // Not every test that shares this file uses all of it.
use std::fs;
use std::io::Write;
use std::path::{Path, PathBuf};
use std::process::{Command, Output, Stdio};

pub const PROGRAM: &str = env!("CARGO_BIN_EXE_hollupaq");

/// The text of the sample book, as it is unpacked.
pub const TEXT: &[u8] =
    b"account # 0\n  100 bill 10000\n  130 bill 5000\n  131 payment 4000\n  131 cut\n";

/// Calls the command with its words in one string, between which there are blanks.
pub fn run(words: &str, input: &[u8]) -> Output {
    let words: Vec<&str> = words.split_whitespace().collect();
    run_words(&words, input)
}

pub fn run_words(words: &[&str], input: &[u8]) -> Output {
    finish(Command::new(PROGRAM).args(words), input)
}

/// Calls it with its standard output somewhere else.
pub fn run_into(stdout: impl Into<Stdio>, words: &str, input: &[u8]) -> Output {
    let mut command = Command::new(PROGRAM);
    feed(command.args(words.split_whitespace()).stdout(stdout), input)
}

/// Runs a line of the shell, in which `hollupaq` is the command.
pub fn shell(line: &str, folder: &Path, input: &[u8]) -> Output {
    let line = format!("hollupaq() {{ \"{PROGRAM}\" \"$@\"; }}\n{line}");
    finish(
        Command::new("sh").args(["-c", &line]).current_dir(folder),
        input,
    )
}

fn finish(command: &mut Command, input: &[u8]) -> Output {
    feed(command.stdout(Stdio::piped()), input)
}

fn feed(command: &mut Command, input: &[u8]) -> Output {
    let mut child = command
        .stdin(Stdio::piped())
        .stderr(Stdio::piped())
        .spawn()
        .unwrap();
    // A program that stops before it reads everything closes the pipe.
    let _ = child.stdin.take().unwrap().write_all(input);
    child.wait_with_output().unwrap()
}

/// What a call prints that ends well and says nothing on standard error.
pub fn printed(output: Output) -> String {
    let told = String::from_utf8(output.stderr).unwrap();
    assert_eq!(told, "");
    assert_eq!(output.status.code(), Some(0));
    String::from_utf8(output.stdout).unwrap()
}

/// The words on standard error of a call that ends with the status, and prints nothing.
pub fn complaint(output: &Output, status: i32) -> String {
    let told = String::from_utf8(output.stderr.clone()).unwrap();
    assert_eq!(output.status.code(), Some(status), "{told}");
    assert_eq!(output.stdout, b"", "{told}");
    told
}

/// The book of a text.
pub fn pack(text: &[u8]) -> Vec<u8> {
    let packed = run("pack -", text);
    assert_eq!(String::from_utf8(packed.stderr).unwrap(), "");
    assert!(packed.status.success());
    packed.stdout
}

/// An empty folder for one test.
pub fn folder(name: &str) -> PathBuf {
    let path = Path::new(env!("CARGO_TARGET_TMPDIR")).join(name);
    let _ = fs::remove_dir_all(&path);
    fs::create_dir_all(&path).unwrap();
    path
}

/// The names in a folder, in order.
pub fn names(folder: &Path) -> Vec<String> {
    let entries = fs::read_dir(folder).unwrap();
    let mut names: Vec<String> = entries
        .map(|entry| entry.unwrap().file_name().into_string().unwrap())
        .collect();
    names.sort();
    names
}
