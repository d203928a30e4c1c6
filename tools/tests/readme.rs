//! The calls of the command that README.md and examples/README.md show, run as they are written: they end well, and print what is
//! shown under them.
mod run;

use run::{folder, printed, shell};
use std::fs;
use std::path::{Path, PathBuf};

const CARGO: &str = "cargo run -q --bin hollupaq -- ";

/// A call as it is written, and what is shown under it; nothing where no `$` stands before it.
struct Shown {
    call: String,
    output: Option<String>,
}

fn root() -> PathBuf {
    Path::new(env!("CARGO_MANIFEST_DIR")).join("..")
}

/// The calls of a file. What is shown ends before the next call, or with the block: the blank lines at its end are not part of it.
fn shown(file: &str) -> Vec<Shown> {
    let text = fs::read_to_string(root().join(file)).unwrap();
    let mut all = Vec::new();
    let mut lines = text.lines().peekable();
    while let Some(line) = lines.next() {
        let line = line.trim_start();
        let (line, prompted) = match line.strip_prefix("$ ") {
            Some(line) => (line, true),
            None => (line, false),
        };
        if !line.starts_with(CARGO) {
            continue;
        }
        let mut output = String::new();
        let goes_on = |line: &&str| {
            line.is_empty() || line.starts_with("    ") && !line.starts_with("    $ ")
        };
        while let Some(line) = lines.next_if(|line| prompted && goes_on(line)) {
            output += line.strip_prefix("    ").unwrap_or(line);
            output += "\n";
        }
        let output = prompted.then(|| output.trim_end().to_string());
        let call = line.to_string();
        all.push(Shown { call, output });
    }
    all
}

/// A folder in which the calls find what they find at the top of the repository.
fn place(name: &str) -> PathBuf {
    let place = folder(name);
    fs::create_dir(place.join("target")).unwrap();
    fs::create_dir(place.join("examples")).unwrap();
    for entry in fs::read_dir(root().join("examples")).unwrap() {
        let path = entry.unwrap().path();
        if path.is_file() {
            fs::copy(
                &path,
                place.join("examples").join(path.file_name().unwrap()),
            )
            .unwrap();
        }
    }
    place
}

/// Runs all calls of a file in their order, and says how many there are.
fn holds(file: &str, name: &str) -> usize {
    let place = place(name);
    let all = shown(file);
    for Shown { call, output } in &all {
        let line = call.replace(CARGO, "hollupaq ");
        let told = printed(shell(&line, &place, b""));
        if let Some(output) = output {
            assert_eq!(told.trim_end(), output, "{call}");
        }
    }
    all.len()
}

#[test]
fn readme_shows_what_is_printed() {
    assert_eq!(holds("README.md", "readme"), 10);
    let calls = shown("README.md");
    assert!(calls.iter().all(|shown| shown.output.is_some()));
}

#[test]
fn the_examples_calls_run() {
    assert_eq!(holds("examples/README.md", "readme-examples"), 3);
}
