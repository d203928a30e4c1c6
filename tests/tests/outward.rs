//! What is offered outward stands in one list (docs/ARCHITECTURE.md, "Offered outward"). Here the sources are held against it: each
//! function of the list is public and asks nothing, no other is public unless a crate above calls it, and the header
//! declares what the library exports. What it declares is what the comparison on the box's processor calls.
use std::collections::BTreeSet;
use std::fs;
use std::path::{Path, PathBuf};

/// A public function of a crate.
struct Function {
    home: String,
    name: String,
    /// Its signature and contract, up to the body.
    head: String,
}

fn root() -> PathBuf {
    Path::new(env!("CARGO_MANIFEST_DIR")).join("..")
}

fn read(path: impl AsRef<Path>) -> String {
    let path = path.as_ref();
    fs::read_to_string(path).unwrap_or_else(|e| panic!("{}: {e}", path.display()))
}

/// The files of a crate's code by the names of their modules, without comments.
fn modules(home: &str) -> Vec<(String, String)> {
    let folder = root().join("crates").join(home).join("src");
    let files = fs::read_dir(&folder).unwrap_or_else(|e| panic!("{}: {e}", folder.display()));
    files
        .map(|file| {
            let path = file.unwrap().path();
            let module = path.file_stem().unwrap().to_str().unwrap().to_string();
            let lines: Vec<String> = read(&path)
                .lines()
                .filter(|line| !line.trim_start().starts_with("//"))
                .map(String::from)
                .collect();
            (module, lines.join("\n"))
        })
        .collect()
}

fn crates() -> Vec<String> {
    let list = read(root().join("crates.txt"));
    list.lines()
        .filter(|line| !line.starts_with('#'))
        // A word behind the name says what kind of library it is.
        .filter_map(|line| Some(line.split_once(':')?.0.split(' ').next()?.to_string()))
        .collect()
}

/// Whether `name` stands in the text as a word of its own.
fn names(text: &str, name: &str) -> bool {
    let inside = |c: char| c.is_alphanumeric() || c == '_';
    text.match_indices(name).any(|(at, _)| {
        !text[..at].ends_with(inside) && !text[at + name.len()..].starts_with(inside)
    })
}

/// Whether `lib.rt` hands on what a module names so: `pub use module::name;`, or with others in braces.
fn hands_on(lib: &str, module: &str, name: &str) -> bool {
    let start = format!("pub use {module}::");
    lib.split(&start).skip(1).any(|rest| {
        let list = rest.split(';').next().unwrap_or("");
        names(list, name)
    })
}

/// The functions that other crates can name: those of `lib.rt`, of a public module, and those that `lib.rt` hands on.
fn public(home: &str) -> Vec<Function> {
    let modules = modules(home);
    let lib = modules
        .iter()
        .find(|(module, _)| module == "lib" || module == "main")
        .map_or("", |(_, text)| text);
    let mut found = Vec::new();
    for (module, text) in &modules {
        for (at, _) in text.match_indices("pub ") {
            let body = ["\n{", "\n    {"].map(|start| text[at..].find(start));
            let Some(end) = body.into_iter().flatten().min() else {
                continue;
            };
            let head = &text[at..at + end];
            let Some(name) = head
                .strip_prefix("pub fn ")
                .or_else(|| head.strip_prefix("pub extern \"C\" fn "))
                .and_then(|rest| rest.split(['(', '<']).next())
            else {
                continue;
            };
            let seen = text == lib
                || lib.contains(&format!("pub mod {module};"))
                || hands_on(lib, module, name)
                || head.starts_with("pub extern");
            if seen {
                found.push(Function {
                    home: home.to_string(),
                    name: name.to_string(),
                    head: head.to_string(),
                });
            }
        }
    }
    found
}

/// The functions that the list names, as `crate::name`; those of the library by their names alone.
fn listed() -> BTreeSet<String> {
    let text = read(root().join("docs/ARCHITECTURE.md"));
    let section = text.split("## Offered outward").nth(1).expect("the list");
    let section = section.split("\n## ").next().unwrap();
    section
        .lines()
        .filter(|line| line.starts_with("| `"))
        .flat_map(|line| {
            line.split('|')
                .nth(1)
                .unwrap()
                .split('`')
                .skip(1)
                .step_by(2)
        })
        .map(String::from)
        .collect()
}

fn all() -> Vec<Function> {
    crates().iter().flat_map(|home| public(home)).collect()
}

fn full_name(f: &Function) -> String {
    if f.home == "hollupaq" {
        return f.name.clone();
    }
    format!("{}::{}", f.home, f.name)
}

/// The functions of the library that a header declares.
fn declared(header: &str) -> impl Iterator<Item = &str> {
    let lines = header.lines();
    lines
        .filter(|line| line.starts_with("uint") || line.starts_with("int"))
        .filter_map(|line| line.split('(').next()?.rsplit(' ').next())
}

#[test]
fn what_is_offered_is_public_and_asks_nothing() {
    let functions = all();
    let listed = listed();
    assert!(listed.len() > 30, "the list was not read: {listed:?}");
    for name in &listed {
        let f = functions.iter().find(|f| full_name(f) == *name);
        let f = f.unwrap_or_else(|| panic!("{name} is offered outward and is no public function"));
        assert!(!f.head.contains("requires"), "{name} asks for something");
    }
}

#[test]
fn what_is_not_offered_is_public_for_a_crate_above() {
    let listed = listed();
    for f in all() {
        let called = crates()
            .iter()
            .filter(|home| **home != f.home)
            .flat_map(|home| modules(home))
            .any(|(_, text)| names(&text, &f.name));
        let name = full_name(&f);
        assert!(
            called || listed.contains(&name),
            "{name} is public and no other crate calls it"
        );
    }
}

#[test]
fn the_header_declares_what_the_library_exports() {
    let header = read(root().join("include/hollupaq.h"));
    let exported: Vec<String> = public("hollupaq").into_iter().map(|f| f.name).collect();
    assert!(
        exported.len() > 20,
        "the exports were not read: {exported:?}"
    );
    for name in &exported {
        assert!(
            header.contains(&format!(" {name}(")),
            "the header has no {name}"
        );
    }
    for name in declared(&header) {
        assert!(
            exported.iter().any(|e| e == name),
            "the library has no {name}"
        );
    }
}

#[test]
fn every_function_of_the_header_is_called_on_the_box() {
    let header = read(root().join("include/hollupaq.h"));
    let calls = read(root().join("tests/box/calls.h"));
    let mut names: Vec<&str> = calls
        .lines()
        .filter_map(|line| line.trim_start().strip_prefix("CALL("))
        .filter_map(|line| line.split(", ").nth(2))
        .collect();
    let mut declared: Vec<&str> = declared(&header).collect();
    names.sort();
    declared.sort();
    assert!(declared.len() > 20, "the header was not read: {declared:?}");
    assert_eq!(names, declared);
}
