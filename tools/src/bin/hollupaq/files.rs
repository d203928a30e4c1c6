//! Files named on the command line, where `-` is standard input or output.
use crate::arguments::Given;
use crate::standard;
use std::ffi::OsStr;
use std::fs::{self, File, Metadata};
use std::io::{self, Read, Write};
use std::path::{Path, PathBuf};
use std::process;
use tools::shown::shown;

/// All bytes of a file, or words that say which file can't be read.
pub fn read(name: &OsStr) -> Result<Vec<u8>, String> {
    if name == "-" {
        return standard::read();
    }
    let mut bytes = Vec::new();
    match File::open(name).and_then(|mut file| file.read_to_end(&mut bytes)) {
        Ok(_) => Ok(bytes),
        Err(e) => Err(format!("can't read {}: {}", told(name), reason(&e))),
    }
}

/// Makes the second file of the first, by `turn`.
pub fn make(given: &Given, turn: fn(&[u8]) -> Result<Vec<u8>, String>) -> Result<(), String> {
    let (from, to) = (given.file(0), given.file(1));
    let output = turn(&read(from)?)?;
    if to == "-" {
        return standard::print(&output);
    }
    let written = match is_same(from, to) {
        true => Err(io::Error::other("it is the file that is read")),
        false => write(Path::new(to), &output),
    };
    written.map_err(|e| format!("can't write {}: {}", told(to), reason(&e)))
}

/// Whether two names are of one file that is there.
fn is_same(one: &OsStr, other: &OsStr) -> bool {
    match (fs::canonicalize(one), fs::canonicalize(other)) {
        (Ok(one), Ok(other)) => one == other && one.is_file(),
        _ => false,
    }
}

/// Writes a file whole, or leaves the one that was there as it was.
fn write(path: &Path, bytes: &[u8]) -> io::Result<()> {
    match fs::metadata(path) {
        Ok(old) if old.is_dir() => Err(io::Error::other("Is a directory")),
        // A device or a pipe is written to: another file must not take its place.
        Ok(old) if !old.is_file() => {
            let mut file = File::options().write(true).open(path)?;
            file.write_all(bytes)
        }
        // Another file would take its place, whether it may be written to or not.
        Ok(old) if old.permissions().readonly() => Err(io::Error::other("it is read-only")),
        // Where the name is a link, the file that it leads to is replaced and not the link.
        Ok(old) => replace(&fs::canonicalize(path)?, Some(&old), bytes),
        Err(e) if e.kind() == io::ErrorKind::NotFound => replace(path, None, bytes),
        Err(e) => Err(e),
    }
}

/// The bytes go to a new file in the same folder, and only once they are on the disk does it take the name: whatever happens
/// before that, the old file is there, and whole.
fn replace(path: &Path, old: Option<&Metadata>, bytes: &[u8]) -> io::Result<()> {
    let folder = match path.parent() {
        Some(folder) if folder != Path::new("") => folder,
        _ => Path::new("."),
    };
    let (beside, file) = new_file(folder)?;
    let done = fill(file, old, bytes).and_then(|()| fs::rename(&beside, path));
    match done {
        // The new name goes to the disk too. Not every kind of disk can be asked for that, and the book is written.
        Ok(()) => drop(File::open(folder).and_then(|folder| folder.sync_all())),
        Err(_) => drop(fs::remove_file(&beside)),
    }
    done
}

/// A file that was not there before.
fn new_file(folder: &Path) -> io::Result<(PathBuf, File)> {
    let mut turn = 0;
    loop {
        let name = format!(".hollupaq-{}-{turn}", process::id());
        let path = folder.join(name);
        match File::create_new(&path) {
            Ok(file) => return Ok((path, file)),
            Err(e) if e.kind() == io::ErrorKind::AlreadyExists && turn < 100 => turn += 1,
            Err(e) => return Err(e),
        }
    }
}

fn fill(mut file: File, old: Option<&Metadata>, bytes: &[u8]) -> io::Result<()> {
    if let Some(old) = old {
        keep_owner(&file, old);
        file.set_permissions(old.permissions())?;
    }
    file.write_all(bytes)?;
    file.sync_all()
}

/// Only some users may give a file to another one: where this one may not, the file is its own.
#[cfg(unix)]
fn keep_owner(file: &File, old: &Metadata) {
    use std::os::unix::fs::{fchown, MetadataExt};
    let _ = fchown(file, Some(old.uid()), Some(old.gid()));
}

#[cfg(not(unix))]
fn keep_owner(_: &File, _: &Metadata) {}

/// A name as messages show it. An empty one is seen by its quotes.
pub fn told(name: &OsStr) -> String {
    match name.is_empty() {
        true => "''".to_string(),
        false => shown(&name.to_string_lossy()),
    }
}

/// Why something failed, without the number that the system has for it.
pub fn reason(e: &io::Error) -> String {
    let words = e.to_string();
    let end = words.find(" (os error").unwrap_or(words.len());
    words[..end].to_string()
}
