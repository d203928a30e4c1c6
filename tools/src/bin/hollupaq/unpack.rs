//! Makes the readable text of a book.
use crate::command::Command;
use crate::files;
use tools::core::books;
use tools::{text, words};

pub const COMMAND: Command = Command {
    name: "unpack",
    takes: &["BOOK", "[TEXT]"],
    choices: &[],
    about: "makes the readable text of a book",
    more: "\
`hollupaq pack` makes the same book of it again, byte for byte. Sums are in cents.

Without TEXT it goes to standard output. A TEXT that is there is replaced once the
new one is written whole, and left as it was where that fails.",
    run: |given| Ok(files::make(given, unpack)?),
};

fn unpack(input: &[u8]) -> Result<Vec<u8>, String> {
    let list = books::read(input).map_err(words::book_refused)?;
    text::write(&list).map(String::into_bytes)
}
