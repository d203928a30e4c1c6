//! Makes the book of a readable text.
use crate::command::Command;
use crate::files;
use tools::core::books;
use tools::{text, words};

pub const COMMAND: Command = Command {
    name: "pack",
    takes: &["TEXT", "[BOOK]"],
    choices: &[],
    about: "makes the book of a readable text",
    more: "\
A text has a line `account` for each account, and under it a line for each event:
its day, as a number or a date, its name, and the number that it speaks of; sums
are in cents. The till of a payment, or of a returned one, follows as till=3 where it
is not till 0. What follows # is a remark.

  account # the Millers
    100        bill 10000
    131        payment 4000 till=3
    2000-05-11 disconnection

Without BOOK it goes to standard output. A BOOK that is there is replaced once the
new one is written whole, and left as it was where that fails.",
    run: |given| Ok(files::make(given, pack)?),
};

fn pack(input: &[u8]) -> Result<Vec<u8>, String> {
    let input = String::from_utf8_lossy(input);
    let list = text::read(&input).map_err(|mistake| mistake.to_string())?;
    books::write(&list).map_err(words::list_refused)
}
