//! Prints where each account of a book stands, in the core's own text.
use crate::arguments::Given;
use crate::command::{Command, Wrong};
use crate::{files, standard};
use tools::core::{self, books};
use tools::words;

pub const COMMAND: Command = Command {
    name: "standing",
    takes: &["BOOK"],
    choices: &[],
    about: "prints where each account of a book stands",
    more: "\
A line for each account: its number, what is owed in cents (below 0 a credit), the
deposit held, how many charges are open, service, and how many events were refused.",
    run,
};

fn run(given: &Given) -> Result<(), Wrong> {
    let book = files::read(given.file(0))?;
    standard::print(&core::report(&book))?;
    // The text of a refused book has its number; what that means, and the status, are ours to add.
    books::accounts(&book).map_err(words::book_refused)?;
    Ok(())
}
