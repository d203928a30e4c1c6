//! Works out the bill of a reading.
use crate::arguments::Given;
use crate::command::{Command, Wrong};
use crate::standard;
use tools::bill;

pub const COMMAND: Command = Command {
    name: "bill",
    takes: &["CLASS", "USAGE"],
    choices: &[],
    about: "works out the bill of a class and its kilowatt-hours",
    more: "\
CLASS is 1 (residential), 2 (single phase) or 3 (three phase), and USAGE a number of
kilowatt-hours, up to 10000000. The basic charge and a line for each block of the
schedule that the usage reaches stand above the bill, which is rounded once, half a
cent up. The amount is not posted: it goes into the text of a book (see
hollupaq pack --help), or is tried (hollupaq why BOOK --try 'DAY bill CENTS'). The other
way round, hollupaq reading tells the usage that a sum pays for.",
    run,
};

fn run(given: &Given) -> Result<(), Wrong> {
    let class = given.class(0);
    let usage = given.number(1, "USAGE is a number of kilowatt-hours");
    let (class, usage) = (class.map_err(Wrong::Call)?, usage.map_err(Wrong::Call)?);
    Ok(standard::print(bill::tell(class, usage).as_bytes())?)
}
