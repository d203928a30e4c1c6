//! Tells the largest usage that a sum pays for.
use crate::arguments::Given;
use crate::command::{Command, Wrong};
use crate::standard;
use tools::reading;

pub const COMMAND: Command = Command {
    name: "reading",
    takes: &["CLASS", "CENTS"],
    choices: &[],
    about: "tells the largest usage that a sum pays for",
    more: "\
CLASS is 1 (residential), 2 (single phase) or 3 (three phase), and CENTS the sum that
a customer names: 10000 for 100.00 dollars. Told are the most kilowatt-hours, up to
10000000, whose bill is at most that sum, with their bill and that of one more. A sum
of the basic charge pays for 0 kilowatt-hours, a smaller one for nothing. The other way
round, hollupaq bill works out the bill of a usage.",
    run,
};

fn run(given: &Given) -> Result<(), Wrong> {
    let class = given.class(0);
    let sum = given.number(
        1,
        "CENTS is a whole number of cents (10000 is 100.00 dollars)",
    );
    let (class, sum) = (class.map_err(Wrong::Call)?, sum.map_err(Wrong::Call)?);
    Ok(standard::print(reading::tell(class, sum).as_bytes())?)
}
