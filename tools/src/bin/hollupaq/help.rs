//! The help, made of the table of commands, and the version.
use crate::command::{Command, Wrong};
use crate::COMMANDS;
use tools::core;
use tools::shown::shown;
use tools::table::{table, Row, Side};

pub const USAGE: &str = "hollupaq COMMAND ..   (`hollupaq help` lists the commands)";

/// The version of the library that answers: 10000 is 1.0.0.
pub fn version() -> String {
    let version = core::version();
    let (major, minor, patch) = (version / 10_000, version / 100 % 100, version % 100);
    format!("hollupaq {major}.{minor}.{patch}\n")
}

/// All commands, a line for each.
pub fn of_all() -> String {
    let row = |name: &str, about: &str| two(format!("  {name}"), about);
    let mut rows: Vec<Row> = COMMANDS.iter().map(|c| row(c.name, c.about)).collect();
    rows.push(row("help", "tells what a command does"));
    let list = table(&[Side::Left, Side::Left], &rows);
    format!(
        "Accounts of a book, bills of readings and what a sum pays for, as the proved core answers.\n\n\
        usage: hollupaq COMMAND ..\n\n{list}\n\
        hollupaq COMMAND --help tells more of one, hollupaq --version the version.\n\
        A file that is named - is standard input or output.\n"
    )
}

/// What `hollupaq help NAME` shows.
pub fn of(name: &str) -> Result<String, Wrong> {
    if ["help", "--help", "-h"].contains(&name) {
        return Ok(of_all());
    }
    let command = COMMANDS.iter().find(|command| command.name == name);
    command.map(of_command).ok_or_else(|| no_command(name))
}

pub fn no_command(name: &str) -> Wrong {
    Wrong::Call(format!("there is no command `{}`", shown(name)))
}

pub fn of_command(command: &Command) -> String {
    let mut text = format!(
        "hollupaq {} {}.\n\nusage: {}\n",
        command.name,
        command.about,
        command.usage()
    );
    let rows = command
        .choices
        .iter()
        .copied()
        .flatten()
        .map(|choice| two(format!("  {}", choice.written()), choice.about));
    let rows: Vec<Row> = rows.collect();
    if !rows.is_empty() {
        text += &format!("\n{}", table(&[Side::Left, Side::Left], &rows));
    }
    format!("{text}\n{}\n", command.more)
}

fn two(left: String, right: &str) -> Row {
    Row::of(vec![left, right.to_string()])
}
