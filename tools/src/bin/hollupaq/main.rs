//! The support desk's command, `hollupaq COMMAND ..`. It ends with 0, with 1 where something failed, and with 2 where it was
//! called wrongly.
mod arguments;
mod bill;
mod command;
mod files;
mod help;
mod pack;
mod reading;
mod standard;
mod standing;
mod unpack;
mod why;

use command::{Command, Wrong};
use std::env;
use std::ffi::OsString;
use std::process::ExitCode;
use tools::shown::shown;

/// Every command: one entry here, and a file of its own beside this one.
const COMMANDS: [Command; 6] = [
    why::COMMAND,
    bill::COMMAND,
    reading::COMMAND,
    pack::COMMAND,
    unpack::COMMAND,
    standing::COMMAND,
];

fn main() -> ExitCode {
    let words: Vec<OsString> = env::args_os().skip(1).collect();
    let Some((first, rest)) = words.split_first() else {
        standard::complain(&help::of_all());
        return ExitCode::from(2);
    };
    match COMMANDS.iter().find(|command| first == command.name) {
        Some(command) => {
            let name = format!("hollupaq {}", command.name);
            command::end(&name, &command.usage(), command.call(rest))
        }
        None => command::end("hollupaq", help::USAGE, without(first, rest)),
    }
}

/// A call that names no command of the table.
fn without(first: &OsString, rest: &[OsString]) -> Result<(), Wrong> {
    let first = first.to_string_lossy();
    let text = match (&first[..], rest) {
        ("--help" | "-h" | "help", []) => help::of_all(),
        ("help", [name]) => help::of(&name.to_string_lossy())?,
        ("--version" | "-V", []) => help::version(),
        ("--help" | "-h" | "help" | "--version" | "-V", [.., last]) => {
            let last = shown(&last.to_string_lossy());
            return Err(Wrong::Call(format!("`{last}` is one word too many")));
        }
        (option, _) if option.starts_with('-') => {
            let option = shown(option);
            return Err(Wrong::Call(format!("`{option}` is not known")));
        }
        (name, _) => return Err(help::no_command(name)),
    };
    Ok(standard::print(text.as_bytes())?)
}
