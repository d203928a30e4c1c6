//! What a command is, and how a call of one ends.
use crate::arguments::{self, Choice, Given};
use crate::{help, standard};
use std::ffi::OsString;
use std::process::ExitCode;

pub struct Command {
    pub name: &'static str,
    /// What it takes, in order; one that may be left out stands in brackets.
    pub takes: &'static [&'static str],
    /// The options in groups; of each at most one is given in a call.
    pub choices: &'static [&'static [Choice]],
    /// What it does, in a line of the list of all commands.
    pub about: &'static str,
    /// What else its own help tells.
    pub more: &'static str,
    pub run: fn(&Given) -> Result<(), Wrong>,
}

/// Why a call did not do what it was asked.
pub enum Wrong {
    /// It was called wrongly: the reason comes with the usage.
    Call(String),
    /// Something failed.
    Work(String),
}

impl From<String> for Wrong {
    fn from(words: String) -> Wrong {
        Wrong::Work(words)
    }
}

impl Command {
    pub fn call(&self, words: &[OsString]) -> Result<(), Wrong> {
        if arguments::ask_for_help(words) {
            return Ok(standard::print(help::of_command(self).as_bytes())?);
        }
        let given = arguments::read(self, words).map_err(Wrong::Call)?;
        (self.run)(&given)
    }

    /// How it is called, in one line.
    pub fn usage(&self) -> String {
        let mut line = format!("hollupaq {}", self.name);
        for name in self.takes {
            line += &format!(" {name}");
        }
        for group in self.choices {
            let choices: Vec<String> = group.iter().map(Choice::written).collect();
            line += &format!(" [{}]", choices.join(" | "));
        }
        line
    }
}

/// Ends the program: silently where all went well, else with the reason on standard error.
pub fn end(name: &str, usage: &str, done: Result<(), Wrong>) -> ExitCode {
    match done {
        Ok(()) => ExitCode::SUCCESS,
        Err(Wrong::Work(words)) => {
            standard::complain(&format!("{name}: {words}\n"));
            ExitCode::FAILURE
        }
        Err(Wrong::Call(words)) => {
            standard::complain(&format!("{name}: {words}\nusage: {usage}\n"));
            ExitCode::from(2)
        }
    }
}
