//! The words after a command's name: what it takes in order, and options that begin with `--`. A lone `-` is standard input or
//! output and no option, and after `--` nothing is.
use crate::command::Command;
use std::ffi::{OsStr, OsString};
use std::str::FromStr;
use tools::shown::shown;

/// An option of a command.
pub struct Choice {
    pub name: &'static str,
    /// What follows it; empty where nothing does.
    pub value: &'static str,
    pub about: &'static str,
}

impl Choice {
    pub fn written(&self) -> String {
        format!("{} {}", self.name, self.value).trim_end().into()
    }
}

/// What a call gives to a command.
#[derive(Debug, Default, PartialEq, Eq)]
pub struct Given {
    names: Vec<OsString>,
    /// The options with their values, empty where they have none.
    chosen: Vec<(&'static str, OsString)>,
}

impl Given {
    /// The argument at a place, counted from 0.
    pub fn name(&self, at: usize) -> Option<&OsStr> {
        self.names.get(at).map(OsString::as_os_str)
    }

    /// The number at a place; `wanted` says which one should stand there.
    pub fn number<T: FromStr>(&self, at: usize, wanted: &str) -> Result<T, String> {
        let word = self.name(at).unwrap_or_default().to_string_lossy();
        word.parse().map_err(|_| {
            let word = shown(&word);
            format!("{wanted}, 0 or more, and not `{word}`")
        })
    }

    /// The number of a class at a place.
    pub fn class(&self, at: usize) -> Result<u64, String> {
        self.number(at, "CLASS is the number of a class")
    }

    /// What follows an option, where it is given.
    pub fn value(&self, option: &Choice) -> Option<&OsStr> {
        let mut chosen = self.chosen.iter();
        let (_, value) = chosen.find(|(name, _)| *name == option.name)?;
        Some(value)
    }

    /// A file, standard input or output where none is named.
    pub fn file(&self, at: usize) -> &OsStr {
        self.name(at).unwrap_or(OsStr::new("-"))
    }
}

/// Whether `--help` stands among the words, whatever else does.
pub fn ask_for_help(words: &[OsString]) -> bool {
    let mut options = words.iter().take_while(|&word| word != "--");
    options.any(|word| word == "--help" || word == "-h")
}

pub fn read(command: &Command, words: &[OsString]) -> Result<Given, String> {
    let mut given = Given::default();
    let mut words = words.iter();
    while let Some(word) = words.next() {
        if word == "--" {
            given.names.extend(words.by_ref().cloned());
        } else if word != "-" && word.to_string_lossy().starts_with('-') {
            let next = || words.next().cloned();
            choose(command, &word.to_string_lossy(), next, &mut given)?;
        } else {
            given.names.push(word.clone());
        }
    }
    count(command, &given.names)?;
    Ok(given)
}

/// An option with its value, which is the next word or follows `=`. A file's name that is no text can be the next word.
fn choose(
    command: &Command,
    word: &str,
    next: impl FnOnce() -> Option<OsString>,
    given: &mut Given,
) -> Result<(), String> {
    let (name, value) = match word.split_once('=') {
        Some((name, value)) => (name, Some(value.into())),
        None => (word, None),
    };
    let found = command.choices.iter().find_map(|group| {
        let choice = group.iter().find(|choice| choice.name == name)?;
        Some((group, choice))
    });
    let (group, choice) = found.ok_or_else(|| format!("`{}` is not known", shown(name)))?;
    let name = choice.name;
    let value = match (choice.value, value) {
        ("", None) => OsString::new(),
        ("", Some(_)) => return Err(format!("nothing follows {name}")),
        (what, value) => value
            .or_else(next)
            .ok_or_else(|| format!("{what} is missing after {name}"))?,
    };
    match group.iter().find(|choice| given.value(choice).is_some()) {
        Some(other) if other.name == name => Err(format!("{name} is given twice")),
        Some(other) => Err(format!("{} and {name} do not go together", other.name)),
        None => {
            given.chosen.push((name, value));
            Ok(())
        }
    }
}

fn count(command: &Command, names: &[OsString]) -> Result<(), String> {
    match command.takes.get(names.len()) {
        Some(missing) if !missing.starts_with('[') => return Err(format!("{missing} is missing")),
        _ => {}
    }
    match names.get(command.takes.len()) {
        Some(word) => {
            let word = shown(&word.to_string_lossy());
            Err(format!("`{word}` is one word too many"))
        }
        None => Ok(()),
    }
}

#[cfg(test)]
mod tests {
    use super::*;

    const fn an_option(name: &'static str, value: &'static str) -> Choice {
        Choice {
            name,
            value,
            about: "",
        }
    }

    const COMMAND: Command = Command {
        name: "name",
        takes: &["BOOK", "[N]"],
        choices: &[
            &[an_option("--on", "DAY"), an_option("--csv", "")],
            &[an_option("--calendar", "FILE")],
        ],
        about: "",
        more: "",
        run: |_| Ok(()),
    };

    fn given(words: &str) -> Result<Given, String> {
        let words: Vec<OsString> = words.split_whitespace().map(OsString::from).collect();
        read(&COMMAND, &words)
    }

    #[test]
    fn options_stand_anywhere() {
        for words in ["a 1 --on 5", "--on 5 a 1", "a --on=5 1", "--on=5 -- a 1"] {
            let given = given(words).unwrap();
            assert_eq!(given.names, ["a", "1"], "{words}");
            assert_eq!(given.chosen, [("--on", "5".into())], "{words}");
        }
        assert_eq!(given("- --csv").unwrap().names, ["-"]);
        assert_eq!(given("-- --csv").unwrap().names, ["--csv"]);
        assert_eq!(given("--on -5 a").unwrap().chosen, [("--on", "-5".into())]);
    }

    #[test]
    fn one_option_of_each_group_is_given() {
        let [csv, calendar] = [an_option("--csv", ""), an_option("--calendar", "FILE")];
        for words in ["a --csv --calendar b", "--calendar=b a --csv"] {
            let given = given(words).unwrap();
            assert_eq!(given.value(&csv), Some(OsStr::new("")), "{words}");
            assert_eq!(given.value(&calendar), Some(OsStr::new("b")), "{words}");
        }
        assert_eq!(given("a --calendar b").unwrap().value(&csv), None);
    }

    #[test]
    fn what_is_wrong_is_said() {
        let wrong = [
            ("", "BOOK is missing"),
            ("a 1 b", "`b` is one word too many"),
            ("a --of 5", "`--of` is not known"),
            ("a -x", "`-x` is not known"),
            ("a --on", "DAY is missing after --on"),
            ("a --csv=5", "nothing follows --csv"),
            ("a --csv --csv", "--csv is given twice"),
            ("a --csv --on 5", "--csv and --on do not go together"),
            ("a --calendar", "FILE is missing after --calendar"),
            (
                "a --calendar b --csv --calendar=b",
                "--calendar is given twice",
            ),
            ("a -\u{1b}[2J", "`-\\u{1b}[2J` is not known"),
        ];
        for (words, reason) in wrong {
            assert_eq!(given(words), Err(reason.to_string()), "{words}");
        }
    }

    #[test]
    fn help_is_asked_for_among_the_options_alone() {
        let asks = |words: &str| {
            let words: Vec<OsString> = words.split(' ').map(OsString::from).collect();
            ask_for_help(&words)
        };
        assert!(asks("--help") && asks("a 1 2 3 -h") && asks("--bad --help"));
        assert!(!asks("help") && !asks("-- --help"));
    }

    #[test]
    fn the_usage_is_made_of_the_same_table() {
        let usage = "hollupaq name BOOK [N] [--on DAY | --csv] [--calendar FILE]";
        assert_eq!(COMMAND.usage(), usage);
    }
}
