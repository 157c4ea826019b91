//! The arguments behind a subcommand's name, taken one by one, and the errors of wrong ones, in the same words for every subcommand.

use std::ffi::{OsStr, OsString};
use std::fs;
use std::ops::RangeInclusive;
use std::vec;

use crate::error::Error;
use crate::output;

/// Bits that a block may have.
pub const BLOCK: RangeInclusive<u64> = 256..=27000;

/// An argument: an option such as `--json`, or what an option does not take, such as a file's name. `-` alone is a file's name.
pub enum Arg {
    Option(String),
    Operand(OsString),
}

/// The arguments not yet taken. `--quiet`, which every subcommand has, is taken here.
pub struct Args {
    rest: vec::IntoIter<OsString>,
    /// The value of `--option=VALUE`, until it is taken.
    value: Option<OsString>,
    /// The option taken last.
    option: String,
    /// The options whose value was taken, in their long form.
    valued: Vec<String>,
    /// Whether `--` was met: what follows is no option.
    ended: bool,
}

impl Args {
    pub fn new(arguments: Vec<OsString>) -> Args {
        Args {
            rest: arguments.into_iter(),
            value: None,
            option: String::new(),
            valued: Vec::new(),
            ended: false,
        }
    }

    /// The next argument, or none at the end.
    pub fn next(&mut self) -> Result<Option<Arg>, Error> {
        loop {
            match self.take()? {
                Some(Arg::Option(name)) if name == "-q" || name == "--quiet" => output::be_quiet(),
                argument => return Ok(argument),
            }
        }
    }

    fn take(&mut self) -> Result<Option<Arg>, Error> {
        if self.value.take().is_some() {
            return Err(Error::Usage(format!(
                "the option {} takes no value",
                self.option
            )));
        }
        let Some(argument) = self.rest.next() else {
            return Ok(None);
        };
        if argument == "--" && !self.ended {
            self.ended = true;
            return Ok(self.rest.next().map(Arg::Operand));
        }
        if self.ended || !is_option(&argument) {
            return Ok(Some(Arg::Operand(argument)));
        }
        let text = argument
            .into_string()
            .map_err(|argument| unknown_option(&argument.to_string_lossy()))?;
        let (name, value) = match text.split_once('=') {
            Some((name, value)) => (name, Some(OsString::from(value))),
            None => (text.as_str(), None),
        };
        self.option = name.to_string();
        self.value = value;
        Ok(Some(Arg::Option(self.option.clone())))
    }

    /// The value of the option just taken: what stands behind its `=`, or else the next argument. No option has a second one.
    pub fn value(&mut self, expected: &str) -> Result<OsString, Error> {
        let name = long_form(&self.option).to_string();
        if self.valued.contains(&name) {
            return Err(Error::Usage(format!("{} is given twice", self.option)));
        }
        self.valued.push(name);
        self.value
            .take()
            .or_else(|| self.rest.next())
            .ok_or_else(|| Error::Usage(format!("the option {} needs {expected}", self.option)))
    }

    /// The number behind the option just taken; one that ends at the highest there is counts bits.
    pub fn number(&mut self, range: RangeInclusive<u64>) -> Result<u64, Error> {
        let (least, most) = (range.start(), range.end());
        let expected = match *most {
            u64::MAX => "the number of a bit".to_string(),
            _ => format!("a number from {least} to {most}"),
        };
        let value = self.value(&expected)?;
        let number = value.to_str().and_then(|text| text.parse().ok());
        number
            .filter(|number| range.contains(number))
            .ok_or_else(|| self.unexpected(&expected, &value))
    }

    /// The choice that the word behind the option just taken stands for.
    pub fn choice<T: Copy>(&mut self, choices: &[(&str, T)]) -> Result<T, Error> {
        let words: Vec<&str> = choices.iter().map(|(word, _)| *word).collect();
        let expected = either(&words);
        let value = self.value(&expected)?;
        let choice = choices.iter().find(|(word, _)| value == *word);
        choice
            .map(|(_, choice)| *choice)
            .ok_or_else(|| self.unexpected(&expected, &value))
    }

    /// The usage error of a value that the option just taken does not have.
    fn unexpected(&self, expected: &str, value: &OsStr) -> Error {
        let (option, value) = (&self.option, value.to_string_lossy());
        Error::Usage(format!("{option}: expected {expected}, not '{value}'"))
    }
}

/// The long form of an option.
fn long_form(option: &str) -> &str {
    match option {
        "-o" => "--output",
        _ => option,
    }
}

/// Whether an argument is written like an option.
fn is_option(argument: &OsStr) -> bool {
    let bytes = argument.as_encoded_bytes();
    bytes.len() > 1 && bytes[0] == b'-'
}

/// Words to choose from: `a, b or c`.
pub fn either(words: &[&str]) -> String {
    match words {
        [] => String::new(),
        [word] => word.to_string(),
        [first @ .., last] => format!("{} or {last}", first.join(", ")),
    }
}

/// Whether `--help` or `-h` stands among a subcommand's arguments.
pub fn ask_for_help(arguments: &[OsString]) -> bool {
    arguments
        .iter()
        .take_while(|argument| *argument != "--")
        .any(|argument| argument == "--help" || argument == "-h")
}

/// The usage error of an option that the subcommand does not have.
pub fn unknown_option(option: &str) -> Error {
    Error::Usage(format!("no option '{option}'"))
}

/// Keeps a subcommand's one operand; a second one is a usage error.
pub fn keep_operand(kept: &mut Option<OsString>, operand: OsString) -> Result<(), Error> {
    if kept.is_some() {
        return Err(Error::Usage(format!(
            "'{}' is one file too many",
            operand.to_string_lossy()
        )));
    }
    *kept = Some(operand);
    Ok(())
}

/// The usage error of a command line that does not have what was expected.
pub fn expected(what: &str) -> Error {
    Error::Usage(format!("expected {what}"))
}

/// The usage error of an option beside another that has no use for it.
pub fn not_with(option: &str, other: &str) -> Error {
    Error::Usage(format!("{option} does not go with {other}"))
}

/// What the command line has to name.
pub fn needed<T>(given: Option<T>, what: &str) -> Result<T, Error> {
    given.ok_or_else(|| expected(what))
}

/// A file to write, such as LINE, and one to read, such as BITS, are not the same. `-` names no file.
pub fn not_the_same(
    (written, to): (&str, &OsStr),
    (read, from): (&str, &OsStr),
) -> Result<(), Error> {
    let file = |name: &OsStr| fs::canonicalize(name).ok().filter(|_| name != "-");
    match file(from).is_some_and(|path| file(to) == Some(path)) {
        true => Err(expected(&format!("another file for {written} than {read}"))),
        false => Ok(()),
    }
}

#[cfg(test)]
mod tests {
    use super::*;

    fn args(arguments: &[&str]) -> Args {
        Args::new(arguments.iter().map(OsString::from).collect())
    }

    #[test]
    fn words_to_choose_from() {
        assert_eq!(either(&["a"]), "a");
        assert_eq!(either(&["a", "b"]), "a or b");
        assert_eq!(either(&["a", "b", "c"]), "a, b or c");
    }

    /// A short form is the same option as its long form.
    #[test]
    fn a_second_value() {
        for second in ["-o", "--output", "--output=b"] {
            let mut args = args(&["-o", "a", second, "b"]);
            assert!(matches!(args.next(), Ok(Some(Arg::Option(_)))));
            assert_eq!(args.value("a file").unwrap(), "a");
            assert!(matches!(args.next(), Ok(Some(Arg::Option(_)))));
            let Err(Error::Usage(message)) = args.value("a file") else {
                panic!("a second value is taken");
            };
            let name = second.trim_end_matches("=b");
            assert_eq!(message, format!("{name} is given twice"));
        }
    }
}
