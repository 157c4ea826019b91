//! What ends the tool before its work is done.

use std::fmt::Display;
use std::io;
use std::process::ExitCode;

use crate::output::say_error;

/// An error and, by its kind, the exit status.
#[derive(Debug)]
pub enum Error {
    /// The command line is wrong: status 2.
    Usage(String),
    /// A refusal or bad data: status 1.
    Data(String),
    /// A refusal or bad data at a line of a text file, which the message begins with: status 1.
    Line(String),
    /// The option `--strict` was given and something is at fault: status 3.
    Strict(String),
    /// Whoever reads the standard output has closed it: status 0, and nothing to say.
    Closed,
}

impl Error {
    /// An error of reading or writing the file of that name.
    pub fn file(name: impl Display, error: &io::Error) -> Error {
        Error::Data(format!("{name}: {error}"))
    }

    /// An error at a line of a text file, lines counted from 1.
    pub fn line(file: &str, line: usize, message: impl Display) -> Error {
        Error::Line(format!("{file}:{line}: {message}"))
    }

    /// An error of writing the standard output.
    pub fn stdout(error: &io::Error) -> Error {
        match error.kind() {
            io::ErrorKind::BrokenPipe => Error::Closed,
            _ => Error::file("standard output", error),
        }
    }

    /// What `--strict` says of a file in which that is at fault, in words, if anything is.
    pub fn strict(file: &str, faults: Option<String>) -> Result<(), Error> {
        match faults {
            Some(faults) => Err(Error::Strict(format!("{file}: --strict: {faults}"))),
            None => Ok(()),
        }
    }

    /// A usage error with the command whose help says more.
    pub fn see_help_of(self, command: &str) -> Error {
        match self {
            Error::Usage(message) => Error::Usage(format!("{message}\nSee {command} --help.")),
            other => other,
        }
    }

    /// Says the error on the standard error and answers the exit status.
    pub fn report(&self) -> ExitCode {
        match self {
            Error::Usage(message) => {
                say_error(&format!("aes18: {message}"));
                ExitCode::from(2)
            }
            Error::Data(message) => {
                say_error(&format!("aes18: {message}"));
                ExitCode::from(1)
            }
            Error::Line(message) => {
                say_error(message);
                ExitCode::from(1)
            }
            Error::Strict(message) => {
                say_error(&format!("aes18: {message}"));
                ExitCode::from(3)
            }
            Error::Closed => ExitCode::SUCCESS,
        }
    }
}
