//! The tool `aes18`: makes user bits from a plan, tells what is in filed ones, lists their circuits, and writes their packets for a serial line.

#![forbid(unsafe_code)]

mod account;
mod args;
mod circuits;
mod decode;
mod draft;
mod enable;
mod encode;
mod error;
mod extents;
mod formats;
mod frames;
mod gaps;
mod input;
mod json;
mod line;
mod listener;
mod output;
mod pass;
mod progress;
mod quote;
mod scan;
mod scratch;
mod show;
mod signals;

use std::env;
use std::ffi::OsString;
use std::process::ExitCode;

use args::Args;
use error::Error;

/// A subcommand: its name, its help and what it does with the arguments behind its name.
struct Subcommand {
    name: &'static str,
    help: &'static str,
    run: fn(Args) -> Result<(), Error>,
}

const SUBCOMMANDS: [Subcommand; 5] = [
    Subcommand {
        name: "encode",
        help: encode::HELP,
        run: encode::run,
    },
    Subcommand {
        name: "decode",
        help: decode::HELP,
        run: decode::run,
    },
    Subcommand {
        name: "show",
        help: show::HELP,
        run: show::run,
    },
    Subcommand {
        name: "scan",
        help: scan::HELP,
        run: scan::run,
    },
    Subcommand {
        name: "line",
        help: line::HELP,
        run: line::run,
    },
];

const HELP: &str = "\
aes18: messages in the user bits of AES3 audio (AES18)

Usage:
  aes18 encode PLAN -o BITS    make user bits by a plan
  aes18 decode BITS            tell what is in filed user bits
  aes18 decode --line LINE     tell what is on a serial line
  aes18 show BITS              look at filed user bits
  aes18 scan BITS              list the circuits in filed user bits
  aes18 line BITS -o LINE      write packets as a serial line
  aes18 help SUBCOMMAND        say more of a subcommand

Options:
  -h, --help       print this help, or behind a subcommand its own
  -q, --quiet      behind any subcommand: say nothing but errors on the standard
                   error
  -V, --version    print the version

A file of user bits has eight of them in a byte, the first in the lowest bit,
unless --format says otherwise: bits-msb, or iec958 for a capture of ALSA's.
Exit status: 0; 1 for a refusal or bad data; 2 for wrong usage; 3 where
--strict finds something at fault.
";

const VERSION: &str = concat!("aes18 ", env!("CARGO_PKG_VERSION"), "\n");

fn main() -> ExitCode {
    match run(env::args_os().skip(1).collect()) {
        Ok(()) => ExitCode::SUCCESS,
        Err(error) => error.report(),
    }
}

/// Runs the subcommand that the arguments name.
fn run(mut arguments: Vec<OsString>) -> Result<(), Error> {
    if arguments.is_empty() {
        return Err(expected(""));
    }
    let name = arguments.remove(0);
    let name = name.to_string_lossy();
    match name.as_ref() {
        "-h" | "--help" => print(HELP),
        "-V" | "--version" => print(VERSION),
        "help" => help(&arguments),
        _ => {
            let subcommand = subcommand(&name)?;
            match args::ask_for_help(&arguments) {
                true => print(subcommand.help),
                false => (subcommand.run)(Args::new(arguments))
                    .map_err(|error| error.see_help_of(&format!("aes18 {name}"))),
            }
        }
    }
}

/// The subcommand of that name.
fn subcommand(name: &str) -> Result<&'static Subcommand, Error> {
    let known = SUBCOMMANDS.iter().find(|known| known.name == name);
    known.ok_or_else(|| expected(&format!(", not '{name}'")))
}

/// The usage error where something else stands than a subcommand.
fn expected(found: &str) -> Error {
    let mut names: Vec<&str> = SUBCOMMANDS.iter().map(|known| known.name).collect();
    names.push("help");
    Error::Usage(format!("expected {}{found}", args::either(&names))).see_help_of("aes18")
}

/// Prints the help of the subcommand that is named, or the tool's own.
fn help(arguments: &[OsString]) -> Result<(), Error> {
    match arguments {
        [] => print(HELP),
        [name] if name == "help" || args::ask_for_help(arguments) => print(HELP),
        [name] => print(subcommand(&name.to_string_lossy())?.help),
        [_, other, ..] => {
            let message = format!("'{}' is one subcommand too many", other.to_string_lossy());
            Err(Error::Usage(message).see_help_of("aes18"))
        }
    }
}

/// Prints a help or the version.
fn print(text: &str) -> Result<(), Error> {
    output::print(text).map_err(|error| Error::stdout(&error))
}
