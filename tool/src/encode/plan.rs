//! A plan: the circuits, then offers and blocks, one a line.

use std::ffi::OsStr;
use std::path::{Path, PathBuf};
use std::str;

use aes18::Circuit;

use super::words::{self, Word};
use crate::circuits;
use crate::error::Error;
use crate::input::{Content, Input};

/// A plan as read: every line is well written, and none is looked at further.
pub struct Plan {
    /// The file's name, for messages.
    pub name: String,
    /// The circuits, and the line that lists them.
    pub circuits: Vec<Circuit>,
    pub circuits_line: usize,
    pub steps: Vec<Step>,
}

/// An offer or a block, with its line.
pub struct Step {
    pub line: usize,
    pub action: Action,
}

pub enum Action {
    Offer(Offer),
    Block {
        n: u64,
        u: u64,
        system: Option<System>,
    },
}

/// A message, and how it is sent at its circuit.
pub struct Offer {
    pub circuit: u64,
    pub priority: u64,
    pub repetition: u64,
    pub message: Vec<u8>,
}

/// A system packet's fields.
pub struct System {
    pub enable: u64,
    pub code: u64,
    pub information: Vec<u8>,
}

/// What a line says.
enum Line {
    Nothing,
    Circuits(Vec<Circuit>),
    Action(Action),
}

impl Plan {
    /// Reads a plan from a file, or from the standard input where its name is `-`.
    pub fn read(path: &OsStr) -> Result<Plan, Error> {
        let mut input = Input::open(path, Content::Plan)?;
        let text = input.rest()?;
        let folder = match Path::new(path).parent() {
            Some(folder) if path != "-" => folder.to_path_buf(),
            _ => PathBuf::new(),
        };
        Plan::parse(input.name(), &text, &folder)
    }

    /// The plan of a text; `folder` is where the names of files start.
    fn parse(name: &str, text: &[u8], folder: &Path) -> Result<Plan, Error> {
        let mut circuits = None;
        let mut steps = Vec::new();
        for (line, text) in (1..).zip(text.split(|byte| *byte == b'\n')) {
            let wrong = |expected: String| Error::line(name, line, expected);
            match (parse_line(text, folder).map_err(wrong)?, &circuits) {
                (Line::Nothing, _) => {}
                (Line::Circuits(list), None) => circuits = Some((list, line)),
                (Line::Circuits(_), Some(_)) => {
                    return Err(wrong(
                        "expected one line 'circuits', not a second".to_string(),
                    ))
                }
                (Line::Action(action), Some(_)) => steps.push(Step { line, action }),
                (Line::Action(_), None) => return Err(wrong(format!("expected first {CIRCUITS}"))),
            }
        }
        let Some((circuits, circuits_line)) = circuits else {
            return Err(Error::Data(format!("{name}: expected {CIRCUITS}")));
        };
        Ok(Plan {
            name: name.to_string(),
            circuits,
            circuits_line,
            steps,
        })
    }
}

/// The forms of a line.
const CIRCUITS: &str = "circuits ADDR[:EXT] ..";
const OFFER: &str = "offer CIRCUIT PRIORITY REPETITION MESSAGE";
const BLOCK: &str = "block N U [system ENABLE CODE [INFORMATION]]";

/// What a line says; an error says what was expected.
fn parse_line(text: &[u8], folder: &Path) -> Result<Line, String> {
    let text = str::from_utf8(text).map_err(|_| "expected text in UTF-8")?;
    let words = words::split(text)?;
    let Some((keyword, rest)) = words.split_first() else {
        return Ok(Line::Nothing);
    };
    match keyword {
        Word::Plain("circuits") => parse_circuits(rest).map(Line::Circuits),
        Word::Plain("offer") => parse_offer(rest, folder)
            .map(Action::Offer)
            .map(Line::Action),
        Word::Plain("block") => parse_block(rest, folder).map(Line::Action),
        _ => Err(format!("expected {CIRCUITS}, {OFFER} or {BLOCK}")),
    }
}

fn parse_circuits(words: &[Word<'_>]) -> Result<Vec<Circuit>, String> {
    let list: Option<Vec<&str>> = words
        .iter()
        .map(|word| match word {
            Word::Plain(word) => Some(*word),
            _ => None,
        })
        .collect();
    let list = list.ok_or_else(|| format!("expected {CIRCUITS}"))?;
    circuits::parse_list(&list.join(" "))
}

fn parse_offer(words: &[Word<'_>], folder: &Path) -> Result<Offer, String> {
    let [circuit, priority, repetition, message @ ..] = words else {
        return Err(format!("expected {OFFER}"));
    };
    Ok(Offer {
        circuit: number(circuit, "CIRCUIT")?,
        priority: number(priority, "PRIORITY")?,
        repetition: number(repetition, "REPETITION")?,
        message: words::bytes(message, folder)?,
    })
}

fn parse_block(words: &[Word<'_>], folder: &Path) -> Result<Action, String> {
    let (n, u, system) = match words {
        [n, u] => (n, u, None),
        [n, u, Word::Plain("system"), system @ ..] => (n, u, Some(parse_system(system, folder)?)),
        _ => return Err(format!("expected {BLOCK}")),
    };
    Ok(Action::Block {
        n: number(n, "N")?,
        u: number(u, "U")?,
        system,
    })
}

fn parse_system(words: &[Word<'_>], folder: &Path) -> Result<System, String> {
    let [enable, code, information @ ..] = words else {
        return Err(format!("expected {BLOCK}"));
    };
    Ok(System {
        enable: number(enable, "ENABLE")?,
        code: number(code, "CODE")?,
        information: match information {
            [] => Vec::new(),
            words => words::bytes(words, folder)?,
        },
    })
}

/// A number in decimal, or in hex behind 0x.
fn number(word: &Word<'_>, name: &str) -> Result<u64, String> {
    let Word::Plain(text) = word else {
        return Err(format!("expected {name}, a number"));
    };
    let number = match text.strip_prefix("0x") {
        Some(digits) if !digits.starts_with('+') => u64::from_str_radix(digits, 16).ok(),
        None if !text.starts_with('+') => text.parse().ok(),
        _ => None,
    };
    number.ok_or_else(|| format!("expected {name}, a number, not '{text}'"))
}
