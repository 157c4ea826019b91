//! What is printed: lines, and tables of times and of bytes.

use crate::sides::{Fast, Library, Plain, Reference, Side};
use std::io::{self, Write};

/// Writes a line.
pub fn say(line: &str) -> Result<(), String> {
    writeln!(io::stdout(), "{line}")
        .map_err(|error| format!("the output cannot be written: {error}"))
}

/// The sides whose ratio is told where both are timed.
const RATIOS: [[&str; 2]; 3] = [
    [Library::NAME, Plain::NAME],
    [Library::NAME, Fast::NAME],
    [Reference::NAME, Plain::NAME],
];

/// The head of a table of times of these sides, of which each is for one of the unit.
pub fn times_head(title: &str, unit: &str, sides: &[&str]) -> Result<(), String> {
    let title = format!("{title}, ns per {unit}");
    let mut line = format!("\n{title:36}{:>10}", format!("{unit}s"));
    for side in sides {
        line += &format!("{side:>11}");
    }
    for (name, _) in ratios(sides) {
        line += &format!("  {name}");
    }
    say(&line)
}

/// A row of times: how much a turn has of the unit, the nanoseconds of the sides for one, and their ratios.
pub fn times(name: &str, count: u64, sides: &[&str], nanos: &[f64]) -> Result<(), String> {
    let mut line = format!("{name:36}{count:>10}");
    for nanos in nanos {
        line += &format!("{nanos:>11.2}");
    }
    for (name, [one, other]) in ratios(sides) {
        let width = name.len() + 2;
        line += &format!("{:>width$.2}", nanos[one] / nanos[other]);
    }
    say(&line)
}

/// A row of ratios: the nanoseconds of each side in one row to those in another.
pub fn ratios_of_rows(name: &str, [one, other]: [&[f64]; 2]) -> Result<(), String> {
    let mut line = format!("{name:46}");
    for (one, other) in one.iter().zip(other) {
        line += &format!("{:>11.2}", one / other);
    }
    say(&line)
}

/// The ratios that are told of these sides: a name, and the numbers of both among them.
fn ratios(sides: &[&str]) -> Vec<(String, [usize; 2])> {
    let number = |name| sides.iter().position(|&side| side == name);
    let told = RATIOS.iter().filter_map(|&[one, other]| {
        Some((format!("{one}/{other}"), [number(one)?, number(other)?]))
    });
    told.collect()
}

/// The head of a table of bytes.
pub fn bytes_head(title: &str) -> Result<(), String> {
    let [library, plain] = [Library::NAME, Plain::NAME];
    say(&format!("\n{title:46}{library:>11}{plain:>11}"))
}

/// A row of bytes of the library and of plain C.
pub fn bytes(name: &str, library: usize, plain: usize) -> Result<(), String> {
    say(&format!("{name:46}{library:>11}{plain:>11}"))
}
