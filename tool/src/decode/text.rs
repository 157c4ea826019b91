//! Lines for people.

use std::fmt::{self, Write as _};
use std::io::{self, Write as _};

use super::form::{Form, Sum, Told};
use crate::account::{
    free_words, gap_words, modulo_words, table, unfinished_words, untraced_words, NoticeWords, Unit,
};
use crate::gaps::Gap;
use crate::output::{folded, say};
use crate::quote::Quoted;
use crate::scan::Listening;

/// A line for each notice and each stretch in no frame, then a table.
pub struct Text;

/// A line of text, which bytes end with; it is written many times, and quicker so than through the errors of an output.
struct Line<'a>(&'a mut Vec<u8>);

impl fmt::Write for Line<'_> {
    fn write_str(&mut self, text: &str) -> fmt::Result {
        self.0.extend_from_slice(text.as_bytes());
        Ok(())
    }
}

/// Writes a notice's line.
fn write_notice(line: &mut Line<'_>, told: &Told<'_>) -> fmt::Result {
    let words = NoticeWords {
        heard: told.heard,
        circuits: told.circuits,
        unit: told.unit,
    };
    write!(line, "{} {}: {words}", told.unit.name(), told.place)?;
    if let Some(bytes) = told.bytes {
        write!(line, ": {}", Quoted(bytes))?;
    }
    if let Some(file) = told.file {
        write!(line, ", file {file}")?;
    }
    writeln!(line)
}

impl Form for Text {
    /// It goes to the standard error: the standard output has notices, and their totals.
    fn listening(&self, _: &mut Vec<u8>, listening: &Listening) -> io::Result<()> {
        say(&folded(&listening.to_string()));
        Ok(())
    }

    fn notice(&self, out: &mut Vec<u8>, told: &Told<'_>) -> io::Result<()> {
        write_notice(&mut Line(out), told).map_err(io::Error::other)
    }

    fn gap(&self, out: &mut Vec<u8>, unit: Unit, gap: &Gap) -> io::Result<()> {
        writeln!(out, "{}", gap_words(unit, gap))
    }

    fn sum(&self, out: &mut Vec<u8>, sum: &Sum<'_>) -> io::Result<()> {
        let (account, unit) = (sum.account, sum.account.unit);
        write!(out, "\n{}", table(account))?;
        let (damaged, number) = sum.damaged();
        let read = format!(
            "{}s read {}; System {}, {damaged} {number}, Malformed {}, Elsewhere {}",
            unit.name(),
            sum.read,
            account.system,
            account.malformed,
            account.elsewhere
        );
        writeln!(out, "{}", folded(&read))?;
        let behind = sum.rest.map(|rest| rest.behind);
        writeln!(out, "{}", free_words(account, behind))?;
        writeln!(out, "{}", modulo_words(account.modulo()))?;
        for message in &account.unfinished {
            writeln!(out, "{}", folded(&unfinished_words(account, message)))?;
        }
        writeln!(out, "{}", untraced_words(unit, sum.block))
    }
}
