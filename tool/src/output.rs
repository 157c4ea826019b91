//! The standard output and the standard error.

use std::env;
use std::io::{self, BufWriter, Write};
use std::ops::RangeInclusive;
use std::sync::atomic::{AtomicBool, Ordering};

use rustix::termios::{tcgetwinsize, Winsize};

/// Columns that a text for people may have, and those it has where nothing says another number.
pub const WIDTHS: RangeInclusive<u64> = 40..=1000;
pub const WIDTH: usize = 80;
/// Columns that a line is indented by.
const INDENT: usize = 2;

/// Whether nothing but errors is said.
static QUIET: AtomicBool = AtomicBool::new(false);

/// From here on nothing but errors is said.
pub fn be_quiet() {
    QUIET.store(true, Ordering::Relaxed);
}

/// Whether nothing but errors is said.
pub fn is_quiet() -> bool {
    QUIET.load(Ordering::Relaxed)
}

/// Prints a text such as a help.
pub fn print(text: &str) -> io::Result<()> {
    let mut stdout = io::stdout().lock();
    stdout.write_all(text.as_bytes())?;
    stdout.flush()
}

/// What a warning begins with.
pub const WARNING: &str = "aes18: warning: ";

/// The standard output for what is told of an input: with `at_once` each line is written when it ends, as of an input that comes bit by bit. With `to_end`
/// the reading goes on where it is closed at the other end.
pub fn stdout(at_once: bool, to_end: bool) -> Box<dyn Write> {
    let stdout = io::stdout().lock();
    match (at_once, to_end) {
        (true, true) => Box::new(Unread(stdout)),
        (true, false) => Box::new(stdout),
        (false, true) => Box::new(BufWriter::new(Unread(stdout))),
        (false, false) => Box::new(BufWriter::new(stdout)),
    }
}

/// Says an error on the standard error; where that cannot be written there is nobody to tell.
pub fn say_error(line: &str) {
    let _ = writeln!(io::stderr(), "{line}");
}

/// Says a note, a warning or a summary on the standard error, unless that is to be quiet.
pub fn say(line: &str) {
    if !is_quiet() {
        say_error(line);
    }
}

/// Says that the terminal of that name, which a serial line goes to or comes from, must be in raw mode.
pub fn say_raw(name: &str) {
    say(&format!(
        "aes18: note: {name} is a terminal; it must be in raw mode (stty raw -echo), or it changes bytes of the line"
    ));
}

/// The columns of the standard output.
pub fn width() -> usize {
    columns(tcgetwinsize(io::stdout()).ok())
}

/// The columns of the standard error.
pub fn error_width() -> usize {
    columns(tcgetwinsize(io::stderr()).ok())
}

/// The columns that COLUMNS says, or else those of the terminal, or else 80.
fn columns(terminal: Option<Winsize>) -> usize {
    let columns = env::var("COLUMNS")
        .ok()
        .and_then(|columns| columns.parse().ok());
    let terminal = terminal.map(|size| u64::from(size.ws_col));
    columns
        .filter(|columns| WIDTHS.contains(columns))
        .or(terminal.filter(|columns| *columns > 0))
        .map_or(WIDTH, |columns| columns as usize)
}

/// A number with what it counts: `1 block`, `2 blocks`.
pub fn count(number: u64, what: &str) -> String {
    let plural = if number == 1 { "" } else { "s" };
    format!("{number} {what}{plural}")
}

/// A text in lines of at most 80 columns, as far as its words allow; all but the first are indented.
pub fn folded(text: &str) -> String {
    fold(text, 0)
}

/// The same as an item of a list, all of which is indented.
pub fn item(text: &str) -> String {
    fold(text, INDENT)
}

/// Folds a text whose first line is indented so much, and the others more.
fn fold(text: &str, indent: usize) -> String {
    let further = indent + INDENT;
    let mut folded = String::new();
    let mut column = 0;
    for word in text.split(' ') {
        let length = word.chars().count();
        column = match column {
            0 => {
                folded += &" ".repeat(indent);
                indent
            }
            _ if column + 1 + length > WIDTH => {
                folded += &format!("\n{:further$}", "");
                further
            }
            _ => {
                folded.push(' ');
                column + 1
            }
        };
        folded += word;
        column += length;
    }
    folded
}

/// An output that may be closed at the other end; what is written to it then is nowhere read.
pub struct Unread<W>(pub W);

impl<W: Write> Write for Unread<W> {
    fn write(&mut self, bytes: &[u8]) -> io::Result<usize> {
        match self.0.write(bytes) {
            Err(error) if error.kind() == io::ErrorKind::BrokenPipe => Ok(bytes.len()),
            written => written,
        }
    }

    fn flush(&mut self) -> io::Result<()> {
        match self.0.flush() {
            Err(error) if error.kind() == io::ErrorKind::BrokenPipe => Ok(()),
            flushed => flushed,
        }
    }
}

#[cfg(test)]
mod tests {
    use super::*;

    #[test]
    fn long_texts_are_folded() {
        assert_eq!(folded("a few words"), "a few words");
        let word = "x".repeat(39);
        let line = format!("{word} {word}");
        assert_eq!(folded(&format!("{line} b")), format!("{line}\n  b"));
        assert_eq!(
            folded(&format!("{word} {word}x")),
            format!("{word} {word}x")
        );
        assert_eq!(
            folded(&format!("{word}x {word}x")),
            format!("{word}x\n  {word}x")
        );
        assert_eq!(item("a few words"), "  a few words");
        assert_eq!(item(&line[2..]), format!("  {}", &line[2..]));
        assert_eq!(item(&line), format!("  {word}\n    {word}"));
        let long = "x".repeat(100);
        assert_eq!(folded(&format!("{long} b")), format!("{long}\n  b"));
    }
}
