//! The picture in the terminal: a row is a line of characters, each of which stands for a number of bits.

use std::io::{self, Write};
use std::mem;

use super::ink::Ink;
use super::layout::{Layout, Part};
use super::options::Options;
use super::paint::Paint;
use super::words::lost;
use crate::extents::{Kind, Stretch};
use crate::input::Input;

/// The columns that a row's label takes at least, and the space behind it.
const LABEL: usize = 8;
const SPACE: usize = 1;
/// The most lines with notes under a row. What they leave out, the list of places tells.
const NOTES: usize = 3;

/// A character's place.
#[derive(Clone, Copy, Debug, PartialEq, Eq)]
struct Cell {
    ink: Ink,
    /// The first bit of the body shown, 0 where it is none.
    body: u64,
}

const BLANK: Cell = Cell {
    ink: Ink::Blank,
    body: 0,
};

/// A loss before a frame that begins in the row.
struct Mark {
    cell: usize,
    number: usize,
    loss: u8,
    /// Whether it is known only modulo 8.
    modulo: bool,
}

/// The picture, of which the row in work is held back, and rows like the last one written.
pub struct Terminal<'a, W> {
    pub out: W,
    /// The name of the file shown.
    name: String,
    layout: &'a Layout,
    paint: Paint,
    /// The columns of a row's label.
    label: usize,
    /// Bits of a character.
    bits: u64,
    /// The number of the row in work.
    row: Option<u64>,
    cells: Vec<Cell>,
    marks: Vec<Mark>,
    /// The cell written last.
    before: Cell,
    /// The row written last.
    written: Vec<Cell>,
    /// How many rows like it came behind it.
    alike: u64,
}

impl<'a, W: Write> Terminal<'a, W> {
    /// A picture of an input of which nothing is read yet, with nothing drawn. Where its length is known, there is room for the label of its last row.
    pub fn new(out: W, input: &Input, options: &'a Options) -> Terminal<'a, W> {
        let layout = &options.layout;
        let end = input.length().map_or(0, |bytes| layout.to.min(8 * bytes));
        let last = layout.label(end / layout.row).to_string();
        let label = LABEL.max(last.len());
        let bits = layout.row.div_ceil((options.width - label - SPACE) as u64);
        let cells = layout.row.div_ceil(bits) as usize;
        Terminal {
            out,
            name: input.name().to_string(),
            layout,
            paint: options.paint,
            label,
            bits,
            row: None,
            cells: vec![BLANK; cells],
            marks: Vec::new(),
            before: BLANK,
            written: vec![BLANK; cells],
            alike: 0,
        }
    }

    /// Writes what stands above the rows.
    fn head(&mut self) -> io::Result<()> {
        let (rows, unit) = match self.layout.blocks {
            true => ("blocks", "block"),
            false => ("rows", "bit"),
        };
        let (name, row, bits) = (&self.name, self.layout.row, self.bits);
        writeln!(
            self.out,
            "{name}: {rows} of {row} bits, {bits} to a character"
        )?;
        writeln!(self.out, "{unit:>0$}", self.label)
    }

    /// Draws a part of the row in work, or of a later row.
    pub fn part(&mut self, part: &Part<'_>) -> io::Result<()> {
        if self.row != Some(part.row) {
            match self.row {
                None => self.head()?,
                Some(row) => self.end_row(row)?,
            }
            self.row = Some(part.row);
        }
        let first = (part.from / self.bits) as usize;
        let last = ((part.to - 1) / self.bits) as usize;
        let body = match part.stretch.kind {
            Kind::Body(_) => part.stretch.from,
            _ => 0,
        };
        let ink = Ink::of(part.stretch.kind);
        for cell in first..=last {
            self.put(cell, Cell { ink, body });
        }
        if part.begins {
            self.mark(first, part.stretch);
        }
        Ok(())
    }

    /// Marks a loss before the frame that begins in a cell.
    fn mark(&mut self, cell: usize, stretch: &Stretch) {
        if let Some((number, loss, modulo)) = stretch.loss() {
            let (ink, body) = (Ink::Loss, 0);
            self.put(cell, Cell { ink, body });
            self.marks.push(Mark {
                cell,
                number,
                loss,
                modulo,
            });
        }
    }

    /// Shows a cell in its place if nothing more important is there already.
    fn put(&mut self, place: usize, cell: Cell) {
        if self.cells[place].ink.importance() <= cell.ink.importance() {
            self.cells[place] = cell;
        }
    }

    /// Writes the row in work, whose number is given, or counts it if it is like the one before it.
    fn end_row(&mut self, row: u64) -> io::Result<()> {
        if self.marks.is_empty() && self.cells == self.written {
            self.alike += 1;
        } else {
            self.end_alike(row)?;
            mem::swap(&mut self.cells, &mut self.written);
            self.line(row)?;
            self.notes(row)?;
        }
        self.cells.fill(BLANK);
        self.marks.clear();
        Ok(())
    }

    /// Writes for the rows that were counted, before the row of that number, how many they are; a single one is written itself.
    fn end_alike(&mut self, row: u64) -> io::Result<()> {
        match mem::take(&mut self.alike) {
            0 => Ok(()),
            1 => self.line(row - 1),
            rows => writeln!(self.out, "{:1$} ... {rows} rows like this", "", self.label),
        }
    }

    /// Writes the cells of `written` as the row of that number.
    fn line(&mut self, row: u64) -> io::Result<()> {
        write!(self.out, "{} ", self.label(row))?;
        let last = self.written.iter().rposition(|cell| *cell != BLANK);
        let shown = &self.written[..last.map_or(0, |last| last + 1)];
        for same in shown.chunk_by(|left, right| left.ink == right.ink) {
            let mut text = String::new();
            for cell in same {
                text.push(match cell.body != 0 && cell.body == self.before.body {
                    true => cell.ink.further(),
                    false => cell.ink.symbol(),
                });
                self.before = *cell;
            }
            write!(self.out, "{}", self.paint.text(same[0].ink, &text))?;
        }
        writeln!(self.out)
    }

    fn label(&self, row: u64) -> String {
        format!("{:>1$}", self.layout.label(row), self.label)
    }

    /// Writes the notes of the row of that number: under each mark what is lost.
    fn notes(&mut self, row: u64) -> io::Result<()> {
        let indent = self.label(row).len();
        for line in note_lines(&self.marks, self.cells.len()) {
            let line = self.paint.text(Ink::Loss, &line);
            writeln!(self.out, "{:indent$} {line}", "")?;
        }
        Ok(())
    }

    /// Writes what is held back.
    pub fn end(&mut self) -> io::Result<()> {
        let Some(row) = self.row else {
            return Ok(());
        };
        self.end_row(row)?;
        self.end_alike(row + 1)
    }
}

/// The lines of notes for the marks of a row of that many cells.
fn note_lines(marks: &[Mark], cells: usize) -> Vec<String> {
    let mut lines: Vec<String> = Vec::new();
    for mark in marks {
        let lost = lost(mark.loss, mark.modulo);
        let text = format!("{lost} of circuit {}", mark.number);
        let (start, text) = match mark.cell + text.len() < cells {
            true => (mark.cell, format!("^{text}")),
            false => (mark.cell.saturating_sub(text.len()), format!("{text}^")),
        };
        let line = match lines.iter().position(|line| line.len() < start) {
            Some(line) => line,
            None if lines.len() < NOTES => {
                lines.push(String::new());
                lines.len() - 1
            }
            None => continue,
        };
        let room = start - lines[line].len();
        lines[line].push_str(&format!("{:room$}{text}", ""));
    }
    lines
}
