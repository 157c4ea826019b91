//! The picture as SVG. Its rows are written as they come; legend and scale, which tell of all of them, are written last.

mod header;
mod sheet;

use std::io::{self, Write};

use super::ink::Ink;
use super::layout::Part;
use super::tally::Tally;
use super::words::{lost, PictureWords};
use crate::extents::{Kind, Stretch};
use sheet::{EDGE, LEFT, ROW, TOP};

/// The width of the whole picture.
const WIDTH: f64 = LEFT + ROW + EDGE;
/// From a row to the next.
const PITCH: u64 = 30;
/// From a row's top, where its marks are, to its bar.
const BAR: u64 = 11;
/// The height of a row's bar.
const HEIGHT: u64 = 16;
/// The width from which on the stripes of spoilt bits can be seen.
const STRIPES: f64 = 6.0;
/// What the root element's start may take, which is filled in when the height is known.
const START: usize = 200;

const PATTERNS: &str = r#"<defs>
<pattern id="spoilt" width="6" height="6" patternUnits="userSpaceOnUse" patternTransform="rotate(45)">
<rect class="under" width="6" height="6"/><path class="stripe" d="M0 0v6" stroke-width="5"/>
</pattern>
<pattern id="void" width="5" height="5" patternUnits="userSpaceOnUse" patternTransform="rotate(-45)">
<path class="stripe" d="M0 0v5" stroke-width="2"/>
</pattern>
</defs>
<rect class="ground" width="100%" height="100%"/>
"#;

/// The picture being written.
pub struct Svg<'a, W> {
    pub out: W,
    words: PictureWords<'a>,
    /// The length of a bit.
    scale: f64,
    /// The first row's number.
    first: u64,
    /// The number of the row in work.
    row: Option<u64>,
    /// From where on there is room for a mark's text in this row.
    room: f64,
}

impl<'a, W: Write> Svg<'a, W> {
    /// Begins a picture of the file of that name.
    pub fn new(mut out: W, name: &str, words: PictureWords<'a>) -> io::Result<Svg<'a, W>> {
        let (name, style) = (escaped(name), include_str!("svg.css"));
        writeln!(out, "{:START$}\n<title>{name}</title>", "")?;
        write!(out, "<style>\n{style}</style>\n{PATTERNS}")?;
        writeln!(
            out,
            r#"<text class="title" x="{EDGE}" y="30">{name}</text>"#
        )?;
        Ok(Svg {
            out,
            words,
            scale: ROW / words.layout.row as f64,
            first: 0,
            row: None,
            room: 0.0,
        })
    }

    /// Draws a part of the row in work, or of a later row.
    pub fn part(&mut self, part: &Part<'_>) -> io::Result<()> {
        if self.row != Some(part.row) {
            self.begin_row(part.row)?;
        }
        let x = part.from as f64 * self.scale;
        let width = (part.to - part.from) as f64 * self.scale;
        match part.stretch.kind {
            Kind::Idle => self.bar("idle", x, width, BAR + 6, HEIGHT - 12),
            Kind::Flag => self.bar("flag", x, width, BAR + 2, HEIGHT - 4),
            _ => self.body(part.stretch, x, width),
        }?;
        match part.begins {
            true => self.mark(part.stretch, x),
            false => Ok(()),
        }
    }

    fn begin_row(&mut self, row: u64) -> io::Result<()> {
        self.end_row()?;
        if self.row.is_none() {
            self.first = row;
        }
        self.row = Some(row);
        self.room = 0.0;
        let (y, label) = (
            TOP + (row - self.first) * PITCH,
            self.words.layout.label(row),
        );
        let base = BAR + 12;
        writeln!(
            self.out,
            r#"<g transform="translate({LEFT} {y})"><text class="label" x="-8" y="{base}">{label}</text>"#
        )
    }

    fn end_row(&mut self) -> io::Result<()> {
        match self.row {
            Some(_) => writeln!(self.out, "</g>"),
            None => Ok(()),
        }
    }

    fn bar(&mut self, class: &str, x: f64, width: f64, y: u64, height: u64) -> io::Result<()> {
        writeln!(
            self.out,
            r#"<rect class="{class}" x="{x:.2}" y="{y}" width="{width:.2}" height="{height}"/>"#
        )
    }

    /// A body, or bits in no frame: a bar that says what it is when pointed at. It is never too narrow to be seen.
    fn body(&mut self, stretch: &Stretch, x: f64, width: f64) -> io::Result<()> {
        let ink = Ink::of(stretch.kind);
        let class = match ink {
            Ink::Void | Ink::Spoilt if width < STRIPES => "narrow".to_string(),
            _ => ink.classes(),
        };
        let shown = width.max(2.0);
        let title = self.words.frame(stretch);
        writeln!(
            self.out,
            r#"<rect class="{class}" x="{x:.2}" y="{BAR}" width="{shown:.2}" height="{HEIGHT}" rx="1"><title>{title}</title></rect>"#
        )?;
        self.name(ink, x + width / 2.0, width)
    }

    /// The name of a body's circuit or kind on its bar, as far as there is room for it.
    fn name(&mut self, ink: Ink, middle: f64, width: f64) -> io::Result<()> {
        let long = match ink {
            Ink::Circuit { number, .. } => self.words.address(number),
            Ink::System => "system".to_string(),
            Ink::Elsewhere => "elsewhere".to_string(),
            Ink::Malformed => "malformed".to_string(),
            _ => return Ok(()),
        };
        let name = match width {
            _ if width >= 8.0 + 7.0 * long.len() as f64 => long,
            _ if width >= 12.0 => ink.symbol().to_string(),
            _ => return Ok(()),
        };
        let (shade, base) = (shade(ink), BAR + 12);
        writeln!(
            self.out,
            r#"<text class="name {shade}" x="{middle:.2}" y="{base}">{name}</text>"#
        )
    }

    /// The mark of packets lost before a frame, or of a loss known only modulo 8.
    fn mark(&mut self, stretch: &Stretch, x: f64) -> io::Result<()> {
        let Some((number, loss, modulo)) = stretch.loss() else {
            return Ok(());
        };
        let left = x - 4.0;
        let title = self.words.frame(stretch);
        writeln!(
            self.out,
            r#"<path class="loss" d="M{left:.2} 2h8l-4 8z"><title>{title}</title></path>"#
        )?;
        let text = format!("{} of {}", lost(loss, modulo), self.words.address(number));
        self.note(&text, x)
    }

    /// The text beside a mark, where there is room.
    fn note(&mut self, text: &str, x: f64) -> io::Result<()> {
        let length = 12.0 + 6.0 * text.len() as f64;
        let (anchor, from, at) = match x + length < ROW {
            true => ("start", x, x + 6.0),
            false => ("end", x - length, x - 6.0),
        };
        if from < self.room {
            return Ok(());
        }
        self.room = from + length;
        writeln!(
            self.out,
            r#"<text class="note" text-anchor="{anchor}" x="{at:.2}" y="9">{text}</text>"#
        )
    }

    /// Ends the picture; answers what its first bytes have to be.
    pub fn end(&mut self, tally: &Tally) -> io::Result<Vec<u8>> {
        self.end_row()?;
        let rows = self.row.map_or(0, |row| row - self.first + 1);
        header::write(&mut self.out, self.words, tally)?;
        writeln!(self.out, "</svg>")?;
        let height = TOP + rows * PITCH + 12;
        let start = format!(
            r#"<svg xmlns="http://www.w3.org/2000/svg" width="{WIDTH}" height="{height}" viewBox="0 0 {WIDTH} {height}">"#
        );
        Ok(format!("{start:START$}").into_bytes())
    }
}

/// The class of the text on a body's bar.
fn shade(ink: Ink) -> &'static str {
    match ink {
        Ink::Circuit { used: false, .. } => "",
        Ink::Circuit { number: 1 | 3, .. } | Ink::System => "dark",
        _ => "light",
    }
}

/// A text as XML may have it. Control characters, which it may not have, become U+FFFD.
fn escaped(text: &str) -> String {
    let mut escaped = String::new();
    for character in text.chars() {
        match character {
            '&' => escaped.push_str("&amp;"),
            '<' => escaped.push_str("&lt;"),
            '>' => escaped.push_str("&gt;"),
            '\u{fffe}' | '\u{ffff}' => escaped.push('\u{fffd}'),
            _ if character.is_control() => escaped.push('\u{fffd}'),
            _ => escaped.push(character),
        }
    }
    escaped
}
