//! What stands between the title and the rows: which bits are shown, legend and scale.

use std::io::{self, Write};

use aes18::Figures;

use super::super::ink::Ink;
use super::super::tally::Tally;
use super::super::words::PictureWords;
use super::sheet::{EDGE, LEFT, ROW, TOP};
use crate::account::{figures, CircuitCounts};

/// Where the legend's columns are.
const COLUMNS: [f64; 3] = [EDGE, EDGE + 750.0, EDGE + 1020.0];
/// Where the legend's first line is, and from a line to the next.
const LEGEND: usize = 66;
const LINE: usize = 20;

/// Writes the line below the title, legend and scale.
pub fn write(out: &mut impl Write, words: PictureWords<'_>, tally: &Tally) -> io::Result<()> {
    extent(out, words, tally)?;
    for (x, column) in COLUMNS.into_iter().zip(columns(words, tally)) {
        for (line, (ink, text)) in column.iter().enumerate() {
            entry(out, x, LEGEND + LINE * line, *ink, text)?;
        }
    }
    scale(out, words)
}

/// Which bits are shown, in which rows, and what stuffing cost in them.
fn extent(out: &mut impl Write, words: PictureWords<'_>, tally: &Tally) -> io::Result<()> {
    let layout = words.layout;
    let (from, to) = (layout.from, tally.end.min(layout.to));
    let unit = match layout.blocks {
        true => "blocks",
        false => "rows",
    };
    let bits = match from < to {
        true => format!("bits {from} to {}", to - 1),
        false => "no bits".to_string(),
    };
    writeln!(
        out,
        r#"<text x="{EDGE}" y="50">{bits}, in {unit} of {} bits; stuffed zeros: {}</text>"#,
        layout.row, tally.zeros
    )
}

/// The legend's columns: the circuits, the other bodies, the rest.
fn columns(words: PictureWords<'_>, tally: &Tally) -> [Vec<(Ink, String)>; 3] {
    let account = &tally.account;
    let circuits = (0..words.circuits.len()).zip(account.circuits());
    let circuits = circuits.map(|(number, (packets, figures))| {
        let text = format!("{}: {}", words.circuit(number), told(packets, figures));
        (Ink::Circuit { number, used: true }, text)
    });
    [
        circuits.collect(),
        vec![
            (Ink::System, format!("system packets: {}", account.system)),
            (
                Ink::Elsewhere,
                format!("packets of circuits not listed: {}", account.elsewhere),
            ),
            (
                Ink::Malformed,
                format!("malformed packets: {}", account.malformed),
            ),
            (Ink::Spoilt, format!("spoilt: {}", account.spoilt)),
            (Ink::Void, format!("bits in no frame: {}", account.free)),
        ],
        vec![
            (Ink::Flag, format!("flags: {}", tally.flags)),
            (Ink::Idle, format!("closing ones: {}", tally.idle)),
            (Ink::Loss, "lost before the frame, or modulo 8".to_string()),
            (
                Ink::Circuit {
                    number: 0,
                    used: false,
                },
                "orphan or wrong, of any circuit".to_string(),
            ),
        ],
    ]
}

/// A circuit's figures, as far as they are not 0.
fn told(packets: &CircuitCounts, totals: Figures) -> String {
    let figures = figures(packets, totals).into_iter();
    let named = figures.filter(|(name, figure)| *name == "packets" || *figure > 0);
    let words = named.map(|(name, figure)| format!("{name} {figure}"));
    words.collect::<Vec<_>>().join(", ")
}

/// A swatch and its meaning.
fn entry(out: &mut impl Write, x: f64, y: usize, ink: Ink, text: &str) -> io::Result<()> {
    match ink {
        Ink::Loss => write!(
            out,
            r#"<path class="loss" d="M{} {}h8l-4 8z"/>"#,
            x + 3.0,
            y + 3
        )?,
        Ink::Idle => write!(
            out,
            r#"<rect class="idle" x="{x}" y="{}" width="14" height="4"/>"#,
            y + 5
        )?,
        _ => write!(
            out,
            r#"<rect class="{}" x="{x}" y="{y}" width="14" height="14" rx="1"/>"#,
            ink.classes()
        )?,
    }
    writeln!(
        out,
        r#"<text x="{}" y="{}">{text}</text>"#,
        x + 22.0,
        y + 11
    )
}

/// The numbers of a row's bits, counted from its start, above the first row.
fn scale(out: &mut impl Write, words: PictureWords<'_>) -> io::Result<()> {
    let row = words.layout.row;
    let steps = [25, 50, 100, 250, 500, 1000];
    let step = steps.into_iter().find(|step| row / step <= 12);
    let y = TOP - 8;
    let unit = match words.layout.blocks {
        true => "block",
        false => "bit",
    };
    writeln!(
        out,
        r#"<text class="label" x="{}" y="{}">{unit}</text>"#,
        LEFT - 8.0,
        y + 8
    )?;
    for bit in (0..=row).step_by(step.unwrap_or(2500) as usize) {
        let x = LEFT + ROW * bit as f64 / row as f64;
        writeln!(
            out,
            r#"<path class="scale" d="M{x:.2} {y}v6"/><text class="tick" x="{x:.2}" y="{}">{bit}</text>"#,
            y - 4
        )?;
    }
    Ok(())
}
