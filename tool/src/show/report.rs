//! The legend with its figures, and the list of the places that went wrong, as text.

use std::io::{self, Write};

use super::ink::Ink;
use super::options::Options;
use super::paint::Paint;
use super::tally::Tally;
use super::words::PictureWords;
use crate::account::{gap_words, table, unfinished_words, untraced_words, Unit};
use crate::output::item;

/// Writes the legend, the figures and the list.
pub fn write(out: &mut impl Write, options: &Options, tally: &Tally) -> io::Result<()> {
    let (paint, words) = (options.paint, options.words());
    writeln!(out)?;
    circuits(out, paint, words)?;
    others(out, paint, tally)?;
    marks(out, paint)?;
    write!(out, "\n{}", table(&tally.account))?;
    places(out, words, tally)?;
    if let Some(before) = &tally.before {
        writeln!(out, "{}", gap_words(Unit::Bit, before))?;
    }
    writeln!(out, "{}", untraced_words(Unit::Bit, options.layout.blocks))
}

/// The listed circuits.
fn circuits(out: &mut impl Write, paint: Paint, words: PictureWords<'_>) -> io::Result<()> {
    for number in 0..words.circuits.len() {
        let ink = Ink::Circuit { number, used: true };
        writeln!(out, "{}  {}", symbol(paint, ink), words.circuit(number))?;
    }
    Ok(())
}

/// The other kinds, each with its figure; stuffed zeros, which no character shows, are part of the frames.
fn others(out: &mut impl Write, paint: Paint, tally: &Tally) -> io::Result<()> {
    let account = &tally.account;
    for (ink, name, figure) in [
        (Ink::System, "system packets", account.system),
        (Ink::Elsewhere, "elsewhere", account.elsewhere),
        (Ink::Malformed, "malformed", account.malformed),
        (Ink::Spoilt, "spoilt", account.spoilt),
        (Ink::Void, "bits in no frame", account.free),
        (Ink::Void, "before the first flag", account.before),
        (Ink::Flag, "flags", tally.flags),
        (Ink::Idle, "closing ones", tally.idle),
        (Ink::Blank, "stuffed zeros", tally.zeros),
    ] {
        writeln!(out, "{}  {name:24}{figure:>12}", symbol(paint, ink))?;
    }
    Ok(())
}

/// A symbol of the picture.
fn symbol(paint: Paint, ink: Ink) -> String {
    paint.text(ink, &ink.symbol().to_string())
}

/// The characters that stand for no kind.
fn marks(out: &mut impl Write, paint: Paint) -> io::Result<()> {
    let loss = symbol(paint, Ink::Loss);
    writeln!(
        out,
        "{loss}  packets lost before the frame that begins here, or known only modulo 8\n\
         =  the frame goes on; x where it is an orphan or wrong"
    )
}

/// The places that went wrong; behind the others the messages that are open at the end, all of them.
fn places(out: &mut impl Write, words: PictureWords<'_>, tally: &Tally) -> io::Result<()> {
    let open = &tally.account.unfinished;
    match tally.wrong + open.len() {
        0 => return writeln!(out, "\nNo place went wrong."),
        1 => writeln!(out, "\n1 place went wrong:")?,
        count => writeln!(out, "\n{count} places went wrong:")?,
    }
    for place in &tally.places {
        writeln!(out, "  {}", words.place(place))?;
    }
    match tally.wrong - tally.places.len() {
        0 => {}
        more => writeln!(out, "  and {more} more (--all lists them)")?,
    }
    open.iter()
        .map(|message| item(&unfinished_words(&tally.account, message)))
        .try_for_each(|message| writeln!(out, "{message}"))
}
