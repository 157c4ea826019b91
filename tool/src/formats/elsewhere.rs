//! What a file in which no frame is found has in other formats.

use std::ffi::OsStr;
use std::fs;

use aes18::{Framing, Refusal, Stop};

use super::Formats;
use crate::error::Error;
use crate::input::{Chunk, Content, Input};
use crate::output::{count, say, WARNING};
use crate::progress::Progress;

/// Says that no frame was found in the input and, where it is a file that can be read again, which other formats have frames.
pub fn warn_of_no_frame(path: &OsStr, input: &Input) -> Result<(), Error> {
    let mut warning = format!("{WARNING}{}: no frame found", input.name());
    if path != "-" && fs::metadata(path).is_ok_and(|found| found.is_file()) {
        let (with, nor) = match input.content() {
            Content::Line => ("without --line, with", "as user bits in any"),
            _ => ("with", "in another"),
        };
        match elsewhere(path, input.content())?.as_slice() {
            [] => warning += &format!(", nor {nor} format or channel"),
            found => warning.extend(found.iter().map(|found| line(with, found))),
        }
    }
    say(&warning);
    Ok(())
}

/// A line of the warning: the frames found, and the options that they are read with.
fn line(with: &str, (formats, frames): &(Formats, u64)) -> String {
    format!("\n  {} {with} {formats}", count(*frames, "frame"))
}

/// The formats in which frames of the file pass, other than the one that was read, with their number.
fn elsewhere(path: &OsStr, read: Content) -> Result<Vec<(Formats, u64)>, Error> {
    let others = |formats: &Formats| read != Content::Bits(*formats);
    let mut found = Vec::new();
    for formats in Formats::ALL.into_iter().filter(others) {
        let frames = frames(path, formats)?;
        if frames > 0 {
            found.push((formats, frames));
        }
    }
    Ok(found)
}

/// How many frames pass in a file.
fn frames(path: &OsStr, formats: Formats) -> Result<u64, Error> {
    let mut input = Input::open(path, Content::Trial(formats))?;
    let mut progress = Progress::alone(input.length());
    let mut framing = Framing::new();
    let mut frames = 0;
    while let Some(chunk) = input.chunk()? {
        let passed = passing(&mut framing, &chunk);
        frames += passed.map_err(|refusal| Error::Data(refusal.to_string()))?;
        progress.add(chunk.read);
    }
    Ok(frames)
}

/// How many frames pass in the next bits.
fn passing(framing: &mut Framing, chunk: &Chunk<'_>) -> Result<u64, Refusal> {
    let mut frames = 0;
    let mut from = 0;
    loop {
        let read = framing.read(chunk.bytes, from, chunk.bits)?;
        from += read.bits;
        match read.stop {
            Stop::End => return Ok(frames),
            Stop::Spoilt => {}
            Stop::Packet(_) => frames += 1,
        }
    }
}
