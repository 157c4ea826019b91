//! User bits put into a capture that is there.

use std::ffi::OsStr;

use super::filing::Write;
use crate::error::Error;
use crate::formats::{Channel, Subframe, Words};
use crate::frames;
use crate::input::{Content, Input};
use crate::output::count;
use crate::progress::Progress;

/// The capture, read as far as bits are put into it.
pub struct Insertion {
    input: Input,
    progress: Progress,
    channel: Channel,
    words: Words,
    /// Bits to put.
    bits: u64,
    /// Words of the channel that are read.
    room: u64,
}

impl Insertion {
    /// Opens the capture.
    pub fn open(path: &OsStr, channel: Channel) -> Result<Insertion, Error> {
        let input = Input::open(path, Content::Capture)?;
        Ok(Insertion {
            progress: Progress::alone(input.length()),
            input,
            channel,
            words: Words::default(),
            bits: 0,
            room: 0,
        })
    }

    /// Puts bits into the channel's next words. Where there are no more, bits are only counted.
    pub fn put(&mut self, block: &[u8], n: u64, write: Write<'_>) -> Result<(), Error> {
        self.bits += n;
        for number in 0..n {
            if let Some(word) = self.skip(write)? {
                let word = word.with_user(frames::bit(block, number));
                write(&word.to_bytes())?;
            }
        }
        Ok(())
    }

    /// The rest of the capture stays as it is. The error where it has no room for the bits; else what there is to tell.
    pub fn end(mut self, write: Write<'_>) -> Result<String, Error> {
        while let Some(word) = self.skip(write)? {
            write(&word.to_bytes())?;
        }
        self.input.refuse_part(self.words.part())?;
        let (name, channel) = (self.input.name(), self.channel);
        match self.room.checked_sub(self.bits) {
            None => Err(Error::Data(format!(
                "{name}: expected room for {}, and channel {channel} takes {}",
                count(self.bits, "bit"),
                self.room
            ))),
            Some(0) => Ok(String::new()),
            Some(rest) => Ok(format!(
                "\n{name}: channel {channel} keeps the user bits of its last {}",
                count(rest, "word")
            )),
        }
    }

    /// Copies the words of the other channel up to the next word of the channel, and answers that, or none at the end.
    fn skip(&mut self, write: Write<'_>) -> Result<Option<Subframe>, Error> {
        while let Some((channel, word)) = self.next()? {
            if channel == self.channel {
                self.room += 1;
                return Ok(Some(word));
            }
            write(&word.to_bytes())?;
        }
        Ok(None)
    }

    /// The next word, or none at the end.
    fn next(&mut self) -> Result<Option<(Channel, Subframe)>, Error> {
        loop {
            if let Some(word) = self.words.next() {
                return Ok(Some(word));
            }
            match self.input.chunk()? {
                Some(chunk) => {
                    self.words.add(chunk.bytes);
                    self.progress.add(chunk.read);
                }
                None => return Ok(None),
            }
        }
    }
}
