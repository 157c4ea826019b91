//! A file or the standard input, read in chunks: the memory used does not grow with its length.

use std::ffi::OsStr;
use std::fs::File;
use std::io::{self, IsTerminal, Read};

use crate::error::Error;
use crate::formats::{Extraction, Formats};

/// Bytes that are read at once, at most.
const BUFFER: usize = 64 * 1024;

/// What an input holds.
#[derive(Clone, Copy, Debug, PartialEq, Eq)]
pub enum Content {
    /// User bits in one of the formats.
    Bits(Formats),
    /// The same, where there need be none.
    Trial(Formats),
    /// The bytes of a serial line.
    Line,
    /// The bytes of a capture, all of them.
    Capture,
    /// A plan's text.
    Plan,
}

impl Content {
    /// The format of user bits.
    fn formats(self) -> Option<Formats> {
        match self {
            Content::Bits(formats) | Content::Trial(formats) => Some(formats),
            Content::Line | Content::Capture | Content::Plan => None,
        }
    }
}

/// What one reading gave: bits in bytes, the first in the lowest bit. All chunks but the last have whole bytes; spare bits of the last are 0.
#[derive(Clone, Copy, Debug)]
pub struct Chunk<'a> {
    pub bytes: &'a [u8],
    pub bits: u64,
    /// How many bytes of the file were read for it.
    pub read: usize,
}

/// What is read, chunk by chunk.
pub struct Input {
    name: String,
    source: Box<dyn Read>,
    terminal: bool,
    length: Option<u64>,
    content: Content,
    buffer: Vec<u8>,
    /// The user bits of a capture.
    extraction: Option<Extraction>,
    /// How many bytes are read.
    done: u64,
    ended: bool,
}

impl Input {
    /// Opens a file, or the standard input where the name is `-`.
    pub fn open(path: &OsStr, content: Content) -> Result<Input, Error> {
        if path == "-" {
            let name = "standard input".to_string();
            return Ok(Input::of(name, io::stdin(), None, content));
        }
        let name = path.to_string_lossy().into_owned();
        let file = File::open(path).map_err(|error| Error::file(&name, &error))?;
        let metadata = file
            .metadata()
            .map_err(|error| Error::file(&name, &error))?;
        if metadata.is_dir() {
            return Err(Error::Data(format!(
                "{name}: expected a file, not a folder"
            )));
        }
        let length = metadata.is_file().then_some(metadata.len());
        Ok(Input::of(name, file, length, content))
    }

    fn of(
        name: String,
        source: impl Read + IsTerminal + 'static,
        length: Option<u64>,
        content: Content,
    ) -> Input {
        Input {
            name,
            terminal: source.is_terminal(),
            source: Box::new(source),
            length,
            content,
            buffer: vec![0; BUFFER],
            extraction: match content.formats() {
                Some(Formats::Iec958(channel)) => Some(Extraction::new(channel)),
                _ => None,
            },
            done: 0,
            ended: false,
        }
    }

    /// The file's name, for messages.
    pub fn name(&self) -> &str {
        &self.name
    }

    /// What it holds.
    pub fn content(&self) -> Content {
        self.content
    }

    /// Whether it is a terminal.
    pub fn is_terminal(&self) -> bool {
        self.terminal
    }

    /// The file's length in bytes, where it is known beforehand.
    pub fn length(&self) -> Option<u64> {
        self.length
    }

    /// The next bits, or none at the end. An empty file is an error, and a capture without a word of the channel. Whether a capture ends inside a word, `end` says, when all before it is told.
    pub fn chunk(&mut self) -> Result<Option<Chunk<'_>>, Error> {
        let before = self.done;
        let mut bits = 0;
        while bits == 0 && !self.ended {
            let count = self.read()?;
            bits = self.unpack(count);
        }
        self.refuse_empty()?;
        self.refuse_no_word()?;
        let bytes = match &self.extraction {
            Some(extraction) => extraction.bytes(),
            None => &self.buffer,
        };
        Ok((bits > 0).then(|| Chunk {
            bytes: &bytes[..bits.div_ceil(8) as usize],
            bits,
            read: (self.done - before) as usize,
        }))
    }

    /// Reads to the buffer, and answers how many bytes; at the end none.
    fn read(&mut self) -> Result<usize, Error> {
        loop {
            match self.source.read(&mut self.buffer) {
                Ok(count) => {
                    self.done += count as u64;
                    self.ended = count == 0;
                    return Ok(count);
                }
                Err(error) if error.kind() == io::ErrorKind::Interrupted => {}
                Err(error) => return Err(Error::file(&self.name, &error)),
            }
        }
    }

    /// Makes user bits of the bytes read to the buffer, and answers how many; without bytes those held back.
    fn unpack(&mut self, count: usize) -> u64 {
        let bytes = &mut self.buffer[..count];
        match &mut self.extraction {
            Some(extraction) if count == 0 => return extraction.end(),
            Some(extraction) => return extraction.read(bytes),
            None => {}
        }
        if self.content.formats() == Some(Formats::BitsMsb) {
            bytes
                .iter_mut()
                .for_each(|byte| *byte = byte.reverse_bits());
        }
        8 * count as u64
    }

    /// The error of a file without bytes. What is wrong with an empty plan, its reader says.
    fn refuse_empty(&self) -> Result<(), Error> {
        let expected = match self.content {
            Content::Bits(_) | Content::Trial(_) => "user bits",
            Content::Line => "a serial line",
            Content::Capture => "a capture",
            Content::Plan => return Ok(()),
        };
        match self.done {
            0 => Err(Error::Data(format!(
                "{}: expected {expected}, not an empty file",
                self.name
            ))),
            _ => Ok(()),
        }
    }

    /// The error of a capture, read to its end, that has no word of the channel.
    fn refuse_no_word(&self) -> Result<(), Error> {
        let (Content::Bits(Formats::Iec958(channel)), Some(extraction)) =
            (self.content, &self.extraction)
        else {
            return Ok(());
        };
        if !self.ended || extraction.found() {
            return Ok(());
        }
        self.refuse_part(extraction.part())?;
        let name = &self.name;
        let message = format!("{name}: expected user bits, and channel {channel} has no word");
        Err(Error::Data(message))
    }

    /// All bytes not yet read.
    pub fn rest(&mut self) -> Result<Vec<u8>, Error> {
        let mut bytes = Vec::new();
        while let Some(chunk) = self.chunk()? {
            bytes.extend_from_slice(chunk.bytes);
        }
        Ok(bytes)
    }

    /// Ends the reading; an error where a capture ends inside a word.
    pub fn end(&self) -> Result<(), Error> {
        match &self.extraction {
            Some(extraction) if self.ended => self.refuse_part(extraction.part()),
            _ => Ok(()),
        }
    }

    /// The error of a capture whose last bytes, that many, are part of a word.
    pub fn refuse_part(&self, part: usize) -> Result<(), Error> {
        match part {
            0 => Ok(()),
            _ => Err(Error::Data(format!(
                "{}: byte {}: expected a word of 4 bytes, and the capture ends after {part} of them",
                self.name,
                self.done - part as u64
            ))),
        }
    }
}
