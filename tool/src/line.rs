//! `aes18 line`: the packets of filed user bits, written for the serial line.

use std::ffi::OsString;
use std::io::{self, Write};

use crate::account::{free_words, modulo_words};
use crate::args::{self, Arg, Args, BLOCK};
use crate::draft::Draft;
use crate::error::Error;
use crate::formats::{self, Choice, Formats};
use crate::frames;
use crate::input::{Content, Input};
use crate::output::{count, say};
use crate::progress::Progress;
use crate::scan::Survey;

pub const HELP: &str = "\
aes18 line: write the packets in filed user bits as a serial line

Usage: aes18 line [OPTIONS] BITS -o LINE

  BITS                 the file of user bits, or - for the standard input
  -o, --output LINE    the file or device to write, or - for the standard output
  --format FORMAT      bits: eight in a byte, the first in the lowest bit, as
                       without this option; bits-msb: the first in the highest
                       bit; iec958: a capture of ALSA's IEC958_SUBFRAME_LE words
  --channel CHANNEL    left or right, the channel of a capture; left without
                       this option
  --block N            the bits of a block, 256 to 27000: closing ones end where
                       a block does, counted from bit 0
  --strict             exit status 3 if anything is spoilt, malformed, known
                       only modulo 8, or in no frame; LINE is written all the
                       same
  -q, --quiet          say nothing but errors
  -h, --help           print this help

LINE gets the octet-stuffed frames of RFC 1662, for a telemetry terminal. Each
frame that passes in the bits has one, in their order: a flag (7E hex), the
packet of 2 to 19 bytes and its FCS, and a flag. A byte 7E or 7D between the
flags is written as 7D and the byte exclusive-ored with 20 hex; nothing else is
escaped.

Every packet is written, whatever its circuit: copies, system packets and
malformed ones too. A spoilt frame is not, nor anything else that is in no frame
in the bits, and the line has no trace of it: of the packets lost there aes18
decode --line tells the number modulo 8 and does not mark it, as aes18 decode of
the bits does from 280 bits in no frame on.

A serial device as LINE has to be in raw mode first, or it changes bytes: 0A
becomes 0D 0A, and so on. With the device's speed in place of 9600:

  stty -F DEVICE 9600 raw -echo

Where LINE is a terminal, as such a device is, a note on the standard error says
that it must be raw; it is written all the same.

LINE is written when all bits are read, and not at all where that goes wrong.
If writing goes wrong, a file stays as it was, and a device, a pipe or the
standard output may have got a part.

On the standard error is told how many packets and bytes were written; how many
spoilt frames were left out; how many bits are in no frame, in how many
stretches, and how many stand before the first flag; and how many places are
known only modulo 8, of all circuits in the bits. All this is counted as aes18
scan does, and what leaves no trace there leaves none here: see aes18 help scan.
Where the standard error is a terminal, a bar shows how far a long reading has
come. Where no frame passes, a warning there says how many do in other formats
and channels.
Exit status: 0; 1 for a file that cannot be read or written; 2 for wrong usage;
3 where --strict finds something, after LINE is written.
";

/// What the command line asks for.
struct Request {
    bits: OsString,
    formats: Formats,
    block: Option<u64>,
    strict: bool,
    line: OsString,
}

/// Runs the subcommand.
pub fn run(args: Args) -> Result<(), Error> {
    let request = Request::parse(args)?;
    let mut input = Input::open(&request.bits, Content::Bits(request.formats))?;
    let mut draft = Draft::serial(&request.line)?;
    let mut lining = Lining::new(request.block, request.formats)?;
    let mut progress = Progress::alone(input.length());
    while let Some(chunk) = input.chunk()? {
        let frames = lining.read(chunk.bytes, chunk.bits)?;
        draft
            .write_all(&frames)
            .map_err(|error: io::Error| Error::file(draft.name(), &error))?;
        progress.add(chunk.read);
    }
    drop(progress);
    lining.survey.end();
    if !lining.survey.passed() {
        formats::warn_of_no_frame(&request.bits, &input)?;
    }
    input.end()?;
    match draft.finish(&[]) {
        Err(Error::Closed) => {}
        length => say(&lining.summary(length?)),
    }
    match request.strict {
        true => Error::strict(input.name(), lining.survey.account.faults()),
        false => Ok(()),
    }
}

impl Request {
    fn parse(mut args: Args) -> Result<Request, Error> {
        let mut bits = None;
        let mut line = None;
        let mut block = None;
        let mut strict = false;
        let mut choice = Choice::default();
        while let Some(arg) = args.next()? {
            match arg {
                Arg::Option(name) if choice.option(&name, &mut args)? => {}
                Arg::Option(name) => match name.as_str() {
                    "-o" | "--output" => line = Some(args.value("a file for the line")?),
                    "--block" => block = Some(args.number(BLOCK)?),
                    "--strict" => strict = true,
                    _ => return Err(args::unknown_option(&name)),
                },
                Arg::Operand(path) => args::keep_operand(&mut bits, path)?,
            }
        }
        let bits = args::needed(bits, "a file of user bits")?;
        let line = args::needed(line, "-o LINE")?;
        args::not_the_same(("LINE", &line), ("BITS", &bits))?;
        Ok(Request {
            bits,
            formats: choice.finish()?,
            block,
            strict,
            line,
        })
    }
}

/// User bits being read for the line.
struct Lining {
    survey: Survey,
    packets: u64,
}

impl Lining {
    /// Nothing read yet of bits in these formats, in blocks of that length if it is known.
    fn new(block: Option<u64>, formats: Formats) -> Result<Lining, Error> {
        Ok(Lining {
            survey: Survey::new(block, formats.spare())?,
            packets: 0,
        })
    }

    /// Reads the next bits, which the bytes begin with, and answers the frames on the line of the packets that they complete.
    fn read(&mut self, bytes: &[u8], to: u64) -> Result<Vec<u8>, Error> {
        let mut frames = Vec::new();
        self.survey.read_packets(bytes, to, |packet| {
            self.packets += 1;
            let frame = frames::on_line(packet);
            frames.extend(frame.map_err(|refusal| Error::Data(refusal.to_string()))?);
            Ok(())
        })?;
        Ok(frames)
    }

    /// What there is to tell of a line of that length, and of what is not on it.
    fn summary(&self, length: u64) -> String {
        let (packets, bytes) = (count(self.packets, "packet"), count(length, "byte"));
        let account = &self.survey.account;
        format!(
            "{packets}, {bytes}; spoilt frames left out: {}\n{}\n{}",
            account.spoilt,
            free_words(account, None),
            modulo_words(account.modulo())
        )
    }
}

#[cfg(test)]
mod tests {
    use super::*;

    const PACKETS: [&[u8]; 4] = [
        &[0x7E, 0x7D],
        &[0xFF; 19],
        &[0x01, 0x81, 0x00],
        b"charge 71%",
    ];

    /// The bytes of the bits of frames behind each other, each with two flags of its own.
    fn bits() -> Vec<u8> {
        let frame = |packet: &&[u8]| frames::in_bits(&frames::with_fcs(packet).unwrap());
        let mut number = 0;
        let mut bytes = vec![0; 200];
        for frame in PACKETS.iter().map(frame) {
            for bit in 0..frame.count {
                bytes[number / 8] |= u8::from(frames::bit(&frame.bytes, bit)) << (number % 8);
                number += 1;
            }
        }
        bytes
    }

    /// The line of bits given in parts.
    fn line(parts: &[&[u8]]) -> Vec<u8> {
        let mut lining = Lining::new(None, Formats::Bits).unwrap();
        let frames = parts
            .iter()
            .flat_map(|part| lining.read(part, 8 * part.len() as u64).unwrap());
        frames.collect()
    }

    #[test]
    fn cut_at_every_byte() {
        let bits = bits();
        let frames = PACKETS.map(|packet| frames::on_line(packet).unwrap());
        let expected = frames.concat();
        for cut in 0..=bits.len() {
            let (first, second) = bits.split_at(cut);
            assert_eq!(line(&[first, second]), expected, "{cut}");
        }
        let bytes: Vec<&[u8]> = bits.chunks(1).collect();
        assert_eq!(line(&bytes), expected);
    }
}
