//! `aes18 decode`: what is in filed user bits, or on a serial line.

mod folder;
mod form;
mod json;
mod line;
mod packets;
mod teller;
mod text;

use std::ffi::OsString;

use aes18::Circuit;

use crate::account::Unit;
use crate::args::{self, Arg, Args, BLOCK};
use crate::circuits;
use crate::error::Error;
use crate::formats::{self, Choice};
use crate::input::{Chunk, Content, Input};
use crate::output::say_raw;
use crate::pass::Pass;
use crate::progress::Progress;
use crate::scan::Listening;
use folder::Folder;
use json::Json;
use packets::Packets;
use teller::Teller;
use text::Text;

pub const HELP: &str = r#"aes18 decode: tell what is in filed user bits, or on a serial line

Usage: aes18 decode [--circuits ADDR[:EXT],..] [OPTIONS] BITS
       aes18 decode --line [--circuits ADDR[:EXT],..] [OPTIONS] LINE

  BITS               the file of user bits, or - for the standard input
  --format FORMAT    bits: eight in a byte, the first in the lowest bit, as
                     without this option; bits-msb: the first in the highest
                     bit; iec958: a capture of ALSA's IEC958_SUBFRAME_LE words
  --channel CHANNEL  left or right, the channel of a capture; left without it
  --line             read the bytes of a serial line, such as aes18 line writes,
                     in place of user bits
  --circuits LIST    one to four circuits to listen to, such as 01,02:07:
                     address and extension in hex, divided by commas or spaces;
                     they are numbered from 0, and number 0 takes long messages;
                     without it those four with most packets
  --block N          the bits of a block, 256 to 27000: closing ones end where a
                     block does, counted from bit 0
  --json             one JSON object a line
  --messages DIR     write each message handed over to a file of its own in DIR,
                     which is made where it is missing: 000001-01.bin, then
                     000002-02-07.bin, by order, address and extension; a folder
                     with such files in it is refused; a file appears there
                     when it is complete
  --strict           exit status 3 if anything is lost, spoilt, malformed,
                     orphaned, wrong, dropped, open at the end, known only
                     modulo 8, or in no frame
  -q, --quiet        say nothing but errors on the standard error
  -h, --help         print this help

Without --circuits a first reading scans the file as aes18 scan does, or in the
same way the packets of LINE. The four circuits with most packets, copies not
counted, are then listened to, of those with as many those heard first, and
numbered in this order. But one that sends long messages, as the header 1F FF
hex in a first packet of it says, is number 0 before all others; of several the
one with most packets. Which are listened to, by number, and which not, is said
on the standard error. Where no packet of a circuit passes there is none in the
totals, and the other notices are told. The standard input, a pipe or a device
is told as it comes, and needs --circuits. What is lost, orphaned, wrong,
dropped, open or known only modulo 8 is found at circuits that are listened to,
and of no others does --strict judge it.

A long message is one of 4,095 to 65,535 bytes. Only circuit number 0 takes it;
at another its first packet is told as Wrong, and those behind it as Orphans.

A line for each notice: how many bits were read when it was told, which is the
number, from 0, of the first bit behind the closing flag; then

  02:07, loss 0, Whole, length 10: "charge 71%"
        a packet of a listed circuit; the packets lost before it; its fate:
        Copy    it repeats the circuit's last packet
        Begun   it begins a message, and more is due
        Held    it goes on with the message, and more is due
        Whole   it completes the message, which is handed over
        Orphan  it goes on with a message, and none is open
        Wrong   it does not fit the message's length
  System, enable bits 5 (priorities 0 and 2), code 2, length 6: "sunlit"
        a system packet with the priorities that it enables, in its block and
        all later ones until another system packet, and its information. Which
        are enabled before the first that is told, or behind one that is lost,
        is not known.
  Spoilt       a damaged frame
  Malformed    a frame that is no packet such as a sender makes
  Elsewhere, 7E
               a packet of a circuit that is not listed, which is named

Messages and information are quoted text with escapes or hex digits, as a plan
of aes18 encode takes them.

  bits 5120 to 7167: in no frame, 2048 bits
        a stretch that is no part of a frame which passes, nor of its flags, nor
        closing ones: told when it has ended, before the notice behind it. Bits
        of spoilt frames are in it, and flags that border nothing else. Ones
        are closing ones directly behind a flag, and with --block N up to the
        block's end: then a block replaced by ones is told, and one in which
        nothing was sent. Up to seven zeros that end the file, behind closing
        ones or a flag, are the last byte's spare bits and in no stretch.
  bits 0 to 11: before the first flag, 12 bits
        --strict lets this pass where a recording may begin with it: inside a
        frame, which has 208 bits at most before the flag behind it and no seven
        ones in a row, or inside closing ones, which are nothing but ones and,
        with --block N, fewer than N
  loss 0 modulo 8 (2048 bits in no frame)
        since the circuit's packet before this one so much was in no frame, 280
        bits or more, that seven packets may be lost in it. So the true loss may
        be 8 more, or 16, and so on; and a Copy may be another packet, whose
        message is not handed over.
  message dropped
        the message that was open there is not handed over

No trace is left by bits that are missing altogether, by dropouts to flags and
by dropouts to ones behind a flag, with --block only up to its block's end.

At the end stand the totals: for each circuit the packets that came, copies not
counted; the copies; the packets lost; how many of these losses and copies are
known only modulo 8; the packets that began a message and that were held; the
messages handed over and their bytes; those begun and dropped; orphans; and
wrong ones. Lost, messages, bytes and orphans stop at
4,294,967,295, which stands for that many or more. A message that is open at the
end of the file is named, with how much of it has come and the place of its
notice Begun. The length of a long one is known with its last packet: until then
it is told as at most 65535 bytes.

With --json a notice has the members bit and notice; System enable, priorities
(a list of those enabled) and code; a circuit's number, circuit, loss and fate,
and where they apply modulo8 (true) with gap_bits, and dropped (true); Elsewhere
circuit; Whole and System also length, hex and, if it is printable text, text;
and with --messages file. A stretch in no frame has the one member gap: from,
to, which is the bit behind the last, bits and, where it applies,
before_first_flag (true). The last object has the one member totals, with bits,
before (the first flag), gaps, gap_bits and modulo8 (places), the figures of the
circuits, the messages that are open (a long one with at_most in place of
length), and what is untraced. Without --circuits the first object has the one
member listening, with the members to and not, in each a list of circuits as
objects with the members circuit and packets.

A capture (iec958) has words of 32 bits, the lowest byte first, left and right
in turn, and no header. The user bit is bit 29 of a word. Which channel a word
is of, its preamble in bits 0 to 3 says: 8 or 2 left, 4 right, as ALSA writes
them; without one of these it is the other channel than that of the word before
it, and the first word is left. Bits are numbered within the channel.

Where no frame passes, a warning on the standard error says how many do in other
formats and channels, and with --line how many if LINE is read as user bits.

LINE has the octet-stuffed frames of RFC 1662, or - is the standard input. A
packet on it is told as it would be out of user bits. Its place is how many
bytes of the line were read when it was told: the number, from 0, of the first
byte behind the closing flag. The totals have the bytes read in place of the
bits, and --json the members byte, bytes and gap_bytes. A frame is dropped
without a notice if its FCS is wrong, if its packet is outside 2 to 19 bytes or
if its escape is followed by a flag. So there is no Spoilt, and in its place the
totals have Dropped frames, with --json dropped_frames: how often the bytes
between two flags gave no packet. They are told as stretches in no frame, in
bytes, and from 35 bytes on a loss behind them is known only modulo 8. Bytes
before the first flag and behind the last give no packet either, such as a last
frame whose closing flag is missing; the totals say how many there are, with
--json in the members before and behind.
Up to 42 bytes before the first flag --strict lets pass, as a line may begin
inside a frame.

What was in no frame in the bits that the line was written from leaves no trace
on it. So a loss or a Copy that decode of these bits marks as known only modulo
8 has no mark here, and --strict does not find it; aes18 line says how many such
places there are, and judges the bits with --strict.

A serial device as LINE has to be in raw mode first, or it changes bytes: 0D
becomes 0A, 11 and 13 are taken as flow control, and so on. With the device's
speed in place of 9600:

  stty -F DEVICE 9600 raw -echo

Where LINE is a terminal, as such a device is, a note on the standard error says
that it must be raw; it is read all the same.

Where the standard error is a terminal and the standard output is not, a bar
shows how far a long reading has come.
Exit status: 0; 1 for a refusal or a file that cannot be read; 2 for wrong
usage; 3 where --strict finds something, after all is told. With --strict or
--messages a standard output that is closed early does not end the reading.
"#;

/// What the command line asks for.
struct Request {
    /// The circuits listed; where there are none, the file is scanned for them.
    circuits: Option<Vec<Circuit>>,
    json: bool,
    messages: Option<OsString>,
    content: Content,
    block: Option<u64>,
    strict: bool,
    file: OsString,
}

/// Runs the subcommand.
pub fn run(args: Args) -> Result<(), Error> {
    let request = Request::parse(args)?;
    let listening = request.listening()?;
    let mut input = Input::open(&request.file, request.content)?;
    if request.content == Content::Line && input.is_terminal() {
        say_raw(input.name());
    }
    let mut decoder = request.decoder(input.name(), &listening)?;
    if let Some(listening) = &listening {
        decoder.teller.listening(listening)?;
    }
    let mut progress = Progress::beside_output(input.length());
    while let Some(chunk) = input.chunk()? {
        decoder.read(&chunk)?;
        progress.add(chunk.read);
    }
    drop(progress);
    let passed = decoder.passed();
    let faults = decoder.finish()?;
    if !passed {
        formats::warn_of_no_frame(&request.file, &input)?;
    }
    input.end()?;
    match request.strict {
        true => Error::strict(input.name(), faults),
        false => Ok(()),
    }
}

impl Request {
    fn parse(mut args: Args) -> Result<Request, Error> {
        let mut circuits = None;
        let mut json = false;
        let mut messages = None;
        let mut line = false;
        let mut block = None;
        let mut strict = false;
        let mut file = None;
        let mut choice = Choice::default();
        while let Some(arg) = args.next()? {
            match arg {
                Arg::Option(name) if choice.option(&name, &mut args)? => {}
                Arg::Option(name) => match name.as_str() {
                    "--circuits" => circuits = Some(args.value("a list of circuits")?),
                    "--messages" => messages = Some(args.value("a folder")?),
                    "--json" => json = true,
                    "--line" => line = true,
                    "--block" => block = Some(args.number(BLOCK)?),
                    "--strict" => strict = true,
                    _ => return Err(args::unknown_option(&name)),
                },
                Arg::Operand(path) => args::keep_operand(&mut file, path)?,
            }
        }
        let (expected, content) = match line {
            true => ("a file of a serial line", line_content(choice, block)?),
            false => ("a file of user bits", Content::Bits(choice.finish()?)),
        };
        Ok(Request {
            circuits: circuits.as_deref().map(circuits::option).transpose()?,
            json,
            messages,
            content,
            block,
            strict,
            file: args::needed(file, expected)?,
        })
    }

    /// The circuits that are found in the file, where none are listed.
    fn listening(&self) -> Result<Option<Listening>, Error> {
        match (&self.circuits, self.content) {
            (Some(_), _) => Ok(None),
            (None, Content::Bits(formats)) => Listening::in_bits(&self.file, formats).map(Some),
            (None, _) => Listening::on_line(&self.file).map(Some),
        }
    }

    /// What reads the file of that name and tells of it.
    fn decoder(&self, name: &str, listening: &Option<Listening>) -> Result<Decoder, Error> {
        let circuits = match listening {
            Some(listening) => listening.circuits(),
            None => self.circuits.clone().unwrap_or_default(),
        };
        let (unit, source) = match self.content {
            Content::Bits(formats) => {
                let pass = Pass::new(&circuits, self.block, formats.spare())?;
                (Unit::Bit, Source::Bits(Box::new(pass)))
            }
            _ => {
                let packets = Packets::new(name, &circuits)?;
                (Unit::Byte, Source::Line(Box::new(packets)))
            }
        };
        let folder = self.messages.as_deref().map(Folder::open).transpose()?;
        let block = self.block.is_some();
        let teller = match self.json {
            true => Teller::new(unit, circuits, block, folder, self.strict, &Json),
            false => Teller::new(unit, circuits, block, folder, self.strict, &Text),
        };
        Ok(Decoder { source, teller })
    }
}

/// A serial line, which has no formats and no blocks.
fn line_content(choice: Choice, block: Option<u64>) -> Result<Content, Error> {
    choice.refuse_with("--line")?;
    match block {
        Some(_) => Err(args::not_with("--block", "--line")),
        None => Ok(Content::Line),
    }
}

/// What notices come from.
enum Source {
    Bits(Box<Pass>),
    Line(Box<Packets>),
}

/// A receiver at work, and what is told of it.
struct Decoder {
    source: Source,
    teller: Teller,
}

impl Decoder {
    /// Reads the next chunk and tells its notices.
    fn read(&mut self, chunk: &Chunk<'_>) -> Result<(), Error> {
        let read = match &mut self.source {
            Source::Bits(pass) => read_bits(pass, &mut self.teller, chunk.bytes, chunk.bits),
            Source::Line(packets) => read_line(packets, &mut self.teller, chunk.bytes),
        };
        let sent = self.teller.send();
        read.and(sent)
    }

    /// Whether a frame passed.
    fn passed(&self) -> bool {
        match &self.source {
            Source::Bits(pass) => pass.passed(),
            Source::Line(packets) => packets.history.passed(),
        }
    }

    /// Tells the counts; answers what was at fault, in words.
    fn finish(mut self) -> Result<Option<String>, Error> {
        let (gaps, unfinished, rest) = match &mut self.source {
            Source::Bits(pass) => {
                pass.end();
                (pass.gaps(), pass.unfinished(), None)
            }
            Source::Line(packets) => {
                let rest = packets.line.rest();
                packets.line.end();
                let unfinished = packets.history.unfinished();
                (packets.line.gaps(), unfinished, Some(rest))
            }
        };
        self.teller.tell_gaps(&gaps)?;
        self.teller.finish(unfinished, rest)
    }
}

/// Reads user bits, which the bytes begin with.
fn read_bits(pass: &mut Pass, teller: &mut Teller, bytes: &[u8], bits: u64) -> Result<(), Error> {
    let mut from = 0;
    while from < bits {
        let told = pass.read(bytes, from, bits)?;
        from += told.bits;
        teller.read += told.bits;
        teller.tell_gaps(&pass.gaps())?;
        if let Some(heard) = told.heard {
            teller.tell(&heard, pass.bytes(&heard.notice))?;
        }
    }
    Ok(())
}

/// Reads bytes of a serial line.
fn read_line(packets: &mut Packets, teller: &mut Teller, mut bytes: &[u8]) -> Result<(), Error> {
    loop {
        let read = packets.line.read(bytes);
        bytes = &bytes[read.bytes..];
        teller.read += read.bytes as u64;
        teller.tell_gaps(&packets.line.gaps())?;
        let Some(packet) = read.packet else {
            return Ok(());
        };
        let heard = packets.hear(&packet, teller.read)?;
        teller.tell(&heard, packets.listener.bytes(&heard.notice))?;
    }
}
