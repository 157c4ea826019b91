//! `aes18 scan`: the circuits of the packets in filed user bits.

mod listening;
mod survey;

use std::ffi::OsString;
use std::io::{self, Write};

use serde_json::json;

use crate::account::{free_words, gap_words, modulo_words, untraced, untraced_words, Unit};
use crate::args::{self, Arg, Args, BLOCK};
use crate::error::Error;
use crate::formats::{self, Choice, Formats};
use crate::gaps::Gap;
use crate::input::{Content, Input};
use crate::json::{line, GapObject, Members, Only};
use crate::output::{self, folded};
use crate::progress::Progress;
pub use listening::Listening;
use survey::HeardCircuit;
pub use survey::Survey;

pub const HELP: &str = "\
aes18 scan: list the circuits of the packets in filed user bits

Usage: aes18 scan [OPTIONS] BITS

  BITS               the file of user bits, or - for the standard input
  --format FORMAT    bits: eight in a byte, the first in the lowest bit, as
                     without this option; bits-msb: the first in the highest
                     bit; iec958: a capture of ALSA's IEC958_SUBFRAME_LE words
  --channel CHANNEL  left or right, the channel of a capture; left without it
  --block N          the bits of a block, 256 to 27000: closing ones end where a
                     block does, counted from bit 0
  --json             one JSON object a line
  -q, --quiet        say nothing but errors on the standard error
  -h, --help         print this help

A line for each circuit of which a packet passes, that with most packets first;
of those with as many, that which was heard first:

  packets    its packets, copies not counted
  copies     packets equal in all bytes to the circuit's packet before them
  bytes      the bytes of its packets, copies not counted: address, control,
             extension where there is one and segment, without the FCS
  modulo 8   its packets and copies before which so much was in no frame since
             its packet before, 280 bits or more, that what was lost there is
             known only modulo 8
  from       the bit where its first frame begins, with the flag before it
  to         the bit behind its last frame, which ends with a flag

Bits are numbered from 0. What is said of lost packets and messages needs a
receiver that listens to the circuit: aes18 decode and aes18 show, which without
--circuits listen to the first four of this list, or to one that sends messages
above 4,094 bytes and the first three others. Damage may make a packet that
nobody sent: one in 65,536 spoilt frames passes its check.

Behind the table stand the bits read, the circuits, System (system packets,
which are of no circuit), Spoilt (damaged frames) and Malformed (frames that are
no packet such as a sender makes, and name no circuit); then how much is in no
frame, as aes18 decode tells it, how many places are known only modulo 8, and
the stretches in no frame, the first 40 of them.

No trace is left by bits that are missing altogether, by dropouts to flags and
by dropouts to ones behind a flag, with --block only up to its block's end.

With --json a circuit has the members circuit, packets, copies, bytes, modulo8,
from and to. Before the circuits each stretch in no frame has an object as that
of aes18 decode. The last object has the one member totals, with the members
bits, before, gaps, gap_bits, modulo8, circuits, system, spoilt, malformed and
untraced.

Where no frame passes, a warning on the standard error says how many do in other
formats and channels. Where the standard error is a terminal, a bar shows how
far a long reading has come, with --json only if the standard output is none.
Exit status: 0; 1 for a file that cannot be read; 2 for wrong usage.
";

/// The stretches in no frame that are listed for people.
const GAPS: usize = 40;

/// What the command line asks for.
struct Request {
    bits: OsString,
    formats: Formats,
    block: Option<u64>,
    json: bool,
}

/// Runs the subcommand.
pub fn run(args: Args) -> Result<(), Error> {
    let request = Request::parse(args)?;
    let mut input = Input::open(&request.bits, Content::Bits(request.formats))?;
    let mut progress = match request.json {
        true => Progress::beside_output(input.length()),
        false => Progress::alone(input.length()),
    };
    let mut survey = Survey::new(request.block, request.formats.spare())?;
    let mut listing = Listing {
        json: request.json,
        block: request.block.is_some(),
        gaps: Vec::new(),
        out: output::stdout(input.length().is_none(), false),
    };
    while let Some(chunk) = input.chunk()? {
        listing.gaps(&survey.read(chunk.bytes, chunk.bits)?)?;
        progress.add(chunk.read);
    }
    drop(progress);
    listing.gaps(&survey.end())?;
    listing.end(&survey)?;
    if !survey.passed() {
        formats::warn_of_no_frame(&request.bits, &input)?;
    }
    input.end()
}

impl Request {
    fn parse(mut args: Args) -> Result<Request, Error> {
        let mut bits = None;
        let mut block = None;
        let mut json = false;
        let mut choice = Choice::default();
        while let Some(arg) = args.next()? {
            match arg {
                Arg::Option(name) if choice.option(&name, &mut args)? => {}
                Arg::Option(name) => match name.as_str() {
                    "--block" => block = Some(args.number(BLOCK)?),
                    "--json" => json = true,
                    _ => return Err(args::unknown_option(&name)),
                },
                Arg::Operand(path) => args::keep_operand(&mut bits, path)?,
            }
        }
        Ok(Request {
            bits: args::needed(bits, "a file of user bits")?,
            formats: choice.finish()?,
            block,
            json,
        })
    }
}

/// What is listed, and how.
struct Listing<W> {
    json: bool,
    /// Whether the length of a block is known.
    block: bool,
    /// The stretches in no frame to list behind the table.
    gaps: Vec<Gap>,
    out: W,
}

impl<W: Write> Listing<W> {
    /// Lists stretches in no frame: to programs at once, to people the first ones at the end.
    fn gaps(&mut self, gaps: &[Gap]) -> Result<(), Error> {
        let object = |gap| Only("gap", GapObject(Unit::Bit, gap));
        let mut each = gaps.iter();
        match self.json {
            true => each.try_for_each(|gap| line(&mut self.out, &object(gap))),
            false => {
                let room = GAPS - self.gaps.len();
                self.gaps.extend(each.take(room));
                Ok(())
            }
        }
        .map_err(|error| Error::stdout(&error))
    }

    /// Lists the circuits and the totals.
    fn end(&mut self, survey: &Survey) -> Result<(), Error> {
        match self.json {
            true => self.write_json(survey),
            false => self.write_text(survey),
        }
        .and_then(|()| self.out.flush())
        .map_err(|error| Error::stdout(&error))
    }

    /// A table of the circuits, the totals and the stretches in no frame.
    fn write_text(&mut self, survey: &Survey) -> io::Result<()> {
        let circuits = survey.ranked();
        if !circuits.is_empty() {
            writeln!(
                self.out,
                "circuit    packets    copies       bytes  modulo 8          from            to"
            )?;
        }
        for heard in &circuits {
            writeln!(self.out, "{}", row(heard))?;
        }
        let account = &survey.account;
        let read = format!(
            "bits read {}, circuits {}; System {}, Spoilt {}, Malformed {}",
            survey.bits,
            circuits.len(),
            account.system,
            account.spoilt,
            account.malformed
        );
        writeln!(self.out, "{}", folded(&read))?;
        writeln!(self.out, "{}", free_words(account, None))?;
        writeln!(self.out, "{}", modulo_words(account.modulo()))?;
        for gap in &self.gaps {
            writeln!(self.out, "  {}", gap_words(Unit::Bit, gap))?;
        }
        let listed = self.gaps.iter().filter(|gap| !gap.first).count() as u64;
        if account.gaps > listed {
            let more = account.gaps - listed;
            writeln!(self.out, "  and {more} more (aes18 decode tells them)")?;
        }
        writeln!(self.out, "{}", untraced_words(Unit::Bit, self.block))
    }

    /// An object for each circuit, and one with the totals.
    fn write_json(&mut self, survey: &Survey) -> io::Result<()> {
        let circuits = survey.ranked();
        for heard in &circuits {
            let members = [
                ("circuit", json!(heard.circuit.to_string())),
                ("packets", json!(heard.packets)),
                ("copies", json!(heard.copies)),
                ("bytes", json!(heard.bytes)),
                ("modulo8", json!(heard.modulo)),
                ("from", json!(heard.from)),
                ("to", json!(heard.to)),
            ];
            line(&mut self.out, &Members(&members))?;
        }
        let account = &survey.account;
        let totals = [
            ("bits", json!(survey.bits)),
            ("before", json!(account.before)),
            ("gaps", json!(account.gaps)),
            ("gap_bits", json!(account.free)),
            ("modulo8", json!(account.modulo())),
            ("circuits", json!(circuits.len())),
            ("system", json!(account.system)),
            ("spoilt", json!(account.spoilt)),
            ("malformed", json!(account.malformed)),
            ("untraced", json!(untraced(Unit::Bit, self.block))),
        ];
        line(&mut self.out, &Only("totals", Members(&totals)))
    }
}

/// A circuit under the table's columns.
fn row(heard: &HeardCircuit) -> String {
    let circuit = heard.circuit.to_string();
    format!(
        "{circuit:7} {:10} {:9} {:11} {:9} {:13} {:13}",
        heard.packets, heard.copies, heard.bytes, heard.modulo, heard.from, heard.to
    )
}
