//! `aes18 encode`: the user bits that a plan asks for.

mod filing;
mod insertion;
mod join;
mod plan;
mod sending;
mod summary;
mod words;

use std::ffi::OsString;
use std::io::{self, Write};

use crate::args::{self, Arg, Args};
use crate::draft::Draft;
use crate::error::Error;
use crate::formats::{Choice, Formats};
use crate::output::say;
use filing::Filing;
use insertion::Insertion;
use plan::Plan;
use sending::send;
use summary::Summary;

pub const HELP: &str = r#"aes18 encode: make the user bits that a plan asks for

Usage: aes18 encode [--format FORMAT] [--channel CHANNEL] PLAN -o BITS
       aes18 encode --format iec958 [..] --into CAPTURE PLAN -o BITS

  PLAN                 the plan, a text file, or - for the standard input
  -o, --output BITS    the file of user bits to write, or - for the standard
                       output
  --format FORMAT      bits: eight in a byte, the first in the lowest bit, as
                       without this option; bits-msb: the first in the highest
                       bit; iec958: a capture, see below
  --channel CHANNEL    left or right, the channel of a capture; left without
                       this option
  --into CAPTURE       put the bits into a capture that is there
  -q, --quiet          say nothing but errors
  -h, --help           print this help

A plan has one line for each call of the sender, in their order. Empty lines and
what stands behind a # are skipped.

  circuits ADDR[:EXT] ..
        First and once: one to four circuits, address and extension in hex.
  offer CIRCUIT PRIORITY REPETITION MESSAGE
        Send a message at the circuit of that number; the first listed is 0.
        Priority 0 to 3, 3 the highest; repetition 0 to 5, the copies of each
        packet after its original. A message has at most 4,094 bytes, at circuit
        0 at most 65,535. One above 4,094 is a long message: a receiver needs a
        long buffer for it, as decode and show have, and has to list its circuit
        first.
  block N U [system ENABLE CODE [INFORMATION]]
        Make a block of N user bits of which U may be used, in front a system
        packet if one is asked for: enable bits 0 to 15, block code 0 to 8. The
        enable bits are the sum of 1, 2, 4 and 8 for the priorities 0 to 3 that
        are enabled. They rule this block and all later ones until another
        system packet; before the first all four are enabled. A message whose
        priority is not enabled waits, and its circuit takes no other.

MESSAGE and INFORMATION are hex digits in pairs, "text" with the escapes \" \\
\n \t \xHH, @file or @"file" with a name that starts at the plan's folder, or -
for no bytes. Numbers are decimal, or hex behind 0x.

  circuits 01 02:07
  offer 0 1 0 "charge 71%"
  offer 1 3 2 0FF07E
  block 600 590
  block 605 605 system 15 2 "sunlit"

BITS gets the user bits of all blocks, joined bit by bit; where they are packed
into bytes, up to seven 0 bits fill the last one. Where anything is wrong
nothing is written. What was made is told on the standard error: each block,
with its bits used, those before the closing ones, and how many of them are
stuffed zeros, with the enable bits in force where they are not 15, and how many
packets are still to go after it, at each circuit that has some; then the sums,
and the enable bits in force behind the last block. A packet is still to go
until its last copy is placed. A warning names each circuit that has such
packets at the end, and says whether they wait for a later block or for their
priority to be enabled. An offer at a circuit that has some is refused, and the
refusal says how many.

Stuffed zeros are what stuffing costs: the zeros that it adds behind five ones
in the frames of a block, those of system packets and of all copies among them.
In the sums they are also told in percent of the bits used.

A capture (iec958) is in ALSA's format IEC958_SUBFRAME_LE, without a header:
words of 32 bits, the lowest byte first, left and right in turn. In each are the
preamble (bits 0 to 3), audio (4 to 27), validity (28), the user bit (29),
channel status (30) and parity (31). BITS gets as many frames of silence as
there are user bits, with the bits in the words of the channel and 0 in the
others.

With --into the bits go into the channel's words from the first on, each with
its parity made right; everything else in CAPTURE, the other channel among it,
stays to the last bit. Which channel a word is of, its preamble says or, without
one, its place. A CAPTURE with fewer words than bits is refused; in one with
more the rest keeps its user bits. So a second run puts another plan into the
other channel. CAPTURE may be - for the standard input.
Exit status: 0; 1 for a refusal or a wrong plan; 2 for wrong usage.
"#;

/// The files that the command line names.
struct Request {
    plan: OsString,
    bits: OsString,
    formats: Formats,
    /// The capture that the bits go into.
    into: Option<OsString>,
}

/// Runs the subcommand.
pub fn run(args: Args) -> Result<(), Error> {
    let request = Request::parse(args)?;
    let plan = Plan::read(&request.plan)?;
    let filing = request.filing()?;
    let mut draft = Draft::new(&request.bits)?;
    let summary = write(&plan, filing, &mut draft)?;
    draft.finish(&[])?;
    say(&summary);
    Ok(())
}

impl Request {
    fn parse(mut args: Args) -> Result<Request, Error> {
        let mut plan = None;
        let mut bits = None;
        let mut into = None;
        let mut choice = Choice::default();
        while let Some(arg) = args.next()? {
            match arg {
                Arg::Option(name) if choice.option(&name, &mut args)? => {}
                Arg::Option(name) => match name.as_str() {
                    "-o" | "--output" => bits = Some(args.value("a file of user bits")?),
                    "--into" => into = Some(args.value("a capture")?),
                    _ => return Err(args::unknown_option(&name)),
                },
                Arg::Operand(path) => args::keep_operand(&mut plan, path)?,
            }
        }
        let plan = args::needed(plan, "a plan")?;
        let bits = args::needed(bits, "-o BITS")?;
        args::not_the_same(("BITS", &bits), ("PLAN", &plan))?;
        let request = Request {
            plan,
            bits,
            formats: choice.finish()?,
            into,
        };
        request.check_into()?;
        Ok(request)
    }

    /// The usage error where the capture that the bits go into does not fit the rest.
    fn check_into(&self) -> Result<(), Error> {
        let Some(capture) = &self.into else {
            return Ok(());
        };
        let Formats::Iec958(_) = self.formats else {
            return Err(args::expected("--format iec958 with --into"));
        };
        args::not_the_same(("BITS", &self.bits), ("CAPTURE", capture))?;
        match capture == "-" && self.plan == "-" {
            true => Err(args::expected("another input for CAPTURE than PLAN")),
            false => Ok(()),
        }
    }

    /// The file of bits, or the capture that they go into, opened.
    fn filing(&self) -> Result<Filing, Error> {
        match (&self.into, self.formats) {
            (Some(capture), Formats::Iec958(channel)) => {
                Insertion::open(capture, channel).map(|insertion| Filing::Into(Box::new(insertion)))
            }
            (_, formats) => Ok(Filing::new(formats)),
        }
    }
}

/// Files the joined bits of the plan's blocks and answers what there is to tell of them.
fn write(plan: &Plan, mut filing: Filing, draft: &mut Draft) -> Result<String, Error> {
    let name = draft.name();
    let failed = |error: io::Error| Error::file(&name, &error);
    let mut write = |bytes: &[u8]| draft.write_all(bytes).map_err(failed);
    let mut summary = Summary::default();
    let sending = send(plan, |made| {
        summary.block(plan, &made);
        filing.put(made.bytes, made.n, &mut write)
    })?;
    let rest = filing.end(&mut write)?;
    Ok(summary.end(plan, &sending) + &rest)
}
