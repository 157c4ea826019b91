//! `aes18 show`: a pass as a picture.

mod ink;
mod layout;
pub mod options;
mod paint;
mod report;
mod svg;
mod tally;
mod terminal;
mod words;

use std::ffi::OsStr;
use std::io::{self, Write};

use crate::args::Args;
use crate::draft::Draft;
use crate::error::Error;
use crate::formats;
use crate::input::{Chunk, Content, Input};
use crate::output::{self, folded, say};
use crate::pass::Pass;
use crate::progress::Progress;
use layout::{Layout, Part};
use options::Options;
use svg::Svg;
use tally::Tally;
use terminal::Terminal;

pub const HELP: &str = "\
aes18 show: look at filed user bits as a picture, with what went wrong in them

Usage: aes18 show [OPTIONS] BITS

  BITS               the file of user bits, or - for the standard input
  --circuits LIST    one to four circuits, such as 01,02:07: address and
                     extension in hex, divided by commas or spaces; they are
                     numbered from 0, and number 0 takes long messages, those
                     above 4,094 bytes; without it those four with most packets
  --format FORMAT    bits: eight in a byte, the first in the lowest bit, as
                     without this option; bits-msb: the first in the highest
                     bit; iec958: a capture of ALSA's IEC958_SUBFRAME_LE words
  --channel CHANNEL  left or right, the channel of a capture; left without it
  --block N          a row for each block of N bits, 256 to 27000, where closing
                     ones end; without it rows of 1000 bits
  --from BIT         show the bits from this one on
  --to BIT           show the bits before this one
  --svg FILE         write the picture as SVG to FILE, or - for the standard
                     output
  --width COLUMNS    columns in the terminal, 40 to 1000; without it COLUMNS, or
                     else the terminal's, or else 80
  --color WHEN       always, never or auto: colours on a terminal, unless
                     NO_COLOR is set
  --all              list all places that went wrong, not just the first 40
  --strict           exit status 3 if anything that is shown is lost, spoilt,
                     malformed, orphaned, wrong, dropped, open at the end, known
                     only modulo 8, or in no frame
  -q, --quiet        say nothing but errors on the standard error
  -h, --help         print this help

Without --circuits a first reading scans the file as aes18 scan does. The four
circuits with most packets, copies not counted, are then listened to, of those
with as many those heard first, and numbered in this order. But one that sends
long messages, as the header 1F FF hex in a first packet of it says, is number 0
before all others; of several the one with most packets. Which are listened to,
by number, and which not, stands above the picture, or behind the name of FILE.
Where no packet of a circuit passes there is none in the figures. The standard
input, a pipe or a device is told as it comes, and needs --circuits. What is
lost, orphaned, wrong, dropped, open or known only modulo 8 is found at circuits
that are listened to, and of no others does --strict judge it.

A row begins with its block's number, or that of its first bit. Each character
behind it stands for as many bits as the first line says, and shows the most
important of what lies in them:
  !        a spoilt body
  ^        packets lost before the frame that begins here, or a loss that is
           known only modulo 8: how many, the line below says
  ~        bits in no frame: voided by seven ones, too few for one, or not
           between two flags
  M        a malformed packet
  0 to 3   a packet of the circuit of that number
  S        a system packet
  E        a packet of a circuit that is not listed
  .        a flag
  -        closing ones
Behind a packet's first character = shows how far it goes, or x where it is an
orphan or wrong. Rows that show no other frame than the row before them, and
look like it, are only counted.

Behind the picture stand the figures of each kind, those of the circuits and the
places that went wrong, with their bits, in the words of aes18 decode, whose
help says what they mean. A body's bits are those between its flags. The bits in
no frame are told as stretches, with the spoilt ones and the flags that border
nothing else. Those before the first flag are no place that went wrong, and let
pass by --strict, where a recording may begin with them: inside a frame, which
has 208 bits at most before the flag behind it and no seven ones in a row, or
inside closing ones, which are nothing but ones and, with --block N, fewer than
N. A message that is open at the end is one of the places.
Stuffed zeros are those that unstuffing drops in the frames that pass; bodies
that do not pass count for nothing, and a frame that is shown in part counts
whole. Where the bits of a plan came whole they are as many as aes18 encode
told.
Whole messages, their bytes, orphans and lost packets stop at
4,294,967,295, which stands for that many or more. Bits and blocks are numbered
from 0. With --from and --to the pass is still read from its first bit; figures
and places are of what is shown, and a place is told whole where a part of it
is. Up to seven zeros at the end, behind closing ones or a flag, are the last
byte's spare bits and are not shown.

No trace is left by bits that are missing altogether, by dropouts to flags and
by dropouts to ones behind a flag, with --block only up to its block's end.

With --svg the picture goes to FILE in place of the terminal; with - nothing but
the picture is written to the standard output. It says what a frame is, and how
many zeros are stuffed in it, when pointed at. A frame takes about 400 bytes in
it, so that --from and --to are of use in a long pass. FILE appears when it is
complete.

Where no frame passes in the whole file, a warning on the standard error says
how many do in other formats and channels. Where the standard error is a
terminal, and no picture goes to one, a bar shows how far a long reading has
come.
Exit status: 0; 1 for a file that cannot be read or written; 2 for wrong usage;
3 where --strict finds something, after all is told. With --strict a standard
output that is closed early does not end the reading.
";

/// Runs the subcommand.
pub fn run(args: Args) -> Result<(), Error> {
    let mut options = Options::parse(args)?;
    options.listen()?;
    match &options.svg {
        None => show_in_terminal(&options),
        Some(file) => write_svg(&options, file),
    }
}

fn show_in_terminal(options: &Options) -> Result<(), Error> {
    let failed = |error: io::Error| Error::stdout(&error);
    let mut input = Input::open(&options.bits, Content::Bits(options.formats))?;
    let mut out = output::stdout(input.length().is_none(), options.strict);
    write_listening(&mut out, options).map_err(failed)?;
    let mut picture = Terminal::new(out, &input, options);
    let progress = Progress::beside_output(input.length());
    let tally = draw(options, &mut input, progress, |part| {
        picture.part(part).map_err(failed)
    })?;
    picture.end().map_err(failed)?;
    report::write(&mut picture.out, options, &tally).map_err(failed)?;
    picture.out.flush().map_err(failed)?;
    input.end()?;
    judge(options, &input, &tally)
}

fn write_svg(options: &Options, file: &OsStr) -> Result<(), Error> {
    let mut input = Input::open(&options.bits, Content::Bits(options.formats))?;
    let draft = Draft::new(file)?;
    let name = draft.name();
    let failed = |error: io::Error| Error::file(&name, &error);
    let mut picture = Svg::new(draft, input.name(), options.words()).map_err(failed)?;
    let progress = Progress::alone(input.length());
    let tally = draw(options, &mut input, progress, |part| {
        picture.part(part).map_err(failed)
    })?;
    input.end()?;
    let start = picture.end(&tally).map_err(failed)?;
    let length = match picture.out.finish(&start) {
        // A standard output that is closed early is judged all the same.
        Err(Error::Closed) if options.strict => 0,
        finished => finished?,
    };
    match (file == "-", &options.listening) {
        (true, Some(listening)) => say(&folded(&listening.to_string())),
        (true, None) => {}
        (false, _) => report_svg(options, &tally, &name, length)?,
    }
    judge(options, &input, &tally)
}

/// What `--strict` says of what is shown.
fn judge(options: &Options, input: &Input, tally: &Tally) -> Result<(), Error> {
    match options.strict {
        true => Error::strict(input.name(), tally.account.faults()),
        false => Ok(()),
    }
}

/// Writes which circuits are listened to, where none are listed.
fn write_listening(out: &mut impl Write, options: &Options) -> io::Result<()> {
    match &options.listening {
        Some(listening) => writeln!(out, "{}", folded(&listening.to_string())),
        None => Ok(()),
    }
}

/// Says what was written to a file, with its figures and places.
fn report_svg(options: &Options, tally: &Tally, name: &str, length: u64) -> Result<(), Error> {
    let failed = |error: io::Error| Error::stdout(&error);
    let mut out = output::stdout(false, options.strict);
    writeln!(out, "{name}: {length} bytes").map_err(failed)?;
    write_listening(&mut out, options).map_err(failed)?;
    report::write(&mut out, options, tally).map_err(failed)?;
    out.flush().map_err(failed)
}

/// Reads the pass and hands over the parts to draw, row by row; answers the figures of what is shown.
fn draw(
    options: &Options,
    input: &mut Input,
    mut progress: Progress,
    draw: impl FnMut(&Part<'_>) -> Result<(), Error>,
) -> Result<Tally, Error> {
    let layout = &options.layout;
    let block = layout.blocks.then_some(layout.row);
    let mut drawing = Drawing {
        layout,
        pass: Pass::new(&options.circuits, block, options.formats.spare())?
            .with_each_flag()
            .with_every_packet(),
        tally: Tally::new(&options.circuits, options.places),
        draw,
    };
    while !drawing.ended() {
        match input.chunk()? {
            Some(chunk) => {
                progress.add(chunk.read);
                drawing.read(&chunk)?;
            }
            None => drawing.end()?,
        }
    }
    let Drawing { pass, tally, .. } = drawing;
    if pass.ended() && !pass.passed() {
        formats::warn_of_no_frame(&options.bits, input)?;
    }
    match tally.end == 0 && layout.from > 0 {
        true => Err(Error::Data(format!(
            "{}: ends before bit {}",
            input.name(),
            layout.from
        ))),
        false => Ok(tally),
    }
}

/// A pass being drawn.
struct Drawing<'a, D> {
    layout: &'a Layout,
    pass: Pass,
    tally: Tally,
    draw: D,
}

impl<D: FnMut(&Part<'_>) -> Result<(), Error>> Drawing<'_, D> {
    /// Reads the next chunk.
    fn read(&mut self, chunk: &Chunk<'_>) -> Result<(), Error> {
        let mut from = 0;
        while from < chunk.bits {
            from += self.pass.read(chunk.bytes, from, chunk.bits)?.bits;
            self.add()?;
        }
        Ok(())
    }

    /// Ends the pass. The messages that are open then are told where its end is shown.
    fn end(&mut self) -> Result<(), Error> {
        self.pass.end();
        self.add()?;
        if self.tally.end < self.layout.to {
            self.tally.account.unfinished = self.pass.unfinished();
        }
        Ok(())
    }

    /// Counts and draws what the last call of the pass told, as far as it is shown.
    fn add(&mut self) -> Result<(), Error> {
        let layout = self.layout;
        for stretch in self.pass.stretches() {
            let shown = layout.shown(stretch.from, stretch.to);
            if !shown.is_empty() {
                self.tally.add(stretch, &shown);
                layout
                    .parts(stretch)
                    .try_for_each(|part| (self.draw)(&part))?;
            }
        }
        for gap in self.pass.gaps() {
            let shown = layout.shown(gap.from, gap.to);
            if !shown.is_empty() {
                self.tally.add_gap(&gap, &shown);
            }
        }
        Ok(())
    }

    /// Whether all that is shown is told.
    fn ended(&self) -> bool {
        let to = self.layout.to;
        self.pass.ended() || self.tally.end >= to && !self.pass.is_open_before(to)
    }
}
