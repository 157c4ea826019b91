//! The command line of `aes18 show`.

use std::env;
use std::ffi::OsString;
use std::io::{self, IsTerminal};

use aes18::Circuit;

use super::layout::Layout;
use super::paint::Paint;
use super::words::PictureWords;
use crate::args::{self, Arg, Args, BLOCK};
use crate::circuits;
use crate::error::Error;
use crate::formats::{Choice, Formats};
use crate::output::{self, WIDTHS};
use crate::scan::Listening;

/// Bits of a row where no block is given.
const ROW: u64 = 1000;
/// When colours are wanted; none stands for a terminal.
const COLOURS: [(&str, Option<bool>); 3] = [
    ("always", Some(true)),
    ("never", Some(false)),
    ("auto", None),
];
/// The places that went wrong that are listed without `--all`.
const PLACES: usize = 40;

/// What the command line asks for.
pub struct Options {
    pub bits: OsString,
    pub formats: Formats,
    pub circuits: Vec<Circuit>,
    /// The circuits found in the file, where none are listed.
    pub listening: Option<Listening>,
    pub layout: Layout,
    pub svg: Option<OsString>,
    pub paint: Paint,
    pub width: usize,
    /// The most places that are listed.
    pub places: usize,
    pub strict: bool,
}

/// The arguments as they stand.
#[derive(Default)]
struct Given {
    bits: Option<OsString>,
    choice: Choice,
    circuits: Option<Vec<Circuit>>,
    block: Option<u64>,
    from: Option<u64>,
    to: Option<u64>,
    svg: Option<OsString>,
    colour: Option<bool>,
    width: Option<u64>,
    all: bool,
    strict: bool,
}

impl Options {
    /// What the words of the picture refer to.
    pub fn words(&self) -> PictureWords<'_> {
        PictureWords {
            circuits: &self.circuits,
            layout: &self.layout,
        }
    }

    /// Finds the circuits to listen to, where none are listed.
    pub fn listen(&mut self) -> Result<(), Error> {
        if self.circuits.is_empty() {
            let listening = Listening::in_bits(&self.bits, self.formats)?;
            self.circuits = listening.circuits();
            self.listening = Some(listening);
        }
        Ok(())
    }

    pub fn parse(mut arguments: Args) -> Result<Options, Error> {
        let mut given = Given::default();
        while let Some(argument) = arguments.next()? {
            match argument {
                Arg::Option(option) => given.option(&option, &mut arguments)?,
                Arg::Operand(operand) => args::keep_operand(&mut given.bits, operand)?,
            }
        }
        given.options()
    }
}

impl Given {
    fn option(&mut self, option: &str, arguments: &mut Args) -> Result<(), Error> {
        match option {
            _ if self.choice.option(option, arguments)? => {}
            "--circuits" => {
                let list = arguments.value("a list of circuits")?;
                self.circuits = Some(circuits::option(&list)?);
            }
            "--block" => self.block = Some(arguments.number(BLOCK)?),
            "--from" => self.from = Some(arguments.number(0..=u64::MAX)?),
            "--to" => self.to = Some(arguments.number(0..=u64::MAX)?),
            "--svg" => self.svg = Some(arguments.value("a file")?),
            "--color" => self.colour = arguments.choice(&COLOURS)?,
            "--width" => self.width = Some(arguments.number(WIDTHS)?),
            "--all" => self.all = true,
            "--strict" => self.strict = true,
            _ => return Err(args::unknown_option(option)),
        }
        Ok(())
    }

    fn options(self) -> Result<Options, Error> {
        let layout = Layout {
            row: self.block.unwrap_or(ROW),
            blocks: self.block.is_some(),
            from: self.from.unwrap_or(0),
            to: self.to.unwrap_or(u64::MAX),
        };
        if layout.from >= layout.to {
            return Err(Error::Usage("--from has to be below --to".to_string()));
        }
        let bits = args::needed(self.bits, "a file of user bits")?;
        if let Some(svg) = &self.svg {
            args::not_the_same(("--svg", svg), ("BITS", &bits))?;
        }
        Ok(Options {
            bits,
            formats: self.choice.finish()?,
            circuits: self.circuits.unwrap_or_default(),
            listening: None,
            layout,
            svg: self.svg,
            paint: Paint(self.colour.unwrap_or_else(auto_colour)),
            width: self.width.map_or_else(auto_width, |width| width as usize),
            places: if self.all { usize::MAX } else { PLACES },
            strict: self.strict,
        })
    }
}

/// Colours on a terminal, unless NO_COLOR is set.
fn auto_colour() -> bool {
    let unwanted = env::var_os("NO_COLOR").is_some_and(|value| !value.is_empty());
    !unwanted && io::stdout().is_terminal()
}

/// The terminal's width, as far as a picture may have it.
fn auto_width() -> usize {
    let (least, most) = (*WIDTHS.start() as usize, *WIDTHS.end() as usize);
    output::width().clamp(least, most)
}
