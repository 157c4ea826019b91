//! The formats in which user bits are filed: packed into bytes, or in a channel of a capture, beside the audio.

mod capture;
mod elsewhere;
mod subframe;

use std::fmt::{self, Display, Formatter};

use crate::args::{self, Args};
use crate::error::Error;
pub use capture::{Extraction, Words};
pub use elsewhere::warn_of_no_frame;
pub use subframe::Subframe;

/// A format by its name.
#[derive(Clone, Copy, Debug, PartialEq, Eq)]
pub enum Format {
    /// Eight bits in a byte, the first in the lowest bit.
    Bits,
    /// Eight bits in a byte, the first in the highest bit.
    BitsMsb,
    /// A bit in each word of a channel, in a capture of ALSA's format IEC958_SUBFRAME_LE.
    Iec958,
}

/// A channel of a capture. The user bits of each are a channel of their own.
#[derive(Clone, Copy, Debug, PartialEq, Eq)]
pub enum Channel {
    Left,
    Right,
}

/// Where user bits are in a file: its format and, in a capture, the channel.
#[derive(Clone, Copy, Debug, PartialEq, Eq)]
pub enum Formats {
    Bits,
    BitsMsb,
    Iec958(Channel),
}

/// The words that the options take.
const FORMATS: [(&str, Format); 3] = [
    ("bits", Format::Bits),
    ("bits-msb", Format::BitsMsb),
    ("iec958", Format::Iec958),
];
const CHANNELS: [(&str, Channel); 2] = [("left", Channel::Left), ("right", Channel::Right)];

/// What the options `--format` and `--channel` say, so far as they were met.
#[derive(Default)]
pub struct Choice {
    format: Option<Format>,
    channel: Option<Channel>,
}

impl Choice {
    /// Takes one of the two options with its value, and answers whether it is one.
    pub fn option(&mut self, name: &str, args: &mut Args) -> Result<bool, Error> {
        match name {
            "--format" => self.format = Some(args.choice(&FORMATS)?),
            "--channel" => self.channel = Some(args.choice(&CHANNELS)?),
            _ => return Ok(false),
        }
        Ok(true)
    }

    /// The formats that were chosen. Without options they are bits, and a capture's channel is the left one.
    pub fn finish(self) -> Result<Formats, Error> {
        match (self.format, self.channel) {
            (Some(Format::Iec958), channel) => {
                Ok(Formats::Iec958(channel.unwrap_or(Channel::Left)))
            }
            (_, Some(_)) => Err(Error::Usage(
                "--channel goes with --format iec958 only".to_string(),
            )),
            (Some(Format::BitsMsb), None) => Ok(Formats::BitsMsb),
            (Some(Format::Bits) | None, None) => Ok(Formats::Bits),
        }
    }

    /// A usage error where one of the two options stands beside an option that has no use for it.
    pub fn refuse_with(self, option: &str) -> Result<(), Error> {
        let given = match (self.format, self.channel) {
            (None, None) => return Ok(()),
            (Some(_), _) => "--format",
            (None, Some(_)) => "--channel",
        };
        Err(args::not_with(given, option))
    }
}

impl Channel {
    /// The channel whose word follows in a capture.
    pub fn other(self) -> Channel {
        match self {
            Channel::Left => Channel::Right,
            Channel::Right => Channel::Left,
        }
    }
}

impl Formats {
    pub const ALL: [Formats; 4] = [
        Formats::Bits,
        Formats::BitsMsb,
        Formats::Iec958(Channel::Left),
        Formats::Iec958(Channel::Right),
    ];

    /// Whether the last byte may have spare bits, up to seven zeros: where bits are packed into bytes.
    pub fn spare(self) -> bool {
        !matches!(self, Formats::Iec958(_))
    }
}

impl Display for Channel {
    fn fmt(&self, f: &mut Formatter<'_>) -> fmt::Result {
        f.write_str(match self {
            Channel::Left => "left",
            Channel::Right => "right",
        })
    }
}

/// The options that choose these formats.
impl Display for Formats {
    fn fmt(&self, f: &mut Formatter<'_>) -> fmt::Result {
        match self {
            Formats::Bits => f.write_str("--format bits"),
            Formats::BitsMsb => f.write_str("--format bits-msb"),
            Formats::Iec958(channel) => write!(f, "--format iec958 --channel {channel}"),
        }
    }
}

#[cfg(test)]
mod tests {
    use std::ffi::OsString;

    use super::*;
    use crate::args::Arg;

    /// The choice that a command line makes, if it has no other arguments.
    fn chosen(line: &str) -> Result<Choice, Error> {
        let mut args = Args::new(line.split_whitespace().map(OsString::from).collect());
        let mut choice = Choice::default();
        while let Some(Arg::Option(name)) = args.next()? {
            assert!(choice.option(&name, &mut args)?, "{name}");
        }
        Ok(choice)
    }

    fn wrong(error: Error) -> String {
        match error {
            Error::Usage(message) => message,
            other => panic!("{other:?}"),
        }
    }

    #[test]
    fn every_choice() {
        for (line, formats) in [
            ("", Formats::Bits),
            ("--format bits", Formats::Bits),
            ("--format=bits-msb", Formats::BitsMsb),
            ("--format iec958", Formats::Iec958(Channel::Left)),
            (
                "--channel=right --format=iec958",
                Formats::Iec958(Channel::Right),
            ),
        ] {
            assert_eq!(chosen(line).unwrap().finish().unwrap(), formats, "{line}");
        }
        for formats in Formats::ALL {
            let told = chosen(&formats.to_string()).unwrap();
            assert_eq!(told.finish().unwrap(), formats);
        }
        let mut args = Args::new(vec![OsString::from("left")]);
        assert!(!Choice::default().option("--json", &mut args).unwrap());
        assert_eq!(args.value("an argument").unwrap(), "left");
    }

    #[test]
    fn wrong_choices() {
        for (line, message) in [
            ("--channel left", "--channel goes with --format iec958 only"),
            (
                "--format bits --channel left",
                "--channel goes with --format iec958 only",
            ),
            (
                "--format bits-msb --channel right",
                "--channel goes with --format iec958 only",
            ),
            (
                "--format wav",
                "--format: expected bits, bits-msb or iec958, not 'wav'",
            ),
            ("--channel 0", "--channel: expected left or right, not '0'"),
            (
                "--format",
                "the option --format needs bits, bits-msb or iec958",
            ),
            ("--channel", "the option --channel needs left or right"),
        ] {
            let choice = chosen(line).and_then(Choice::finish);
            assert_eq!(wrong(choice.unwrap_err()), message);
        }
    }

    #[test]
    fn beside_an_option_without_formats() {
        assert!(Choice::default().refuse_with("--line").is_ok());
        for (line, given) in [
            ("--format bits", "--format"),
            ("--channel left", "--channel"),
            ("--channel left --format iec958", "--format"),
        ] {
            let refused = chosen(line).unwrap().refuse_with("--line");
            let message = format!("{given} does not go with --line");
            assert_eq!(wrong(refused.unwrap_err()), message);
        }
    }

    #[test]
    fn spare_bits_are_those_of_packed_bytes() {
        let spare = Formats::ALL.map(Formats::spare);
        assert_eq!(spare, [true, true, false, false]);
    }
}
