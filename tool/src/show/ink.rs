//! How each kind of stretch looks, in the terminal and as SVG.

use aes18::{Fate, Notice};

use crate::account::Heard;
use crate::extents::Kind;

/// What a place of the picture shows.
#[derive(Clone, Copy, Debug, PartialEq, Eq)]
pub enum Ink {
    /// Nothing: the place is not in the range shown.
    Blank,
    Idle,
    Flag,
    System,
    Elsewhere,
    /// A packet of the listed circuit of that number; whether it was of use, which it is not at Orphan and Wrong.
    Circuit {
        number: usize,
        used: bool,
    },
    Malformed,
    Void,
    /// The mark of packets lost before a frame, or of a loss known only modulo 8.
    Loss,
    Spoilt,
}

impl Ink {
    pub fn of(kind: Kind) -> Ink {
        match kind {
            Kind::Idle => Ink::Idle,
            Kind::Before { .. } | Kind::Void => Ink::Void,
            Kind::Flag => Ink::Flag,
            Kind::Body(Heard { notice, .. }) => Ink::of_notice(notice),
        }
    }

    fn of_notice(notice: Notice) -> Ink {
        match notice {
            Notice::Malformed => Ink::Malformed,
            Notice::System { .. } => Ink::System,
            Notice::Elsewhere => Ink::Elsewhere,
            Notice::Circuit { number, fate, .. } => Ink::Circuit {
                number,
                used: !matches!(fate, Fate::Orphan | Fate::Wrong),
            },
            Notice::Spoilt | Notice::End => Ink::Spoilt,
        }
    }

    /// Where several meet in one character, the highest is shown.
    pub fn importance(self) -> u8 {
        match self {
            Ink::Blank => 0,
            Ink::Idle => 1,
            Ink::Flag => 2,
            Ink::System | Ink::Elsewhere | Ink::Circuit { .. } => 3,
            Ink::Malformed => 4,
            Ink::Void => 5,
            Ink::Loss => 6,
            Ink::Spoilt => 7,
        }
    }

    /// The character of its first place.
    pub fn symbol(self) -> char {
        match self {
            Ink::Blank => ' ',
            Ink::Idle => '-',
            Ink::Flag => '.',
            Ink::System => 'S',
            Ink::Elsewhere => 'E',
            Ink::Circuit { number, .. } => char::from_digit(number as u32, 10).unwrap_or('?'),
            Ink::Malformed => 'M',
            Ink::Void => '~',
            Ink::Loss => '^',
            Ink::Spoilt => '!',
        }
    }

    /// The character of its further places.
    pub fn further(self) -> char {
        match self {
            Ink::Circuit { used: false, .. } => 'x',
            Ink::System | Ink::Elsewhere | Ink::Circuit { .. } | Ink::Malformed => '=',
            _ => self.symbol(),
        }
    }

    /// The numbers of its ANSI colours.
    pub fn colours(self) -> &'static str {
        match self {
            Ink::Blank => "0",
            Ink::Idle | Ink::Flag => "2",
            Ink::System => "30;46",
            Ink::Elsewhere => "30;47",
            Ink::Circuit { number: 0, .. } => "97;44",
            Ink::Circuit { number: 1, .. } => "30;43",
            Ink::Circuit { number: 2, .. } => "30;42",
            Ink::Circuit { .. } => "97;45",
            Ink::Void => "31",
            Ink::Loss => "1;31",
            Ink::Malformed | Ink::Spoilt => "1;97;41",
        }
    }

    /// Its class in the SVG's style sheet.
    fn class(self) -> &'static str {
        match self {
            Ink::Blank => "",
            Ink::Idle => "idle",
            Ink::Flag => "flag",
            Ink::System => "system",
            Ink::Elsewhere => "elsewhere",
            Ink::Circuit { number: 0, .. } => "c0",
            Ink::Circuit { number: 1, .. } => "c1",
            Ink::Circuit { number: 2, .. } => "c2",
            Ink::Circuit { .. } => "c3",
            Ink::Malformed => "malformed",
            Ink::Void => "void",
            Ink::Loss => "loss",
            Ink::Spoilt => "spoilt",
        }
    }

    /// The classes of a body's bar in the SVG.
    pub fn classes(self) -> String {
        match self {
            Ink::Circuit { used: false, .. } => format!("{} unused", self.class()),
            _ => self.class().to_string(),
        }
    }
}
