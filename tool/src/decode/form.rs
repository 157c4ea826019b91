//! The forms in which notices, stretches in no frame and counts are told.

use std::io;

use aes18::Circuit;

use crate::account::{Account, Heard, Unit};
use crate::gaps::Gap;
use crate::scan::Listening;

/// A notice with what belongs to it.
pub struct Told<'a> {
    pub unit: Unit,
    /// How many units were read when it was told: the number, from 0, of the first one behind the flag that closed the frame.
    pub place: u64,
    pub heard: &'a Heard,
    /// The circuits listed.
    pub circuits: &'a [Circuit],
    /// The message at Whole, the information at System.
    pub bytes: Option<&'a [u8]>,
    /// The file that the message was written to.
    pub file: Option<&'a str>,
}

/// What was read in all.
pub struct Sum<'a> {
    pub account: &'a Account,
    /// Units read.
    pub read: u64,
    /// What gave no packet on a serial line; none of user bits.
    pub rest: Option<Rest>,
    /// Whether the length of a block is known.
    pub block: bool,
}

/// What gave no packet on a serial line, beside what stands before the first flag.
#[derive(Clone, Copy, Debug, Default, PartialEq, Eq)]
pub struct Rest {
    /// How often bytes stood between two flags that gave no packet.
    pub dropped: u64,
    /// Bytes behind the last flag.
    pub behind: u64,
}

impl Sum<'_> {
    /// What damage is called, and how often it was met: user bits have spoilt frames, and of a serial line they are dropped without a notice.
    pub fn damaged(&self) -> (&'static str, u64) {
        match self.rest {
            None => ("Spoilt", self.account.spoilt),
            Some(rest) => ("Dropped frames", rest.dropped),
        }
    }
}

/// A form of telling.
pub trait Form {
    /// Tells which circuits are listened to, before all else.
    fn listening(&self, out: &mut Vec<u8>, listening: &Listening) -> io::Result<()>;

    /// Tells a notice.
    fn notice(&self, out: &mut Vec<u8>, told: &Told<'_>) -> io::Result<()>;

    /// Tells a stretch in no frame.
    fn gap(&self, out: &mut Vec<u8>, unit: Unit, gap: &Gap) -> io::Result<()>;

    /// Tells the counts, behind all else.
    fn sum(&self, out: &mut Vec<u8>, sum: &Sum<'_>) -> io::Result<()>;
}
