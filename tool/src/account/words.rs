//! The names of notices, fates and stretches.

use std::fmt::{self, Display, Formatter};

use aes18::{Circuit, Fate, Notice};

use super::{Account, Heard, Unfinished, Unit};
use crate::enable::EnableBits;
use crate::gaps::Gap;
use crate::output::count;

/// The specification's name of a fate.
pub fn fate_name(fate: Fate) -> &'static str {
    match fate {
        Fate::Copy => "Copy",
        Fate::Begun => "Begun",
        Fate::Held => "Held",
        Fate::Whole(_) => "Whole",
        Fate::Orphan => "Orphan",
        Fate::Wrong => "Wrong",
    }
}

/// A notice in words, such as `02:07, loss 0, Whole, length 10`.
pub struct NoticeWords<'a> {
    pub heard: &'a Heard,
    /// The circuits listed.
    pub circuits: &'a [Circuit],
    pub unit: Unit,
}

impl Display for NoticeWords<'_> {
    fn fmt(&self, f: &mut Formatter<'_>) -> fmt::Result {
        match self.heard.notice {
            Notice::End => f.write_str("End"),
            Notice::Spoilt => f.write_str("Spoilt"),
            Notice::Malformed => f.write_str("Malformed"),
            Notice::System {
                enable,
                code,
                length,
            } => {
                let enable = EnableBits(enable);
                write!(
                    f,
                    "System, enable bits {enable}, code {code}, length {length}"
                )
            }
            Notice::Elsewhere => match self.heard.elsewhere {
                Some(circuit) => write!(f, "Elsewhere, {circuit}"),
                None => f.write_str("Elsewhere"),
            },
            Notice::Circuit { number, loss, fate } => {
                write!(f, "{}, loss {loss}", self.circuits[number])?;
                self.doubts(f)?;
                f.write_str(", ")?;
                f.write_str(fate_name(fate))?;
                match fate {
                    Fate::Whole(length) => write!(f, ", length {length}"),
                    _ => Ok(()),
                }
            }
        }
    }
}

impl NoticeWords<'_> {
    /// What is said of the loss.
    fn doubts(&self, f: &mut Formatter<'_>) -> fmt::Result {
        if let Some(free) = self.heard.doubt {
            let free = count(free, self.unit.name());
            write!(f, " modulo 8 ({free} in no frame)")?;
        }
        match self.heard.dropped {
            true => f.write_str(", message dropped"),
            false => Ok(()),
        }
    }
}

/// Where units `from..to` lie, such as `bits 5120 to 7167`.
pub fn place(unit: Unit, from: u64, to: u64) -> String {
    let (unit, last) = (unit.name(), to - 1);
    match from == last {
        true => format!("{unit} {from}"),
        false => format!("{unit}s {from} to {last}"),
    }
}

/// A stretch in no frame, such as `bits 5120 to 7167: in no frame, 2048 bits`.
pub fn gap_words(unit: Unit, gap: &Gap) -> String {
    let what = match gap.first {
        true => "before the first flag",
        false => "in no frame",
    };
    let length = count(gap.length(), unit.name());
    format!("{}: {what}, {length}", place(unit, gap.from, gap.to))
}

/// How much is in no frame; on a serial line also how much stands behind the last flag.
pub fn free_words(account: &Account, behind: Option<u64>) -> String {
    let free = count(account.free, account.unit.name());
    let gaps = match account.gaps {
        1 => "1 stretch".to_string(),
        gaps => format!("{gaps} stretches"),
    };
    let behind = behind.map_or(String::new(), |behind| {
        format!(", behind the last {behind}")
    });
    let before = account.before;
    format!("in no frame: {free} in {gaps}\nbefore the first flag {before}{behind}")
}

/// How many losses and copies are known only modulo 8.
pub fn modulo_words(places: u64) -> String {
    format!("known only modulo 8: {}", count(places, "place"))
}

/// A message that is open at the end. The length of a long one is not known before that.
pub fn unfinished_words(account: &Account, message: &Unfinished) -> String {
    let (circuit, unit) = (account.circuit(message.number), account.unit.name());
    let (received, length) = (message.open.received, message.open.length);
    let length = match message.open.is_long() {
        true => format!("at most {length}"),
        false => length.to_string(),
    };
    format!(
        "{circuit}: open at the end, {received} of {length} bytes, begun by the frame before {unit} {}",
        message.begun
    )
}

/// What leaves no trace, so that nothing is told of it.
pub fn untraced(unit: Unit, block: bool) -> [&'static str; 3] {
    let flags = "dropouts to flags";
    match (unit, block) {
        (Unit::Bit, true) => [
            "bits missing altogether",
            flags,
            "dropouts to ones behind a flag up to its block's end",
        ],
        (Unit::Bit, false) => [
            "bits missing altogether",
            flags,
            "dropouts to ones behind a flag",
        ],
        (Unit::Byte, _) => [
            "bytes missing altogether",
            flags,
            "what was in no frame in the bits that the line was written from",
        ],
    }
}

/// The same as text.
pub fn untraced_words(unit: Unit, block: bool) -> String {
    let [missing, flags, last] = untraced(unit, block);
    let and = match (unit, block) {
        (Unit::Bit, false) => "and,\nwithout --block, ",
        _ => "and\n",
    };
    format!("No trace is left by {missing}, {flags} {and}{last}.")
}
