//! The framing alone: bits read up to the first body that passes or is spoilt, whatever its circuit. The bits that a framing stands for are written
//! down, those that are read go on behind them, and flags and bodies are looked for in the whole.

use crate::bits::bit_at;
use crate::hdlc::{bodies, judge, Judged, FLAG};
use crate::history::{History, FRAMING};

/// What a read answers.
#[derive(Clone, Debug, PartialEq, Eq)]
pub struct Read {
    /// What it stopped at: a packet or a spoilt body, or nothing at the end of the bits.
    pub body: Judged,
    /// How many bits were read: those up to the end of the flag behind the body, or all.
    pub bits: u64,
}

/// A framing, as the bits that it has read, as far back as they matter.
#[derive(Clone, Debug, Default, PartialEq, Eq)]
pub struct Framing {
    history: History,
}

impl Framing {
    /// The framing that the bytes tell, or refusal 14 where no bits leave it.
    pub fn resume(record: &[u8; FRAMING]) -> Result<Framing, u32> {
        let history = History::unpack(record).ok_or(14u32)?;
        Ok(Framing { history })
    }

    pub fn record(&self) -> [u8; FRAMING] {
        self.history.pack()
    }

    /// Reads the bits from `from` to before `to`, or gives refusal 15.
    pub fn read(&mut self, bits: &[u8], from: u64, to: u64) -> Result<Read, u32> {
        if from > to || to > 8 * bits.len() as u64 {
            return Err(15);
        }
        let before = self.history.bits().len();
        let mut whole = self.history.bits().to_vec();
        whole.extend((from..to).map(|at| bit_at(bits, at)));
        let (body, end) = first_body(&whole);
        for &bit in &whole[before..end] {
            self.history.read(bit);
        }
        Ok(Read {
            body,
            bits: (end - before) as u64,
        })
    }
}

/// The first body of the bits that passes or is spoilt, with the place behind its closing flag; nothing, with the place behind all bits, if there
/// is none.
fn first_body(bits: &[bool]) -> (Judged, usize) {
    let judged = bodies(bits)
        .into_iter()
        .map(|body| (judge(&bits[body.clone()]), body.end + FLAG.len()));
    let mut given = judged.filter(|(judged, _)| *judged != Judged::Nothing);
    given.next().unwrap_or((Judged::Nothing, bits.len()))
}
