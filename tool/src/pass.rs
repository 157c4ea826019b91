//! A pass being read: notices, where the stretches lie, and what is in no frame.

use aes18::{Circuit, Notice, Packet};

use crate::account::{Heard, History, Unfinished, Unit};
use crate::error::Error;
use crate::extents::{Extents, Kind, Stretch};
use crate::frames::FLAG_BITS;
use crate::gaps::{Gap, Gaps};
use crate::listener::{Listened, Listener};

/// Bits of a reading call at most, so that the stretches of one do not take much memory.
const CALL_BITS: u64 = 1 << 15;

/// The listener, and what is known of the bits that it read.
pub struct Pass {
    listener: Listener,
    extents: Extents,
    gaps: Gaps,
    history: History,
    ended: bool,
}

/// What a reading call answers.
pub struct Told {
    /// How many bits it read; the next call goes on behind them.
    pub bits: u64,
    /// The notice that it stopped at, if there is one.
    pub heard: Option<Heard>,
    /// The packet: at Elsewhere, or at each frame that passes where every packet is told.
    pub packet: Option<Packet>,
}

impl Pass {
    /// Nothing read yet. With `block`, closing ones end where a block of so many bits does. With `spare`, the last byte may have spare bits.
    pub fn new(circuits: &[Circuit], block: Option<u64>, spare: bool) -> Result<Pass, Error> {
        Ok(Pass {
            listener: Listener::new(circuits)?,
            extents: Extents::new(block, spare),
            gaps: Gaps::default(),
            history: History::new(Unit::Bit.doubtful()),
            ended: false,
        })
    }

    /// The same with a stretch for each flag, where flags behind each other may be one.
    pub fn with_each_flag(mut self) -> Pass {
        self.extents.each_flag = true;
        self
    }

    /// The same with the packet told at each frame that passes, so that its stretch says how many zeros are stuffed.
    pub fn with_every_packet(mut self) -> Pass {
        self.listener = self.listener.with_every_packet();
        self
    }

    /// Reads the bits `from..to` of the bytes up to the first notice, or not all of them.
    pub fn read(&mut self, bytes: &[u8], from: u64, to: u64) -> Result<Told, Error> {
        let told = self.listener.read(bytes, from, to.min(from + CALL_BITS))?;
        let notice = Some(told.notice).filter(|notice| *notice != Notice::End);
        self.extents.known.clear();
        self.extents.follow(bytes, from, from + told.bits, notice);
        Ok(Told {
            bits: told.bits,
            heard: self.settle(&told),
            packet: told.packet,
        })
    }

    /// Ends the reading, when all bits are read.
    pub fn end(&mut self) {
        self.ended = true;
        self.extents.known.clear();
        self.extents.end();
        self.settle(&Listened::NOTHING);
        self.gaps.end();
    }

    /// Puts the stretches known by a call into frames or stretches in no frame; answers its notice, if there is one.
    fn settle(&mut self, told: &Listened) -> Option<Heard> {
        let mut last = None;
        for Stretch { from, to, kind } in &mut self.extents.known {
            match kind {
                Kind::Before { cut } => self.gaps.before(*from, *to, *cut),
                Kind::Void => self.gaps.add(*from, *to),
                Kind::Idle => self.gaps.bound(),
                Kind::Flag => self.gaps.flag(*from, *to),
                Kind::Body(heard) => {
                    match heard.notice {
                        Notice::Spoilt => self.gaps.add(*from, *to),
                        _ => self.gaps.bound(),
                    }
                    let behind = *to + FLAG_BITS;
                    let free = self.gaps.total();
                    *heard = self.history.hear(told, behind, free, &self.listener);
                    last = Some(*heard);
                }
            }
        }
        if self.extents.is_idle() {
            self.gaps.bound();
        }
        last
    }

    /// The stretches known by the last call.
    pub fn stretches(&self) -> &[Stretch] {
        &self.extents.known
    }

    /// The stretches in no frame known since this was asked last.
    pub fn gaps(&mut self) -> Vec<Gap> {
        self.gaps.take()
    }

    /// Whether a stretch in no frame that begins before this bit has not ended.
    pub fn is_open_before(&self, bit: u64) -> bool {
        self.gaps.open().is_some_and(|from| from < bit)
    }

    /// The message at Whole, or the information at System, of the last notice.
    pub fn bytes(&self, notice: &Notice) -> Option<&[u8]> {
        self.listener.bytes(notice)
    }

    /// How much stands in no frame, as far as it has ended.
    pub fn free(&self) -> u64 {
        self.gaps.total()
    }

    /// Whether a frame passed.
    pub fn passed(&self) -> bool {
        self.history.passed()
    }

    /// The messages that are open.
    pub fn unfinished(&self) -> Vec<Unfinished> {
        self.history.unfinished()
    }

    /// Whether the reading is ended.
    pub fn ended(&self) -> bool {
        self.ended
    }
}
