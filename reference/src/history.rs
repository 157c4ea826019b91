//! What a receiver or a framing remembers of the bits it has read: the bits themselves, as far back as they matter.

use crate::bits::{bits_of, bytes_of};
use crate::hdlc::{stuff, unstuff, FLAG};

/// Bytes of a record that tell the framing.
pub const FRAMING: usize = 24;
/// More bits than a body that passes can have, stuffed or not.
const MANY: usize = 256;

/// The bits since the last flag, that flag included. While no flag opens a body, the last 0 that a flag could start with and the ones
/// behind it; nothing in a fresh receiver and after seven ones, which void a body.
#[derive(Clone, Debug, Default, PartialEq, Eq)]
pub struct History {
    bits: Vec<bool>,
}

fn last_zero(bits: &[bool]) -> Option<usize> {
    bits.iter().rposition(|bit| !bit)
}

impl History {
    /// Reads a bit. If it ends the flag behind a body that is not void, this is the body.
    pub fn read(&mut self, bit: bool) -> Option<Vec<bool>> {
        self.bits.push(bit);
        if bit {
            if self.bits.ends_with(&[true; 7]) || self.bits == [true] {
                self.bits.clear();
            }
            return None;
        }
        if self.bits.ends_with(&FLAG) {
            let body = self.before_last_flag();
            self.bits.clear();
            self.bits.extend(FLAG);
            return body;
        }
        self.trim();
        None
    }

    /// The bits that it remembers.
    pub fn bits(&self) -> &[bool] {
        &self.bits
    }

    fn in_body(&self) -> bool {
        self.bits.starts_with(&FLAG)
    }

    /// The body between the first flag and the one that ends here; none if no flag came before or the two share their 0.
    fn before_last_flag(&self) -> Option<Vec<bool>> {
        let end = self.bits.len() - 8;
        (self.in_body() && end >= 8).then(|| self.bits[8..end].to_vec())
    }

    /// Forgets, at a 0 that ends no flag, what no later bit can make matter. Outside a body that is all before this 0. In a body that is already
    /// too long to pass it is a stretch from behind one 0 to the last 0 but one: that joins no ones that did not stand together.
    fn trim(&mut self) {
        let last = self.bits.len() - 1;
        if !self.in_body() {
            self.bits.drain(..last);
        } else if self.bits.len() > 4 * MANY {
            let early = MANY + self.bits[MANY..].iter().take_while(|bit| **bit).count();
            let last_but_one = last_zero(&self.bits[..last]).unwrap_or(early);
            self.bits.drain(early + 1..=last_but_one);
        }
    }

    /// The 24 bytes of a record that tell the framing: phase, ones behind the last 0, how many unstuffed bits of the body stand before
    /// that 0 (169 for more than 168), and those bits.
    pub fn pack(&self) -> [u8; FRAMING] {
        let mut framing = [0; FRAMING];
        let Some(zero) = last_zero(&self.bits) else {
            return framing;
        };
        framing[1] = (self.bits.len() - 1 - zero) as u8;
        if !self.in_body() {
            framing[0] = 1;
        } else if zero == 7 {
            framing[0] = 2;
        } else {
            let before = &self.bits[8..zero];
            framing[0] = if before.ends_with(&[true; 5]) { 4 } else { 3 };
            let kept = unstuff(before);
            framing[2] = kept.len().min(169) as u8;
            if kept.len() <= 168 {
                let bytes = bytes_of(&kept);
                framing[3..3 + bytes.len()].copy_from_slice(&bytes);
            }
        }
        framing
    }

    /// The history that the bytes tell: the bits that would leave them are written down and read from the start, and if they leave
    /// something else, no bits leave these bytes (refusal 14).
    pub fn unpack(framing: &[u8; FRAMING]) -> Option<History> {
        let [phase, ones, count, ..] = *framing;
        let kept = if count > 168 {
            [vec![false; 164], vec![phase == 4; 5]].concat()
        } else {
            bits_of(&framing[3..])[..usize::from(count)].to_vec()
        };
        let mut bits = match phase {
            0 => vec![],
            1 => vec![false],
            2 => FLAG.to_vec(),
            3 => [&FLAG[..], &stuff(&kept), &[false]].concat(),
            4 => [&FLAG[..], &stuff(&kept)].concat(),
            _ => return None,
        };
        bits.resize(bits.len() + usize::from(ones), true);
        let mut history = History::default();
        for bit in bits {
            history.read(bit);
        }
        (history.pack() == *framing).then_some(history)
    }
}
