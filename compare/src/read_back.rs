//! A block read back from its bits alone, and its answer held against that (02, ask 6): the zeros are those that unstuffing drops between its flags.

use crate::both::{differ, Compared};
use aes18_reference::bits::{bits_of, bytes_of};
use aes18_reference::calls::{BlockCall, BLOCK_ANSWER};
use aes18_reference::hdlc::{bodies, unstuff};

/// What stands between two flags.
pub struct Frame {
    pub body: Vec<bool>,
    /// Packet and FCS.
    pub bytes: Vec<u8>,
}

impl Frame {
    fn of(body: &[bool]) -> Frame {
        Frame {
            body: body.to_vec(),
            bytes: bytes_of(&unstuff(body)),
        }
    }

    /// The zeros that unstuffing dropped.
    pub fn zeros(&self) -> usize {
        self.body.len() - 8 * self.bytes.len()
    }

    /// The most that there may be: a fifth of the unstuffed bits, rounded down.
    pub fn most(&self) -> usize {
        8 * self.bytes.len() / 5
    }

    /// Whether it is a system packet's.
    pub fn is_system(&self) -> bool {
        self.bytes[0] == 0xFF
    }
}

/// Frames placed, bits used and stuffed zeros, as an answer's bytes tell.
fn told(answer: &[u8]) -> [usize; 3] {
    let number = |at: usize| {
        let four = answer[at..at + 4].iter().rev();
        four.fold(0, |number, &byte| number << 8 | usize::from(byte))
    };
    [0, 4, 8].map(number)
}

/// Reads an accepted block back: its frames, if the answer tells of these, and no frame has more zeros than it may.
pub fn hold(call: BlockCall<'_>, block: &[u8], answer: &[u8]) -> Compared<Vec<Frame>> {
    let bits = &bits_of(block)[..call.n as usize];
    let between = bodies(bits).into_iter();
    let frames: Vec<Frame> = between.map(|body| Frame::of(&bits[body])).collect();
    let read = [
        frames.iter().filter(|frame| !frame.is_system()).count(),
        bits.iter().rposition(|bit| !bit).map_or(0, |last| last + 1),
        frames.iter().map(Frame::zeros).sum(),
    ];
    let told = told(&answer[..BLOCK_ANSWER]);
    let given = || format!("{call:?}, its block read back");
    if told != read {
        let part = "frames placed, bits used and stuffed zeros";
        return differ(given(), part, format!("{told:?}"), format!("{read:?}"));
    }
    if let Some(frame) = frames.iter().find(|frame| frame.zeros() > frame.most()) {
        let (zeros, most) = (frame.zeros().to_string(), frame.most().to_string());
        return differ(given(), "the zeros of a frame", zeros, most);
    }
    Ok(frames)
}
