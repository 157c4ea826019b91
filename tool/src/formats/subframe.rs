//! A word of a capture: a subframe of IEC 60958 in ALSA's format IEC958_SUBFRAME_LE, 32 bits with the lowest byte first.
//!
//! Bits 0 to 3 are the preamble, 4 to 27 audio, 28 validity, 29 the user bit, 30 channel status; bit 31 is the parity, by which the bits 4 to 31
//! have an even number of ones (alsa-lib 1.2.8, src/pcm/pcm_iec958.c: iec958_subframe and iec958_parity).

use super::Channel;

/// Bytes of a word.
pub const WORD: usize = 4;

/// ALSA's own numbers for the preambles Z or B, where a block of 192 frames begins, X or M, and Y or W (alsa-lib 1.2.8, src/pcm/pcm_iec958.c:
/// preamble_vals in _snd_pcm_iec958_open).
const PREAMBLE: u32 = 0xF;
const PREAMBLE_Z: u32 = 0x8;
const PREAMBLE_X: u32 = 0x2;
const PREAMBLE_Y: u32 = 0x4;
/// Frames of a block.
const BLOCK: u64 = 192;

const USER: u32 = 1 << 29;
const PARITY: u32 = 1 << 31;

#[derive(Clone, Copy, Debug, PartialEq, Eq)]
pub struct Subframe(u32);

impl Subframe {
    pub fn from_bytes(bytes: [u8; WORD]) -> Subframe {
        Subframe(u32::from_le_bytes(bytes))
    }

    pub fn to_bytes(self) -> [u8; WORD] {
        self.0.to_le_bytes()
    }

    /// The word of a channel in the frame of that number, without audio, channel status or user bit.
    pub fn silence(channel: Channel, frame: u64) -> Subframe {
        Subframe(match channel {
            Channel::Left if frame % BLOCK == 0 => PREAMBLE_Z,
            Channel::Left => PREAMBLE_X,
            Channel::Right => PREAMBLE_Y,
        })
    }

    /// The channel that the preamble names, if it is one of the three.
    pub fn channel(self) -> Option<Channel> {
        match self.0 & PREAMBLE {
            PREAMBLE_Z | PREAMBLE_X => Some(Channel::Left),
            PREAMBLE_Y => Some(Channel::Right),
            _ => None,
        }
    }

    /// The user bit.
    pub fn user(self) -> bool {
        self.0 & USER != 0
    }

    /// The word with this user bit and its parity right, and all else as it is.
    pub fn with_user(self, one: bool) -> Subframe {
        let user = if one { USER } else { 0 };
        let word = self.0 & !(USER | PARITY) | user;
        let odd = (word & !PREAMBLE).count_ones() % 2 == 1;
        Subframe(word | if odd { PARITY } else { 0 })
    }
}

#[cfg(test)]
mod tests {
    use super::*;

    #[test]
    fn channels_by_preamble() {
        for preamble in 0..16 {
            let channel = match preamble {
                0x8 | 0x2 => Some(Channel::Left),
                0x4 => Some(Channel::Right),
                _ => None,
            };
            for rest in [0, 0xFFFF_FFF0] {
                assert_eq!(Subframe(rest | preamble).channel(), channel, "{preamble}");
            }
        }
    }

    #[test]
    fn silent_frames() {
        let left = |frame| Subframe::silence(Channel::Left, frame).to_bytes();
        let z = [0, 192, 384, 192 << 40];
        assert_eq!(z.map(left), [[8, 0, 0, 0]; 4]);
        assert_eq!([1, 191, 193, 383].map(left), [[2, 0, 0, 0]; 4]);
        for frame in [0, 1, 192] {
            let right = Subframe::silence(Channel::Right, frame);
            assert_eq!(right.to_bytes(), [4, 0, 0, 0]);
        }
    }

    /// Nothing but the user bit and the parity changes, and the parity is even over bits 4 to 31, whatever it was before.
    #[test]
    fn a_user_bit_written() {
        let mut word: u32 = 0x1234_5678;
        for _ in 0..1000 {
            word = word.wrapping_mul(1_664_525).wrapping_add(1_013_904_223);
            for one in [false, true] {
                let written = Subframe(word).with_user(one);
                assert_eq!(written.user(), one);
                assert_eq!(written.0 & !0xA000_0000, word & !0xA000_0000);
                assert_eq!((written.0 >> 4).count_ones() % 2, 0, "{word:08X}");
            }
        }
    }

    #[test]
    fn words_by_hand() {
        let silent = Subframe::from_bytes([0x08, 0, 0, 0]);
        assert_eq!(silent.with_user(true).to_bytes(), [0x08, 0, 0, 0xA0]);
        assert_eq!(silent.with_user(false).to_bytes(), [0x08, 0, 0, 0]);
        let valid = Subframe::from_bytes([0xF4, 0xFF, 0xFF, 0xBF]);
        assert!(valid.user());
        assert_eq!(valid.with_user(true).to_bytes(), [0xF4, 0xFF, 0xFF, 0x3F]);
        assert_eq!(valid.with_user(false).to_bytes(), [0xF4, 0xFF, 0xFF, 0x9F]);
    }
}
