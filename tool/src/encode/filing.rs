//! The user bits of the blocks, filed in the format that is asked for.

use super::insertion::Insertion;
use super::join::Join;
use crate::error::Error;
use crate::formats::{Channel, Formats, Subframe};
use crate::frames;

/// Where the bytes of the file go.
pub type Write<'a> = &'a mut dyn FnMut(&[u8]) -> Result<(), Error>;

/// A file of user bits being made.
pub enum Filing {
    /// Bits packed into bytes, the first in the lowest bit.
    Lowest(Join),
    /// Bits packed into bytes, the first in the highest bit.
    Highest(Join),
    /// Bits in the words of a channel, in a capture of silence, of which that many frames are made.
    Silence { channel: Channel, frames: u64 },
    /// Bits in the words of a channel, in a capture that is there.
    Into(Box<Insertion>),
}

impl Filing {
    /// A file without bits yet.
    pub fn new(formats: Formats) -> Filing {
        match formats {
            Formats::Bits => Filing::Lowest(Join::default()),
            Formats::BitsMsb => Filing::Highest(Join::default()),
            Formats::Iec958(channel) => Filing::Silence { channel, frames: 0 },
        }
    }

    /// Puts the `n` bits of a block behind those before. The spare bits of the block's last byte are 0.
    pub fn put(&mut self, block: &[u8], n: u64, write: Write<'_>) -> Result<(), Error> {
        match self {
            Filing::Lowest(join) => write(&join.put(block, n)),
            Filing::Highest(join) => write(&highest_first(join.put(block, n))),
            Filing::Silence { channel, frames } => {
                let first = *frames;
                *frames += n;
                let bit = |number| (first + number, frames::bit(block, number));
                let words = (0..n).flat_map(|number| frame(*channel, bit(number)));
                write(&words.collect::<Vec<u8>>())
            }
            Filing::Into(insertion) => insertion.put(block, n, write),
        }
    }

    /// Ends the file and answers what there is to tell of it.
    pub fn end(self, write: Write<'_>) -> Result<String, Error> {
        match self {
            Filing::Lowest(join) => write(join.end().as_slice())?,
            Filing::Highest(join) => write(&highest_first(join.end().into_iter().collect()))?,
            Filing::Silence { .. } => {}
            Filing::Into(insertion) => return insertion.end(write),
        }
        Ok(String::new())
    }
}

/// Bytes with the first bit in the highest place.
fn highest_first(bytes: Vec<u8>) -> Vec<u8> {
    bytes.into_iter().map(u8::reverse_bits).collect()
}

/// The two words of a frame of silence by its number, with the user bit of the channel.
fn frame(channel: Channel, (number, user): (u64, bool)) -> impl Iterator<Item = u8> {
    [Channel::Left, Channel::Right]
        .map(|here| {
            let word = Subframe::silence(here, number);
            word.with_user(user && here == channel).to_bytes()
        })
        .into_iter()
        .flatten()
}

#[cfg(test)]
mod tests {
    use super::*;

    /// The bytes of a file of two blocks: 3 bits 101, then 9 bits 110000011.
    fn file(formats: Formats) -> Vec<u8> {
        let mut filing = Filing::new(formats);
        let mut file = Vec::new();
        let mut write = |bytes: &[u8]| {
            file.extend_from_slice(bytes);
            Ok(())
        };
        filing.put(&[0b101], 3, &mut write).unwrap();
        filing.put(&[0b1000_0011, 1], 9, &mut write).unwrap();
        assert_eq!(filing.end(&mut write).unwrap(), "");
        file
    }

    #[test]
    fn packed_bits() {
        assert_eq!(file(Formats::Bits), [0b0001_1101, 0b1100]);
        assert_eq!(file(Formats::BitsMsb), [0b1011_1000, 0b0011_0000]);
    }

    #[test]
    fn words_of_silence() {
        let bits = [1, 0, 1, 1, 1, 0, 0, 0, 0, 0, 1, 1];
        for (channel, place) in [(Channel::Left, 0), (Channel::Right, 1)] {
            let file = file(Formats::Iec958(channel));
            assert_eq!(file.len(), 8 * bits.len());
            for (number, (frame, bit)) in file.chunks(8).zip(bits).enumerate() {
                let first = if number == 0 { 8 } else { 2 };
                let mut expected = [first, 0, 0, 0, 4, 0, 0, 0];
                expected[4 * place + 3] = 0xA0 * bit;
                assert_eq!(frame, expected, "{number}");
            }
        }
    }

    /// A block of 192 frames begins at every 192nd frame, also where a block of bits ends before it.
    #[test]
    fn blocks_of_frames() {
        let mut filing = Filing::new(Formats::Iec958(Channel::Right));
        let mut file = Vec::new();
        for n in [191, 1, 1, 400] {
            let mut write = |bytes: &[u8]| {
                file.extend_from_slice(bytes);
                Ok(())
            };
            filing.put(&[0; 50], n, &mut write).unwrap();
        }
        let preambles = file.chunks(8).map(|frame| (frame[0], frame[4]));
        let expected = (0..593).map(|frame| (if frame % 192 == 0 { 8 } else { 2 }, 4));
        assert!(preambles.eq(expected));
    }
}
