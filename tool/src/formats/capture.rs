//! A capture's words, and the user bits in those of a channel.

use std::mem;

use super::subframe::{Subframe, WORD};
use super::Channel;

/// The words of a capture, out of its bytes as they come.
pub struct Words {
    /// Bytes not yet taken, behind those that are.
    bytes: Vec<u8>,
    taken: usize,
    /// The channel of the word before; before the first word the right one, so that a word without a preamble is a left one.
    last: Channel,
}

impl Default for Words {
    fn default() -> Words {
        Words {
            bytes: Vec::new(),
            taken: 0,
            last: Channel::Right,
        }
    }
}

impl Words {
    /// The next bytes of the capture.
    pub fn add(&mut self, bytes: &[u8]) {
        self.bytes.drain(..mem::take(&mut self.taken));
        self.bytes.extend_from_slice(bytes);
    }

    /// How many bytes are there of a word that is not whole, when all others are taken.
    pub fn part(&self) -> usize {
        self.bytes.len() - self.taken
    }
}

/// The words that are whole. A word is of the channel that its preamble names, and without one of the other channel than the word before it.
impl Iterator for Words {
    type Item = (Channel, Subframe);

    fn next(&mut self) -> Option<(Channel, Subframe)> {
        let word = self.bytes[self.taken..].first_chunk::<WORD>()?;
        let word = Subframe::from_bytes(*word);
        self.taken += WORD;
        self.last = word.channel().unwrap_or(self.last.other());
        Some((self.last, word))
    }
}

/// The user bits of a channel, taken out of a capture's words.
pub struct Extraction {
    channel: Channel,
    words: Words,
    /// The user bits in whole bytes, first bit lowest.
    bytes: Vec<u8>,
    /// The bits behind them, from the lowest place on, and how many they are.
    held: u8,
    count: u32,
    /// Whether there was a word of the channel.
    found: bool,
}

impl Extraction {
    pub fn new(channel: Channel) -> Extraction {
        Extraction {
            channel,
            words: Words::default(),
            bytes: Vec::new(),
            held: 0,
            count: 0,
            found: false,
        }
    }

    /// Takes the next bytes of the capture. Answers how many bits there are now in whole bytes; up to seven are held back.
    pub fn read(&mut self, bytes: &[u8]) -> u64 {
        self.words.add(bytes);
        self.bytes.clear();
        for (channel, word) in self.words.by_ref() {
            if channel == self.channel {
                self.found = true;
                self.held |= u8::from(word.user()) << self.count;
                self.count += 1;
                if self.count == u8::BITS {
                    self.bytes.push(mem::take(&mut self.held));
                    self.count = 0;
                }
            }
        }
        8 * self.bytes.len() as u64
    }

    /// Ends the capture. Answers how many bits were held back, which are there now, spare bits 0.
    pub fn end(&mut self) -> u64 {
        self.bytes.clear();
        self.bytes.push(mem::take(&mut self.held));
        mem::take(&mut self.count).into()
    }

    /// The bytes of the bits that are there now.
    pub fn bytes(&self) -> &[u8] {
        &self.bytes
    }

    /// Whether there was a word of the channel so far.
    pub fn found(&self) -> bool {
        self.found
    }

    /// How many bytes are there of a word that is not whole.
    pub fn part(&self) -> usize {
        self.words.part()
    }
}

#[cfg(test)]
mod tests {
    use super::*;

    /// The bytes of words, each a preamble and a user bit.
    fn capture(words: &[(u8, u8)]) -> Vec<u8> {
        let word = |(preamble, user): &(u8, u8)| [*preamble, 0x55, 0xAA, user << 5];
        words.iter().flat_map(word).collect()
    }

    /// The user bits of a channel as text, from a capture in parts; a space is between those of whole bytes and those at the end.
    fn bits(channel: Channel, parts: &[&[u8]]) -> String {
        let mut extraction = Extraction::new(channel);
        let mut text = String::new();
        for part in parts {
            let count = extraction.read(part);
            text += &digits(extraction.bytes(), count);
        }
        let count = extraction.end();
        assert_eq!(u32::from(extraction.bytes()[0]) >> count, 0, "spare bits");
        text + " " + &digits(extraction.bytes(), count)
    }

    fn digits(bytes: &[u8], count: u64) -> String {
        let digit = |number| char::from(b'0' + (bytes[number as usize / 8] >> (number % 8) & 1));
        (0..count).map(digit).collect()
    }

    /// Words of both channels: ten of each, the left ones with the user bits 1011 0010 01.
    const LEFT: [u8; 10] = [1, 0, 1, 1, 0, 0, 1, 0, 0, 1];
    const RIGHT: [u8; 10] = [0, 1, 1, 0, 0, 0, 0, 1, 1, 1];

    fn both(preambles: [u8; 2]) -> Vec<(u8, u8)> {
        let frames = LEFT.into_iter().zip(RIGHT);
        frames
            .flat_map(|(left, right)| [(preambles[0], left), (preambles[1], right)])
            .collect()
    }

    #[test]
    fn channels_in_turn() {
        for preambles in [[0x2, 0x4], [0x8, 0x4], [0, 0], [3, 5], [0x2, 0], [0, 0x4]] {
            let capture = capture(&both(preambles));
            assert_eq!(bits(Channel::Left, &[&capture]), "10110010 01");
            assert_eq!(bits(Channel::Right, &[&capture]), "01100001 11");
        }
    }

    /// The preamble counts for more than the place.
    #[test]
    fn a_right_word_first() {
        let words = both([0x2, 0x4]);
        let capture = capture(&words[1..]);
        assert_eq!(bits(Channel::Left, &[&capture]), "01100100 1");
        assert_eq!(bits(Channel::Right, &[&capture]), "01100001 11");
    }

    /// A word that is missing shifts the words without a preamble up to the next one with it.
    #[test]
    fn words_without_preambles_follow_those_with_one() {
        let words = [(4, 1), (0, 1), (0, 0), (0, 1), (4, 1), (2, 0), (2, 1)];
        let capture = capture(&words);
        assert_eq!(bits(Channel::Right, &[&capture]), " 101");
        assert_eq!(bits(Channel::Left, &[&capture]), " 1101");
    }

    #[test]
    fn cut_at_every_byte() {
        let capture = capture(&both([0, 4]));
        for cut in 0..=capture.len() {
            let (first, second) = capture.split_at(cut);
            assert_eq!(bits(Channel::Left, &[first, second]), "10110010 01");
        }
        let bytes: Vec<&[u8]> = capture.chunks(1).collect();
        assert_eq!(bits(Channel::Right, &bytes), "01100001 11");
    }

    /// Every number of bits at the end.
    #[test]
    fn bits_at_the_end() {
        for count in 0..10 {
            let words = both([0x2, 0x4]);
            let capture = capture(&words[..2 * count]);
            let text = bits(Channel::Left, &[&capture]).replace(' ', "");
            assert_eq!(text, "1011001001"[..count]);
        }
    }

    #[test]
    fn words_that_are_not_whole() {
        let capture = capture(&[(2, 1), (4, 1)]);
        for length in 0..capture.len() {
            let mut extraction = Extraction::new(Channel::Left);
            extraction.read(&capture[..length]);
            assert_eq!(extraction.part(), length % 4);
            assert_eq!(extraction.end(), u64::from(length >= 4));
        }
    }

    /// No more than a part of a word is kept from the bytes before.
    #[test]
    fn little_is_kept() {
        let mut extraction = Extraction::new(Channel::Left);
        for _ in 0..100 {
            extraction.read(&[0x55; 1001]);
            assert!(extraction.words.bytes.len() <= 1001 + WORD);
            assert!(extraction.bytes.len() <= 1001 / 8 / WORD + 1);
        }
    }
}
