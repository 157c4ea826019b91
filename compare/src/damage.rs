//! Bits on the way from sender to receiver: each knows which of the joined bits it is, and stretches are replaced by other bits.

use crate::random::Random;
use std::ops::Range;

/// A bit that arrives.
#[derive(Clone, Copy, Debug, PartialEq, Eq)]
pub struct Bit {
    pub value: bool,
    /// Its number in the bits that were joined; none if it was put in.
    pub origin: Option<usize>,
}

/// The bits as they were joined.
pub fn joined(bits: &[bool]) -> Vec<Bit> {
    let number = |(number, &value): (usize, &bool)| Bit {
        value,
        origin: Some(number),
    };
    bits.iter().enumerate().map(number).collect()
}

pub fn values(bits: &[Bit]) -> Vec<bool> {
    bits.iter().map(|bit| bit.value).collect()
}

/// Replaces a stretch by bits that are put in.
fn replace(bits: &mut Vec<Bit>, stretch: Range<usize>, by: Vec<bool>) {
    let put = by.into_iter().map(|value| Bit {
        value,
        origin: None,
    });
    bits.splice(stretch, put);
}

/// A stretch of at most `longest` bits somewhere.
fn stretch(random: &mut Random, bits: &[Bit], longest: usize) -> Range<usize> {
    let start = random.below(bits.len() + 1);
    let length = random.below(longest + 1);
    start..(start + length).min(bits.len())
}

/// Damages the bits once: bits turned over, or a stretch of at most `longest` replaced by nothing, ones, zeros or noise of any length.
pub fn tear(random: &mut Random, bits: &mut Vec<Bit>, longest: usize) {
    let torn = stretch(random, bits, longest);
    let by = match random.below(8) {
        0..=1 => {
            let few = torn.start..torn.end.min(torn.start + 1 + random.below(3));
            let turned = values(&bits[few.clone()]).iter().map(|bit| !bit).collect();
            return replace(bits, few, turned);
        }
        2 => vec![],
        3 => vec![true; torn.len()],
        4 => vec![false; torn.len()],
        5 => random.bits(torn.len(), 4),
        6 => {
            let length = random.below(longest + 1);
            random.bits(length, 5)
        }
        _ => {
            let length = random.below(40);
            let empty = random.bits(length, 6);
            return replace(bits, torn.start..torn.start, empty);
        }
    };
    replace(bits, torn, by);
}

/// Drops one of the blocks that end at these places, or puts a second copy of its bits behind it.
pub fn drop_or_double(random: &mut Random, bits: &mut Vec<Bit>, ends: &[usize]) {
    let number = random.below(ends.len());
    let start = if number == 0 { 0 } else { ends[number - 1] };
    let block = start..ends[number];
    if random.once_in(2) {
        replace(bits, block, vec![]);
    } else {
        let again = values(&bits[block.clone()]);
        replace(bits, block.end..block.end, again);
    }
}
