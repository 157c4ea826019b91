//! A receiver from its listing on: streams of every kind in pieces of every size.

use crate::both::{Both, Compared};
use crate::ends::Reading;
use crate::inputs;
use crate::random::Random;
use crate::stream::stream;

pub fn run(both: &mut Both, random: &mut Random) -> Compared<()> {
    let list = inputs::list(random);
    let mut reading = Reading::list(both, random, &list)?;
    for _ in 0..4 {
        let bits = stream(random, &inputs::circuits(&list));
        let longest = random.pick(&[3, 40, 300, 5000]);
        reading.read_pieces(both, random, &bits, longest, &mut |_, _| {})?;
    }
    Ok(())
}

/// Noise alone, of one density of ones, in pieces.
pub fn noise(both: &mut Both, random: &mut Random) -> Compared<()> {
    let list = inputs::list(random);
    let mut reading = Reading::list(both, random, &list)?;
    let ones = random.below(9);
    let bits = random.bits(20_000, ones);
    reading.read_pieces(both, random, &bits, 2000, &mut |_, _| {})
}
