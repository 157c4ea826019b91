//! The framing alone: a channel's bits are read from body to body, and each packet is taken.

use crate::race::{turns, Race};
use crate::reads::Channel;
use crate::sides::{Fast, Framing, FramingAnswer, FramingSide, Library, Part, Plain};
use aes18::LONGEST_PACKET;

/// What reading leaves.
#[derive(Default, PartialEq)]
pub struct Scanned {
    answers: Vec<FramingAnswer>,
    packets: Vec<u8>,
}

/// Reads the channel up to its end.
pub fn scan<S: FramingSide>(channel: &Channel, scanned: &mut Scanned) -> Result<(), u32> {
    let mut framing = S::Framing::default();
    let mut packet = [0; LONGEST_PACKET];
    let mut part = Part {
        from: 0,
        to: channel.bits,
    };
    scanned.answers.clear();
    scanned.packets.clear();
    loop {
        let answer = framing.read(&channel.bytes, part, &mut packet)?;
        part.from += answer.bits();
        scanned.answers.push(answer);
        let taken = &packet[..answer.packet()];
        scanned.packets.extend_from_slice(taken);
        if answer.is_end() {
            return Ok(());
        }
    }
}

/// The races of the framing, over the channels of the races of reading.
pub fn races<L>(reading: &[Race<Channel, L>; 4]) -> [Race<Channel, Scanned, 3>; 4] {
    reading.each_ref().map(|race| {
        let turns = turns!(scan: Library, Plain, Fast);
        Race::new(race.name, race.case.clone(), race.count, turns)
    })
}
