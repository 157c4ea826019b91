//! Reading: a receiver reads a channel's bits from notice to notice.

use crate::blocks::{make, Made, Traffic};
use crate::noise::Noise;
use crate::race::{turns, Race};
use crate::sides::{Fast, Library, Part, Plain, ReadAnswer, Receiver, Reference, Side};
use aes18::RECEIVER_STORE;
use aes18_reference::bits::{bits_of, bytes_of};

/// Three of the four circuits of the senders.
pub const CIRCUITS: [u8; 9] = [4, 0, 0, 1, 0, 0, 2, 1, 7];

/// User bits, as they come to a receiver.
#[derive(Clone)]
pub struct Channel {
    pub bytes: Vec<u8>,
    pub bits: u64,
}

impl Channel {
    pub fn of(bytes: Vec<u8>) -> Channel {
        let bits = 8 * bytes.len() as u64;
        Channel { bytes, bits }
    }

    /// The blocks of a traffic as they are sent.
    pub fn clean(traffic: &Traffic) -> Result<Channel, u32> {
        let mut made = Made::default();
        make::<Library>(traffic, &mut made)?;
        Ok(Channel::of(made.blocks))
    }

    /// The channel with stretches of 1 to 4,096 bits removed or turned over.
    pub fn torn(&self, noise: &mut Noise) -> Channel {
        let clean = bits_of(&self.bytes);
        let mut torn = vec![];
        let mut rest = &clean[..];
        while !rest.is_empty() {
            let (whole, behind) = rest.split_at(noise.below(4000).min(rest.len()));
            let (stretch, behind) = behind.split_at((1 << noise.below(13)).min(behind.len()));
            torn.extend_from_slice(whole);
            if noise.below(2) == 0 {
                torn.extend(stretch.iter().map(|bit| !bit));
            }
            rest = behind;
        }
        Channel {
            bytes: bytes_of(&torn),
            bits: torn.len() as u64,
        }
    }
}

/// What reading leaves.
#[derive(PartialEq)]
pub struct Heard {
    pub answers: Vec<ReadAnswer>,
    messages: Vec<u8>,
    store: Vec<u8>,
}

impl Default for Heard {
    fn default() -> Heard {
        Heard {
            answers: vec![],
            messages: vec![],
            store: vec![0; RECEIVER_STORE],
        }
    }
}

/// Reads the channel up to its end, and takes each message that comes whole out of the store.
pub fn hear<S: Side>(channel: &Channel, heard: &mut Heard) -> Result<(), u32> {
    let mut receiver = S::Receiver::default();
    receiver.list(&CIRCUITS)?;
    heard.answers.clear();
    heard.messages.clear();
    let mut part = Part {
        from: 0,
        to: channel.bits,
    };
    loop {
        let answer = receiver.read(&mut heard.store, &channel.bytes, part)?;
        part.from += answer.bits();
        heard.answers.push(answer);
        if let Some(message) = answer.whole() {
            heard.messages.extend_from_slice(&heard.store[message]);
        }
        if answer.is_end() {
            return Ok(());
        }
    }
}

/// The races of reading; `clean` is a telemetry channel.
pub fn races(clean: &Channel, noise: &mut Noise) -> Result<[Race<Channel, Heard>; 4], u32> {
    let race = |name, channel: Channel| {
        let bits = channel.bits;
        let turns = turns!(hear: Library, Plain, Fast, Reference);
        Race::new(name, channel, bits, turns)
    };
    Ok([
        race("telemetry, clean", clean.clone()),
        race("telemetry, torn", clean.torn(noise)),
        race("noise", Channel::of(noise.bytes(clean.bytes.len()))),
        race("idle: a flag and ones", Channel::clean(&Traffic::idle())?),
    ])
}
