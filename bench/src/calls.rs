//! Calls that do no work: what they take is the cost of a call itself, its record taken apart and checked.

use crate::race::{turns, Race};
use crate::reads::{Channel, CIRCUITS};
use crate::sides::{Ask, Fast, Library, Offer, Part, Plain, Receiver, Reference, Sender, Side};
use aes18::{RECEIVER_STORE, SENDER_STORE};
use std::hint::black_box;

/// The calls of a turn.
const COUNT: u64 = 20_000;

/// What the calls of a turn gave: how many were accepted, and the sum of the refusals' numbers.
#[derive(Default, PartialEq)]
pub struct Given {
    accepted: u64,
    refusals: u32,
}

impl Given {
    fn repeat<T>(&mut self, mut call: impl FnMut() -> Result<T, u32>) {
        *self = Given::default();
        for _ in 0..COUNT {
            match call() {
                Ok(_) => self.accepted += 1,
                Err(number) => self.refusals += number,
            }
        }
    }
}

/// Reads a part again and again, by a receiver that is inside a body.
fn read<S: Side>(channel: &Channel, part: Part, given: &mut Given) -> Result<(), u32> {
    let mut store = [0; RECEIVER_STORE];
    let mut receiver = S::Receiver::default();
    receiver.list(&CIRCUITS)?;
    let mut begun = Part { from: 0, to: 300 };
    while begun.from < begun.to {
        begun.from += receiver.read(&mut store, &channel.bytes, begun)?.bits();
    }
    given.repeat(|| receiver.read(&mut store, &channel.bytes, black_box(part)));
    Ok(())
}

fn read_nothing<S: Side>(channel: &Channel, given: &mut Given) -> Result<(), u32> {
    read::<S>(channel, Part { from: 300, to: 300 }, given)
}

fn read_refused<S: Side>(channel: &Channel, given: &mut Given) -> Result<(), u32> {
    read::<S>(channel, Part { from: 301, to: 300 }, given)
}

/// A sender with a message waiting at the first of its circuits.
fn sender<S: Side>(store: &mut [u8]) -> Result<S::Sender, u32> {
    let mut sender = S::Sender::default();
    sender.list(&CIRCUITS)?;
    let offer = Offer {
        circuit: 0,
        priority: 1,
        repetition: 1,
        message: &[0x55; 100],
    };
    sender.offer(store, offer)?;
    Ok(sender)
}

fn offer_refused<S: Side>(_: &Channel, given: &mut Given) -> Result<(), u32> {
    let mut store = [0; SENDER_STORE];
    let mut sender = sender::<S>(&mut store)?;
    let offer = Offer {
        circuit: 4,
        priority: 0,
        repetition: 0,
        message: &[],
    };
    given.repeat(|| sender.offer(&mut store, black_box(offer)));
    Ok(())
}

fn block_refused<S: Side>(_: &Channel, given: &mut Given) -> Result<(), u32> {
    let mut store = [0; SENDER_STORE];
    let mut sender = sender::<S>(&mut store)?;
    let ask = Ask { n: 0, system: None };
    given.repeat(|| sender.block(&store, black_box(ask), &mut []));
    Ok(())
}

/// The races of such calls; `channel` is a telemetry channel.
pub fn races(channel: &Channel) -> [Race<Channel, Given>; 4] {
    let race = |name, turns| Race::new(name, channel.clone(), COUNT, turns);
    [
        race(
            "read, no bits (from = to)",
            turns!(read_nothing: Library, Plain, Fast, Reference),
        ),
        race(
            "read, refused (from above to)",
            turns!(read_refused: Library, Plain, Fast, Reference),
        ),
        race(
            "offer, refused (no such circuit)",
            turns!(offer_refused: Library, Plain, Fast, Reference),
        ),
        race(
            "block, refused (N too small)",
            turns!(block_refused: Library, Plain, Fast, Reference),
        ),
    ]
}
