//! Stuffed zeros (02, ask 6): messages and information of ones, messages of each byte, answers of each length, and blocks that end before a picked frame.

use crate::both::{Both, Compared};
use crate::ends::Sending;
use crate::inputs;
use crate::random::Random;
use aes18_reference::calls::{BlockCall, OfferCall, BLOCK_ANSWER};
use aes18_reference::records::SENDER_RECORD;
use aes18_reference::SENDER_STORE;

/// Addresses and an extension of many ones, and one of few.
const LIST: [u8; 12] = [0xFE, 0, 0, 0x1F, 1, 0xFF, 0x7E, 0, 0, 0x01, 0, 0];
/// A block call without a system packet.
const PLAIN: BlockCall = BlockCall {
    n: 1600,
    u: 1600,
    system: 0,
    enable: 15,
    code: 0,
    information: &[],
};

/// A sender's record and store.
#[derive(Clone)]
struct End {
    record: [u8; SENDER_RECORD],
    store: Vec<u8>,
}

impl End {
    fn fresh(both: &mut Both) -> Compared<End> {
        let mut end = End {
            record: [0x5A; SENDER_RECORD],
            store: vec![0x5A; SENDER_STORE],
        };
        both.sender_list(&mut end.record, &LIST)?;
        Ok(end)
    }

    /// Offers a message at each circuit.
    fn offer(&mut self, both: &mut Both, priority: u64, message: &[u8]) -> Compared<()> {
        for circuit in 0..4 {
            let call = OfferCall {
                circuit,
                priority,
                repetition: 0,
                message,
            };
            both.sender_offer(&mut self.record, &mut self.store, call)?;
        }
        Ok(())
    }

    /// Makes a block, or is refused, with an answer of so many bytes: these.
    fn block(&mut self, both: &mut Both, call: BlockCall<'_>, length: usize) -> Compared<Vec<u8>> {
        let (block, mut answer) = (&mut [0x5A; 200], vec![0x5A; length]);
        both.sender_block(&mut self.record, &self.store, call, block, &mut answer)?;
        Ok(answer)
    }

    /// Makes blocks until nothing is placed.
    fn place_all(&mut self, both: &mut Both, call: BlockCall<'_>) -> Compared<()> {
        while self.block(both, call, BLOCK_ANSWER)?[0] > 0 {}
        Ok(())
    }
}

pub fn all(both: &mut Both) -> Compared<()> {
    answers(both)?;
    systems(both)?;
    ones(both)?;
    bytes(both)
}

/// An answer of each length up to 20 bytes, in calls that are accepted otherwise and in one that is refused otherwise.
fn answers(both: &mut Both) -> Compared<()> {
    let mut end = End::fresh(both)?;
    end.offer(both, 2, &[0xFF; 40])?;
    let calls = [
        (1600, 256, 0),
        (1600, 1600, 0),
        (1600, 1600, 1),
        (255, 255, 0),
    ];
    for (length, (n, u, system)) in (0..=20).flat_map(|length| calls.map(|call| (length, call))) {
        let call = BlockCall {
            n,
            u,
            system,
            ..PLAIN
        };
        end.clone().block(both, call, length)?;
    }
    Ok(())
}

/// A system packet of each bits, code and length, its information ones, alone in a block.
fn systems(both: &mut Both) -> Compared<()> {
    let fresh = End::fresh(both)?;
    let of_bits = |enable| (0..=8).map(move |code| (enable, code));
    let of_code = |(enable, code)| (0..=15).map(move |length| (enable, code, length));
    for (enable, code, length) in (0..16).flat_map(of_bits).flat_map(of_code) {
        let call = BlockCall {
            system: 1,
            enable,
            code,
            information: &[0xFF; 15][..length],
            ..PLAIN
        };
        fresh.clone().block(both, call, BLOCK_ANSWER)?;
    }
    Ok(())
}

/// Messages of ones, of each length up to five packets and each priority; the index runs on from one to the next.
fn ones(both: &mut Both) -> Compared<()> {
    let mut end = End::fresh(both)?;
    for (length, priority) in (0..=78).flat_map(|length| (0..4).map(move |p| (length, p))) {
        end.offer(both, priority, &vec![0xFF; length])?;
        end.place_all(both, PLAIN)?;
    }
    Ok(())
}

/// A message of each byte, and behind each another one, with each priority; a system packet has the byte too.
fn bytes(both: &mut Both) -> Compared<()> {
    let mut end = End::fresh(both)?;
    for (byte, priority) in (0..=255).flat_map(|byte| (0..4).map(move |p| (byte, p))) {
        let call = BlockCall {
            system: 1,
            information: &[byte],
            ..PLAIN
        };
        end.offer(both, priority, &[byte])?;
        end.place_all(both, call)?;
        end.offer(both, priority, &[byte; 2])?;
        end.place_all(both, PLAIN)?;
    }
    Ok(())
}

/// A sender with messages that stuff much or little, some with copies, and blocks of few bits, so that many end before a picked frame.
pub fn any(both: &mut Both, random: &mut Random) -> Compared<()> {
    let list = inputs::list(random);
    let mut sending = Sending::list(both, random, &list)?;
    for _ in 0..40 {
        offer(both, random, &mut sending)?;
        block(both, random, &mut sending)?;
    }
    Ok(())
}

fn offer(both: &mut Both, random: &mut Random, sending: &mut Sending) -> Compared<()> {
    let length = random.below(50);
    let message = match random.below(3) {
        0 => vec![0; length],
        1 => vec![0xFF; length],
        _ => inputs::message(random, length),
    };
    sending.offer_anywhere(both, random, &message)
}

fn block(both: &mut Both, random: &mut Random, sending: &mut Sending) -> Compared<()> {
    let length = random.below(16);
    let information = inputs::message(random, length);
    let u = 256 + random.next() % 400;
    let call = BlockCall {
        n: u + random.next() % 100,
        u,
        system: u64::from(random.once_in(4)),
        code: random.next() % 9,
        information: &information,
        ..PLAIN
    };
    let made = sending.block(both, call, &mut [0x5A; 100])?;
    assert!(made.is_some(), "{call:?} is accepted");
    Ok(())
}
