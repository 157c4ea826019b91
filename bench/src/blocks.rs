//! Block making: a sender is offered messages at four circuits and makes blocks of them.

use crate::noise::Noise;
use crate::race::{turns, Race};
use crate::sides::{Ask, BlockAnswer, Fast, Library, Offer, Plain, Reference, Sender, Side};
use aes18::{SystemPacket, LONGEST_MESSAGE, SENDER_STORE};

/// The refusal of an offer while an earlier message still has a copy to place.
const STILL_WAITING: u32 = 10;
/// Four circuits, one with an extension.
const CIRCUITS: [u8; 12] = [1, 0, 0, 2, 1, 7, 3, 0, 0, 4, 0, 0];
/// Enable bits, one after the other in force. The telemetry has priorities 3 and 1.
const ENABLED: [u64; 10] = [15, 8, 15, 2, 10, 0, 2, 7, 8, 15];

/// A circuit's messages, offered in order and then from the first again.
#[derive(Clone)]
struct Circuit {
    priority: u64,
    repetition: u64,
    messages: Vec<Vec<u8>>,
}

/// Before each block every circuit is offered its next message; one that is refused because the circuit is not done is offered again.
pub struct Traffic {
    circuits: Vec<Circuit>,
    /// The bits of a block.
    n: u64,
    /// The system packet of each block, where it has one.
    systems: Vec<Option<SystemPacket<'static>>>,
}

impl Traffic {
    /// Four seconds of user bits at 48 kHz, in 25 blocks a second with a system packet each. Short messages, some with copies.
    pub fn telemetry(noise: &mut Noise) -> Traffic {
        let circuits = [(3, 1, 8), (1, 0, 60), (1, 2, 24), (1, 0, 200)];
        let circuit = |(priority, repetition, length)| Circuit {
            priority,
            repetition,
            messages: (0..100).map(|_| noise.telemetry(length)).collect(),
        };
        let system = system(SystemPacket::ALL_ENABLED);
        Traffic {
            circuits: circuits.map(circuit).into(),
            n: 1920,
            systems: vec![Some(system); 100],
        }
    }

    /// The same with a system packet in every tenth block alone, whose enable bits hold over.
    fn changing(&self) -> Traffic {
        let at = |block: usize| (block % 10 == 0).then(|| system(ENABLED[block / 10]));
        Traffic {
            circuits: self.circuits.clone(),
            n: self.n,
            systems: (0..10 * ENABLED.len()).map(at).collect(),
        }
    }

    /// Messages that fill the store, in the longest blocks, two circuits with copies. `bytes` gives a message's bytes.
    fn full(mut bytes: impl FnMut(usize) -> Vec<u8>) -> Traffic {
        let circuit = |number: u64| Circuit {
            priority: 0,
            repetition: number / 2,
            messages: (0..4).map(|_| bytes(LONGEST_MESSAGE)).collect(),
        };
        Traffic {
            circuits: (0..4).map(circuit).collect(),
            n: 27_000,
            systems: vec![None; 8],
        }
    }

    /// Nothing is offered: each block holds a flag and ones.
    pub fn idle() -> Traffic {
        Traffic {
            circuits: vec![],
            n: 1920,
            systems: vec![None; 100],
        }
    }
}

/// A system packet as the telemetry has it.
fn system(enable: u64) -> SystemPacket<'static> {
    SystemPacket {
        enable,
        code: 4,
        information: b"25 fps",
    }
}

/// What block making leaves.
#[derive(PartialEq)]
pub struct Made {
    pub blocks: Vec<u8>,
    answers: Vec<BlockAnswer>,
    accepted: Vec<usize>,
    store: Vec<u8>,
}

impl Default for Made {
    fn default() -> Made {
        Made {
            blocks: vec![],
            answers: vec![],
            accepted: vec![],
            store: vec![0; SENDER_STORE],
        }
    }
}

/// Makes all blocks of the traffic.
pub fn make<S: Side>(traffic: &Traffic, made: &mut Made) -> Result<(), u32> {
    let mut sender = S::Sender::default();
    sender.list(&CIRCUITS)?;
    let block_length = traffic.n as usize / 8;
    made.blocks.resize(traffic.systems.len() * block_length, 0);
    made.answers.clear();
    made.accepted.clear();
    made.accepted.resize(traffic.circuits.len(), 0);
    let n = traffic.n;
    let blocks = made.blocks.chunks_exact_mut(block_length);
    for (block, &system) in blocks.zip(&traffic.systems) {
        offer_all(&mut sender, traffic, &mut made.store, &mut made.accepted)?;
        let answer = sender.block(&made.store, Ask { n, system }, block)?;
        made.answers.push(answer);
    }
    Ok(())
}

/// Offers the next message of every circuit. `accepted` counts those that were accepted.
fn offer_all(
    sender: &mut impl Sender,
    traffic: &Traffic,
    store: &mut [u8],
    accepted: &mut [usize],
) -> Result<(), u32> {
    for (number, (circuit, accepted)) in traffic.circuits.iter().zip(accepted).enumerate() {
        let offer = Offer {
            circuit: number as u64,
            priority: circuit.priority,
            repetition: circuit.repetition,
            message: &circuit.messages[*accepted % circuit.messages.len()],
        };
        match sender.offer(store, offer) {
            Ok(()) => *accepted += 1,
            Err(STILL_WAITING) => {}
            Err(number) => return Err(number),
        }
    }
    Ok(())
}

/// The races of block making.
pub fn races(noise: &mut Noise) -> [Race<Traffic, Made>; 4] {
    let race = |name, traffic: Traffic| {
        let bits = traffic.n * traffic.systems.len() as u64;
        let turns = turns!(make: Library, Plain, Fast, Reference);
        Race::new(name, traffic, bits, turns)
    };
    let telemetry = Traffic::telemetry(noise);
    let changing = telemetry.changing();
    [
        race("telemetry, copies, system packets", telemetry),
        race("telemetry, enable bits that change", changing),
        race(
            "messages of 4,094 bytes, random",
            Traffic::full(|length| noise.bytes(length)),
        ),
        race(
            "messages of 4,094 bytes, all ones",
            Traffic::full(|length| vec![0xFF; length]),
        ),
    ]
}
