//! Long messages: one of 65,535 bytes, beside messages of 4,094, in blocks that are made and read with a long buffer.

use crate::noise::Noise;
use crate::race::{turns, Race};
use crate::reads::Channel;
use crate::sides::{
    Ask, BlockAnswer, Library, LongReceiver, LongSender, LongSide, Offer, Part, Plain, ReadAnswer,
    Receiver, Sender,
};
use aes18::{LONGEST_LONG_MESSAGE, LONGEST_MESSAGE, LONG_BUFFER, RECEIVER_STORE, SENDER_STORE};

/// The one circuit of both ends.
const CIRCUIT: [u8; 3] = [1, 0, 0];
/// What each block is asked for, and its bytes.
const ASK: Ask<'_> = Ask {
    n: 22_400,
    system: None,
};
const BLOCK: usize = 2800;
/// The blocks of a turn. Two of them take a message of 4,094 random bytes, and all one of 65,535; about as many closing ones are left in both cases.
const BLOCKS: usize = 32;

/// Messages, each of which is placed before the next is offered, in an equal part of the blocks.
pub type Messages = Vec<Vec<u8>>;

/// What block making leaves.
#[derive(PartialEq)]
pub struct Made {
    blocks: Vec<u8>,
    answers: Vec<BlockAnswer>,
    store: Vec<u8>,
    buffer: Vec<u8>,
}

impl Default for Made {
    fn default() -> Made {
        Made {
            blocks: vec![0; BLOCKS * BLOCK],
            answers: vec![],
            store: vec![0; SENDER_STORE],
            buffer: vec![0; LONG_BUFFER],
        }
    }
}

/// Makes the blocks.
pub fn make<S: LongSide>(messages: &Messages, made: &mut Made) -> Result<(), u32> {
    let mut sender = S::Sender::default();
    sender.list(&CIRCUIT)?;
    made.answers.clear();
    let Made { store, buffer, .. } = made;
    let parts = made
        .blocks
        .chunks_exact_mut(BLOCKS / messages.len() * BLOCK);
    for (message, blocks) in messages.iter().zip(parts) {
        let offer = Offer {
            circuit: 0,
            priority: 0,
            repetition: 0,
            message,
        };
        match message.len() > LONGEST_MESSAGE {
            true => sender.offer_long(store, buffer, offer)?,
            false => sender.offer_beside(store, buffer, offer)?,
        }
        for block in blocks.chunks_exact_mut(BLOCK) {
            made.answers
                .push(sender.block_beside(store, buffer, ASK, block)?);
        }
    }
    Ok(())
}

/// What reading leaves.
#[derive(PartialEq)]
pub struct Heard {
    answers: Vec<ReadAnswer>,
    messages: Vec<u8>,
    store: Vec<u8>,
    buffer: Vec<u8>,
}

impl Default for Heard {
    fn default() -> Heard {
        Heard {
            answers: vec![],
            messages: vec![],
            store: vec![0; RECEIVER_STORE],
            buffer: vec![0; LONG_BUFFER],
        }
    }
}

/// Reads the channel up to its end, and takes each message that comes whole out of its place.
pub fn hear<S: LongSide>(channel: &Channel, heard: &mut Heard) -> Result<(), u32> {
    let mut receiver = S::Receiver::default();
    receiver.list(&CIRCUIT)?;
    heard.answers.clear();
    heard.messages.clear();
    let Heard { store, buffer, .. } = heard;
    let mut part = Part {
        from: 0,
        to: channel.bits,
    };
    loop {
        let answer = receiver.read_beside(store, buffer, &channel.bytes, part)?;
        part.from += answer.bits();
        heard.answers.push(answer);
        if let Some(message) = answer.whole() {
            let place = match message.len() > LONGEST_MESSAGE {
                true => &buffer[..],
                false => &store[..],
            };
            heard.messages.extend_from_slice(&place[message]);
        }
        if answer.is_end() {
            return Ok(());
        }
    }
}

/// The bits of all blocks.
const BITS: u64 = 8 * (BLOCKS * BLOCK) as u64;

/// The races of making: of short messages, and of the longest.
pub fn making(noise: &mut Noise) -> [Race<Messages, Made, 2>; 2] {
    let race = |name, messages| Race::new(name, messages, BITS, turns!(make: Library, Plain));
    let short = (0..16).map(|_| noise.bytes(LONGEST_MESSAGE)).collect();
    let long = vec![noise.bytes(LONGEST_LONG_MESSAGE)];
    [
        race("messages of 4,094 bytes", short),
        race("a message of 65,535 bytes", long),
    ]
}

/// The blocks of messages as they are sent.
fn channel(messages: &Messages) -> Result<Channel, u32> {
    let mut made = Made::default();
    make::<Library>(messages, &mut made)?;
    Ok(Channel::of(made.blocks))
}

/// The races of reading what is made in those.
pub fn reading(making: &[Race<Messages, Made, 2>; 2]) -> Result<[Race<Channel, Heard, 2>; 2], u32> {
    let race = |race: &Race<Messages, Made, 2>| {
        let turns = turns!(hear: Library, Plain);
        channel(&race.case).map(|channel| Race::new(race.name, channel, BITS, turns))
    };
    let [short, long] = making;
    Ok([race(short)?, race(long)?])
}
