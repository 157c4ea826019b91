//! The functions of the C interface: a record is given as bytes, and the answer is 0, or the number of a refusal, or 255 where a record, an
//! answer or the place for a packet is too short. An end is built from the bytes, makes the call, and writes the bytes back.

use crate::framing::{self, Framing};
use crate::hdlc::Judged;
use crate::history::FRAMING;
use crate::line::{self, LINE_RECORD, LONGEST_PACKET};
use crate::packet::System;
use crate::receiver::{Fate, Notice, Read, Receiver};
use crate::records::{NO_RECEIVER, NO_SENDER, RECEIVER_RECORD, SENDER_RECORD};
use crate::sender::{Block, Sender};
use crate::totals::{Totals, TOTALS_RECORD};

/// Bytes of the answer of block making.
pub const BLOCK_ANSWER: usize = 12;
/// Bytes of the answer of reading.
pub const READ_ANSWER: usize = 16;
/// Bytes of the answer of a framing's read.
pub const FRAMING_ANSWER: usize = 16;
/// Bytes of the answer of writing to a line.
pub const LINE_WRITE_ANSWER: usize = 8;
/// Bytes of the answer of reading from a line.
pub const LINE_READ_ANSWER: usize = 16;
/// Answered where a record, an answer or the place for a packet is too short.
pub const TOO_SHORT: u32 = 255;

/// The interface's number of a result.
pub fn number<T>(result: &Result<T, u32>) -> u32 {
    result.as_ref().err().copied().unwrap_or(0)
}

/// The bytes that block making answers: frames placed, bits used and stuffed zeros.
pub fn block_answer(block: &Block) -> [u8; BLOCK_ANSWER] {
    let mut answer = [0; BLOCK_ANSWER];
    let numbers = [block.placed(), block.used, block.zeros()];
    for (bytes, number) in answer.chunks_mut(4).zip(numbers) {
        bytes.copy_from_slice(&(number as u32).to_le_bytes());
    }
    answer
}

/// The bytes that reading answers: notice, what goes with it, and bits read.
pub fn read_answer(read: &Read) -> [u8; READ_ANSWER] {
    let notice = match read.notice {
        Notice::End => [0, 0, 0, 0, 0, 0],
        Notice::Spoilt => [1, 0, 0, 0, 0, 0],
        Notice::Malformed => [2, 0, 0, 0, 0, 0],
        Notice::System {
            enable,
            code,
            length,
        } => [3, enable as u8, code as u8, length as u8, 0, 0],
        Notice::Elsewhere => [4, 0, 0, 0, 0, 0],
        Notice::Circuit { number, loss, fate } => {
            let (fate, length) = match fate {
                Fate::Copy => (0, 0),
                Fate::Begun => (1, 0),
                Fate::Held => (2, 0),
                Fate::Whole(length) => (3, length),
                Fate::Orphan => (4, 0),
                Fate::Wrong => (5, 0),
            };
            [
                5,
                number as u8,
                loss,
                fate,
                length as u8,
                (length >> 8) as u8,
            ]
        }
    };
    let mut answer = [0; READ_ANSWER];
    answer[..6].copy_from_slice(&notice);
    answer[8..].copy_from_slice(&read.bits.to_le_bytes());
    answer
}

/// The notice that reading answers by these bytes; none if no notice has the eight before the bits read.
pub fn answered_notice(answer: &[u8]) -> Option<Notice> {
    let circuit = |number: u8, loss, fate| Notice::Circuit {
        number: number.into(),
        loss,
        fate,
    };
    Some(match *answer {
        [0, 0, 0, 0, 0, 0, 0, 0, ..] => Notice::End,
        [1, 0, 0, 0, 0, 0, 0, 0, ..] => Notice::Spoilt,
        [2, 0, 0, 0, 0, 0, 0, 0, ..] => Notice::Malformed,
        [3, enable, code, length, 0, 0, 0, 0, ..] => Notice::System {
            enable: enable.into(),
            code: code.into(),
            length: length.into(),
        },
        [4, 0, 0, 0, 0, 0, 0, 0, ..] => Notice::Elsewhere,
        [5, number, loss, 0, 0, 0, 0, 0, ..] => circuit(number, loss, Fate::Copy),
        [5, number, loss, 1, 0, 0, 0, 0, ..] => circuit(number, loss, Fate::Begun),
        [5, number, loss, 2, 0, 0, 0, 0, ..] => circuit(number, loss, Fate::Held),
        [5, number, loss, 3, low, high, 0, 0, ..] => {
            let length = u16::from_le_bytes([low, high]);
            circuit(number, loss, Fate::Whole(length.into()))
        }
        [5, number, loss, 4, 0, 0, 0, 0, ..] => circuit(number, loss, Fate::Orphan),
        [5, number, loss, 5, 0, 0, 0, 0, ..] => circuit(number, loss, Fate::Wrong),
        _ => return None,
    })
}

pub fn sender_list(record: &mut [u8], list: &[u8]) -> u32 {
    if record.len() < SENDER_RECORD {
        return TOO_SHORT;
    }
    let listed = Sender::list(list);
    let bytes = listed.as_ref().map_or(NO_SENDER, Sender::record);
    record[..SENDER_RECORD].copy_from_slice(&bytes);
    number(&listed)
}

/// What an offering call is given beside record and store.
#[derive(Clone, Copy, Debug)]
pub struct OfferCall<'a> {
    pub circuit: u64,
    pub priority: u64,
    pub repetition: u64,
    pub message: &'a [u8],
}

pub fn sender_offer(record: &mut [u8], store: &mut [u8], call: OfferCall<'_>) -> u32 {
    offer(record, store, None, call)
}

/// With the long buffer, which stays as it is.
pub fn sender_offer_beside(
    record: &mut [u8],
    store: &mut [u8],
    long: &[u8],
    call: OfferCall<'_>,
) -> u32 {
    offer(record, store, Some(long), call)
}

fn offer(record: &mut [u8], store: &mut [u8], long: Option<&[u8]>, call: OfferCall<'_>) -> u32 {
    if record.len() < SENDER_RECORD {
        return TOO_SHORT;
    }
    let offered = Sender::resume_beside(record, store, long).and_then(|mut sender| {
        sender.offer_beside(
            store,
            long,
            call.circuit,
            call.priority,
            call.repetition,
            call.message,
        )?;
        record[..SENDER_RECORD].copy_from_slice(&sender.record());
        Ok(())
    });
    number(&offered)
}

/// What the call that offers a long message at circuit 0 is given beside record, store and long buffer.
#[derive(Clone, Copy, Debug)]
pub struct LongOfferCall<'a> {
    pub priority: u64,
    pub repetition: u64,
    pub message: &'a [u8],
}

pub fn sender_offer_long(
    record: &mut [u8],
    store: &[u8],
    long: &mut [u8],
    call: LongOfferCall<'_>,
) -> u32 {
    if record.len() < SENDER_RECORD {
        return TOO_SHORT;
    }
    let offered = Sender::resume_beside(record, store, Some(long)).and_then(|mut sender| {
        sender.offer_long(store, long, call.priority, call.repetition, call.message)?;
        record[..SENDER_RECORD].copy_from_slice(&sender.record());
        Ok(())
    });
    number(&offered)
}

/// What a block call is given beside record, store and buffers. `system` is 0 for none.
#[derive(Clone, Copy, Debug)]
pub struct BlockCall<'a> {
    pub n: u64,
    pub u: u64,
    pub system: u64,
    pub enable: u64,
    pub code: u64,
    pub information: &'a [u8],
}

impl<'a> BlockCall<'a> {
    /// The system packet that is wanted.
    pub fn wanted(&self) -> Option<System<'a>> {
        (self.system != 0).then_some(System {
            enable: self.enable,
            code: self.code,
            information: self.information,
        })
    }
}

pub fn sender_block(
    record: &mut [u8],
    store: &[u8],
    call: BlockCall<'_>,
    block: &mut [u8],
    answer: &mut [u8],
) -> u32 {
    make_block(record, store, None, call, block, answer)
}

/// With the long buffer.
pub fn sender_block_beside(
    record: &mut [u8],
    store: &[u8],
    long: &[u8],
    call: BlockCall<'_>,
    block: &mut [u8],
    answer: &mut [u8],
) -> u32 {
    make_block(record, store, Some(long), call, block, answer)
}

fn make_block(
    record: &mut [u8],
    store: &[u8],
    long: Option<&[u8]>,
    call: BlockCall<'_>,
    block: &mut [u8],
    answer: &mut [u8],
) -> u32 {
    if record.len() < SENDER_RECORD || answer.len() < BLOCK_ANSWER {
        return TOO_SHORT;
    }
    let made = Sender::resume_beside(record, store, long).and_then(|mut sender| {
        let made = sender.block_beside(store, long, call.n, call.u, call.wanted(), block)?;
        record[..SENDER_RECORD].copy_from_slice(&sender.record());
        answer[..BLOCK_ANSWER].copy_from_slice(&block_answer(&made));
        Ok(())
    });
    number(&made)
}

pub fn receiver_list(record: &mut [u8], list: &[u8]) -> u32 {
    if record.len() < RECEIVER_RECORD {
        return TOO_SHORT;
    }
    let listed = Receiver::list(list);
    let bytes = listed.as_ref().map_or(NO_RECEIVER, Receiver::record);
    record[..RECEIVER_RECORD].copy_from_slice(&bytes);
    number(&listed)
}

/// What a reading call is given beside record, store and answer.
#[derive(Clone, Copy, Debug)]
pub struct ReadCall<'a> {
    pub bits: &'a [u8],
    pub from: u64,
    pub to: u64,
}

pub fn receiver_read(
    record: &mut [u8],
    store: &mut [u8],
    call: ReadCall<'_>,
    answer: &mut [u8],
) -> u32 {
    read(record, store, None, call, answer)
}

/// With the long buffer, to which long messages go.
pub fn receiver_read_beside(
    record: &mut [u8],
    store: &mut [u8],
    long: &mut [u8],
    call: ReadCall<'_>,
    answer: &mut [u8],
) -> u32 {
    read(record, store, Some(long), call, answer)
}

fn read(
    record: &mut [u8],
    store: &mut [u8],
    long: Option<&mut [u8]>,
    call: ReadCall<'_>,
    answer: &mut [u8],
) -> u32 {
    if record.len() < RECEIVER_RECORD || answer.len() < READ_ANSWER {
        return TOO_SHORT;
    }
    let resumed = Receiver::resume_beside(record, store, long.as_deref());
    let read = resumed.and_then(|mut receiver| {
        let read = receiver.read_beside(store, long, call.bits, call.from, call.to)?;
        record[..RECEIVER_RECORD].copy_from_slice(&receiver.record());
        answer[..READ_ANSWER].copy_from_slice(&read_answer(&read));
        Ok(())
    });
    number(&read)
}

/// The bytes that a framing's read answers: what it stopped at, the packet's length, and bits read.
pub fn framing_answer(read: &framing::Read) -> [u8; FRAMING_ANSWER] {
    let mut answer = [0; FRAMING_ANSWER];
    match &read.body {
        Judged::Nothing => answer[0] = 0,
        Judged::Spoilt => answer[0] = 1,
        Judged::Packet(packet) => answer[..2].copy_from_slice(&[2, packet.len() as u8]),
    }
    answer[8..].copy_from_slice(&read.bits.to_le_bytes());
    answer
}

pub fn framing_read(
    record: &mut [u8],
    call: ReadCall<'_>,
    packet: &mut [u8],
    answer: &mut [u8],
) -> u32 {
    let room = packet.len() >= LONGEST_PACKET && answer.len() >= FRAMING_ANSWER;
    let Some(record) = record.first_chunk_mut::<FRAMING>().filter(|_| room) else {
        return TOO_SHORT;
    };
    let read = Framing::resume(record).and_then(|mut framing| {
        let read = framing.read(call.bits, call.from, call.to)?;
        *record = framing.record();
        answer[..FRAMING_ANSWER].copy_from_slice(&framing_answer(&read));
        if let Judged::Packet(found) = read.body {
            packet[..found.len()].copy_from_slice(&found);
        }
        Ok(())
    });
    number(&read)
}

pub fn totals_note(totals: &mut [u8], answer: &[u8]) -> u32 {
    if totals.len() < TOTALS_RECORD || answer.len() < READ_ANSWER {
        return TOO_SHORT;
    }
    let record = &mut totals[..TOTALS_RECORD];
    let mut sums = Totals::unpack(record);
    let noted: Vec<Notice> = answered_notice(answer).into_iter().collect();
    sums.add(&noted);
    record.copy_from_slice(&sums.record());
    0
}

/// The answer is how many bytes were written.
pub fn line_write(packet: &[u8], line: &mut [u8], answer: &mut [u8]) -> u32 {
    if answer.len() < LINE_WRITE_ANSWER {
        return TOO_SHORT;
    }
    let written = line::write(packet, line);
    if let Ok(bytes) = written {
        answer[..LINE_WRITE_ANSWER].copy_from_slice(&(bytes as u64).to_le_bytes());
    }
    number(&written)
}

/// The answer is the length of the packet, 0 for none, and how many bytes were read.
pub fn line_read(record: &mut [u8], line: &[u8], packet: &mut [u8], answer: &mut [u8]) -> u32 {
    let room = packet.len() >= LONGEST_PACKET && answer.len() >= LINE_READ_ANSWER;
    let Some(record) = record.first_chunk_mut::<LINE_RECORD>().filter(|_| room) else {
        return TOO_SHORT;
    };
    let read = line::read(record, line);
    let found = read.packet.unwrap_or_default();
    packet[..found.len()].copy_from_slice(&found);
    answer[..8].copy_from_slice(&(found.len() as u64).to_le_bytes());
    answer[8..LINE_READ_ANSWER].copy_from_slice(&(read.bytes as u64).to_le_bytes());
    0
}
