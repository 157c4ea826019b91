//! Packets still to go (02, ask 5): records with fields that are right or wrong, of listed circuits and of others.

use super::records::sender;
use crate::both::{Both, Compared};
use crate::random::Random;
use aes18_reference::calls::{BlockCall, OfferCall, BLOCK_ANSWER};
use aes18_reference::packet::packet_count;
use aes18_reference::records::{SenderSlot, LAST_SERVED, SENDER_RECORD, SENDER_SLOT, SLOTS};
use aes18_reference::{LONGEST_MESSAGE, SENDER_STORE};

const LIST: [u8; 12] = [0x01, 0, 0, 0x7E, 1, 0xFF, 0x02, 0, 0, 0x1F, 1, 0];
/// Length and repetition of a message at each circuit.
const MESSAGES: [(usize, u64); 4] = [(0, 5), (LONGEST_MESSAGE, 0), (46, 5), (200, 1)];
/// The bits used by a row of blocks: in the first the messages go by a few frames, in the last to their end.
const USED: [u64; 12] = [
    256, 256, 300, 400, 500, 700, 256, 900, 1200, 27_000, 27_000, 27_000,
];

/// A block call without a system packet.
fn plain(u: u64) -> BlockCall<'static> {
    BlockCall {
        n: 27_000,
        u,
        system: 0,
        enable: 0,
        code: 0,
        information: &[],
    }
}

/// Every value that a field may be mistaken for, at each circuit number with each number of circuits listed, in records from a fresh one to one
/// with all messages placed.
pub fn all(both: &mut Both) -> Compared<()> {
    let (mut record, mut store) = ([0x5A; SENDER_RECORD], vec![0x5A; SENDER_STORE]);
    both.sender_list(&mut record, &LIST)?;
    every_field(both, &record, &store)?;
    for (circuit, (length, repetition)) in MESSAGES.into_iter().enumerate() {
        let call = OfferCall {
            circuit: circuit as u64,
            priority: 1,
            repetition,
            message: &vec![0x7E; length],
        };
        both.sender_offer(&mut record, &mut store, call)?;
    }
    every_field(both, &record, &store)?;
    for u in USED {
        let (block, answer) = (&mut [0; 3375], &mut [0; BLOCK_ANSWER]);
        both.sender_block(&mut record, &store, plain(u), block, answer)?;
        every_field(both, &record, &store)?;
    }
    Ok(())
}

/// The record with so many circuits listed, and each field with each value in turn.
fn every_field(both: &mut Both, record: &[u8; SENDER_RECORD], store: &[u8]) -> Compared<()> {
    let at_each = |circuits| (0..4).map(move |number| (circuits, SLOTS + SENDER_SLOT * number));
    for (circuits, at) in (0..=4).flat_map(at_each) {
        let slot = SenderSlot::unpack(&record[at..]);
        for left in values(&slot) {
            let mut given = *record;
            given[0] = circuits;
            put(&mut given[at..], left);
            calls(both, &given, store)?;
        }
    }
    Ok(())
}

/// The field's right value, and values that it may be mistaken for: one more, one less, the bytes swapped, another high byte, the copies to place, all
/// packets of the message, those placed, and a few numbers.
fn values(slot: &SenderSlot) -> [u16; 12] {
    let copies = slot.left * (usize::from(slot.repetition) + 1);
    let right = slot.left as u16;
    [
        right,
        right.wrapping_add(1),
        right.wrapping_sub(1),
        right.swap_bytes(),
        right ^ 256,
        copies.saturating_sub(slot.copy.into()) as u16,
        packet_count(slot.length) as u16,
        slot.place as u16,
        0,
        1,
        256,
        u16::MAX,
    ]
}

fn put(slot: &mut [u8], left: u16) {
    slot[8..10].copy_from_slice(&left.to_le_bytes());
}

/// An offer at each circuit number that the record may list, and a block.
fn calls(both: &mut Both, record: &[u8], store: &[u8]) -> Compared<()> {
    for circuit in 0..4 {
        let call = OfferCall {
            circuit,
            priority: 2,
            repetition: 1,
            message: b"a message of two packets",
        };
        both.sender_offer(&mut record.to_vec(), &mut store.to_vec(), call)?;
    }
    let (block, answer) = (&mut [0x5A; 3375], &mut [0x5A; BLOCK_ANSWER]);
    both.sender_block(&mut record.to_vec(), store, plain(900), block, answer)?;
    Ok(())
}

/// Records made by calls, of which fewer circuits may be listed then, with some fields changed.
pub fn any(both: &mut Both, random: &mut Random) -> Compared<()> {
    let base = sender(random);
    for _ in 0..8 {
        let mut record = base.record.clone();
        record[0] = random.below(usize::from(record[0]) + 1) as u8;
        for bytes in record[SLOTS..LAST_SERVED].chunks_mut(SENDER_SLOT) {
            if random.once_in(4) {
                put(bytes, random.pick(&values(&SenderSlot::unpack(bytes))));
            }
        }
        calls(both, &record, &base.store)?;
    }
    Ok(())
}
