//! Records as any bytes: noise, records made by calls, and such records with bytes changed.

use crate::both::{Both, Compared};
use crate::inputs::{self, any_length, every_byte, mend_left};
use crate::random::Random;
use crate::stream::stream;
use aes18_reference::bits::bytes_of;
use aes18_reference::calls::{BlockCall, LongOfferCall, OfferCall, ReadCall};
use aes18_reference::calls::{BLOCK_ANSWER, READ_ANSWER};
use aes18_reference::packet::{packet_count, System};
use aes18_reference::receiver::Receiver;
use aes18_reference::records::{RECEIVER_RECORD, RECEIVER_SLOT, SENDER_RECORD, SENDER_SLOT, SLOTS};
use aes18_reference::sender::Sender;
use aes18_reference::{RECEIVER_STORE, SENDER_STORE};

/// Bytes of a record and a store that go together, with the record's circuit list.
pub struct Base {
    pub record: Vec<u8>,
    pub store: Vec<u8>,
    list: Vec<u8>,
}

/// A block call without a system packet.
fn plain(n: u64, u: u64) -> BlockCall<'static> {
    BlockCall {
        n,
        u,
        system: 0,
        enable: 0,
        code: 0,
        information: &[],
    }
}

/// A system packet of any enable bits, mostly none.
fn system(random: &mut Random) -> Option<System<'static>> {
    let enable = random.next() % 16;
    random.once_in(4).then_some(System {
        enable,
        code: 0,
        information: &[],
    })
}

/// A sender's, some messages waiting or half placed, and any enable bits in force.
pub fn sender(random: &mut Random) -> Base {
    let list = inputs::list(random);
    let mut sender = Sender::list(&list).expect("an accepted list");
    let mut store = random.bytes(SENDER_STORE);
    for circuit in 0..list.len() as u64 / 3 {
        let length = inputs::length(random);
        let message = inputs::message(random, length);
        let (priority, repetition) = (random.next() % 4, random.next() % 6);
        let offered = sender.offer(&mut store, circuit, priority, repetition, &message);
        offered.expect("nothing waits there");
        if random.once_in(2) {
            let u = 256 + random.next() % 600;
            let made = sender.block(&store, 900, u, system(random), &mut [0; 113]);
            made.expect("values in range");
        }
    }
    let record = sender.record().to_vec();
    Base {
        record,
        store,
        list,
    }
}

/// A receiver's, stopped anywhere in a stream.
fn receiver(random: &mut Random) -> Base {
    let list = inputs::list(random);
    let mut receiver = Receiver::list(&list).expect("an accepted list");
    let mut store = random.bytes(RECEIVER_STORE);
    let bits = stream(random, &inputs::circuits(&list));
    let (mut from, to) = (0, random.below(bits.len() + 1) as u64);
    let bytes = bytes_of(&bits);
    while from < to {
        let read = receiver.read(&mut store, &bytes, from, to);
        from += read.expect("values in range").bits;
    }
    let record = receiver.record().to_vec();
    Base {
        record,
        store,
        list,
    }
}

/// Offers and blocks with any record, any lengths and any numbers, a half of them beside a long buffer.
pub fn any_sender(both: &mut Both, random: &mut Random) -> Compared<()> {
    let base = sender(random);
    for _ in 0..8 {
        let mut store = any_length(random, &base.store);
        let long = inputs::buffer_beside(random);
        let length = random.pick(&[0, 5, 15, 16, 40, 4094, 4095]);
        let message = inputs::message(random, length);
        let call = OfferCall {
            circuit: random.argument(3),
            priority: random.argument(3),
            repetition: random.argument(5),
            message: &message,
        };
        let mut record = any_sender_record(random, &base.record);
        let lent = long.as_deref();
        both.offer(&mut record, &mut store, lent, call)?;
        let information = inputs::information(random);
        let call = inputs::block_call(random, &information);
        let mut block = inputs::buffer(random, call.n);
        let mut answer = any_length(random, &[0x5A; BLOCK_ANSWER]);
        let mut record = any_sender_record(random, &base.record);
        both.block(&mut record, &store, lent, call, &mut block, &mut answer)?;
        if let Some(mut long) = long {
            let mut record = any_sender_record(random, &base.record);
            let message = &message.repeat(1 + 4095 / message.len().max(1));
            let call = LongOfferCall {
                priority: random.argument(3),
                repetition: random.argument(5),
                message,
            };
            both.sender_offer_long(&mut record, &store, &mut long, call)?;
        }
    }
    Ok(())
}

/// Reads with any record, any lengths and any numbers, a half of them beside a long buffer.
pub fn any_receiver(both: &mut Both, random: &mut Random) -> Compared<()> {
    let base = receiver(random);
    for _ in 0..8 {
        let mut store = any_length(random, &base.store);
        let bits = bytes_of(&stream(random, &inputs::circuits(&base.list)));
        let end = 8 * bits.len() as u64;
        let call = ReadCall {
            bits: &bits,
            from: random.argument(end),
            to: random.pick(&[end, end, end, end - 1, end + 1, u64::MAX, 0]),
        };
        let mut answer = any_length(random, &[0x5A; READ_ANSWER]);
        let changed = changed(random, &base.record);
        let mut record = any_length(random, &changed);
        let mut long = inputs::buffer_beside(random);
        let lent = long.as_deref_mut();
        both.read(&mut record, &mut store, lent, call, &mut answer)?;
    }
    Ok(())
}

/// The record, or with some bytes changed, or noise; the packets still to go made right in half of them. Sometimes too short, or longer.
fn any_sender_record(random: &mut Random, record: &[u8]) -> Vec<u8> {
    let mut bytes = changed(random, record);
    if random.once_in(2) {
        mend_left(&mut bytes);
    }
    any_length(random, &bytes)
}

/// The record, or with some bytes changed, or noise.
fn changed(random: &mut Random, record: &[u8]) -> Vec<u8> {
    let mut bytes = record.to_vec();
    match random.below(8) {
        0 => bytes = random.bytes(record.len()),
        1..=4 => {
            for _ in 0..1 + random.below(3) {
                let at = random.below(bytes.len());
                bytes[at] =
                    random.pick(&[0, 1, 2, 3, 4, 5, 6, 7, 8, 15, 16, 17, 31, 168, 169, 255]);
            }
        }
        _ => {}
    }
    bytes
}

/// The record with this byte, and the same with the packets still to go made right.
fn with_byte(record: &[u8], at: usize, value: u8) -> [Vec<u8>; 2] {
    let mut changed = record.to_vec();
    changed[at] = value;
    let mut mended = changed.clone();
    mend_left(&mut mended);
    [changed, mended]
}

/// Every byte of a sender's record with all its 256 values, each also with the packets still to go made right.
pub fn every_sender_byte(both: &mut Both, random: &mut Random) -> Compared<()> {
    let base = sender(random);
    let bytes = every_byte(SENDER_RECORD);
    for mut record in bytes.flat_map(|(at, value)| with_byte(&base.record, at, value)) {
        let mut store = base.store.clone();
        let call = OfferCall {
            circuit: random.next() % 4,
            priority: 2,
            repetition: 1,
            message: b"a message of two packets",
        };
        both.sender_offer(&mut record, &mut store, call)?;
        both.sender_block(
            &mut record,
            &store,
            plain(900, 880),
            &mut [0x5A; 120],
            &mut [0x5A; BLOCK_ANSWER],
        )?;
    }
    Ok(())
}

/// Every byte of a receiver's record with all its 256 values.
pub fn every_receiver_byte(both: &mut Both, random: &mut Random) -> Compared<()> {
    let base = receiver(random);
    let mut bits = stream(random, &inputs::circuits(&base.list));
    bits.truncate(800);
    let call = ReadCall {
        bits: &bytes_of(&bits),
        from: 0,
        to: bits.len() as u64,
    };
    for (at, value) in every_byte(RECEIVER_RECORD) {
        let mut record = base.record.clone();
        record[at] = value;
        read_to_end(both, &mut record, &mut base.store.clone(), call)?;
    }
    Ok(())
}

/// Reads all of the call's bits, or as far as calls are accepted.
fn read_to_end(
    both: &mut Both,
    record: &mut [u8],
    store: &mut [u8],
    mut call: ReadCall<'_>,
) -> Compared<()> {
    let mut answer = [0; READ_ANSWER];
    while call.from < call.to && both.receiver_read(record, store, call, &mut answer)? == 0 {
        call.from += u64::from(answer[8]) + 256 * u64::from(answer[9]);
    }
    Ok(())
}

/// Numbers at the edges of lengths and places.
const EDGES: [u16; 15] = [
    0, 1, 2, 15, 16, 17, 30, 31, 255, 256, 257, 4093, 4094, 4095, 65_535,
];

/// Slots of a sender's record with lengths and places at the edges. The packets still to go are those that these tell, or the message's less the place
/// modulo 65,536, also where the place is past them.
pub fn sender_edges(both: &mut Both, random: &mut Random) -> Compared<()> {
    let base = sender(random);
    let slot = random.below(base.list.len() / 3);
    for (length, place) in EDGES
        .iter()
        .flat_map(|length| EDGES.map(|place| (*length, place)))
    {
        let mut record = base.record.clone();
        let at = SLOTS + SENDER_SLOT * slot + 4;
        put(&mut record, at, length, place);
        let less = (packet_count(length.into()) as u16).wrapping_sub(place);
        record[at + 4..at + 6].copy_from_slice(&less.to_le_bytes());
        let mut mended = record.clone();
        mend_left(&mut mended);
        let (block, answer) = (&mut [0x5A; 88], &mut [0x5A; BLOCK_ANSWER]);
        both.sender_block(&mut record, &base.store, plain(700, 700), block, answer)?;
        both.sender_block(&mut mended, &base.store, plain(700, 700), block, answer)?;
    }
    Ok(())
}

/// Slots of a receiver's record with lengths and places at the edges; what is read has packets of its circuits.
pub fn receiver_edges(both: &mut Both, random: &mut Random) -> Compared<()> {
    let base = receiver(random);
    let slot = random.below(base.list.len() / 3);
    let bits = bytes_of(&stream(random, &inputs::circuits(&base.list)));
    let call = ReadCall {
        bits: &bits,
        from: 0,
        to: (8 * bits.len() as u64).min(1000),
    };
    for (length, place) in EDGES
        .iter()
        .flat_map(|length| EDGES.map(|place| (*length, place)))
    {
        let mut record = base.record.clone();
        put(&mut record, SLOTS + RECEIVER_SLOT * slot + 2, length, place);
        read_to_end(both, &mut record, &mut base.store.clone(), call)?;
    }
    Ok(())
}

/// Puts a length and the place behind it into a record.
fn put(record: &mut [u8], at: usize, length: u16, place: u16) {
    record[at..at + 2].copy_from_slice(&length.to_le_bytes());
    record[at + 2..at + 4].copy_from_slice(&place.to_le_bytes());
}

/// Blocks in which the frames exactly fill the bits that may be used, or lack one, or leave one.
pub fn exact_fit(both: &mut Both, random: &mut Random) -> Compared<()> {
    let base = sender(random);
    let mut all = Sender::resume(&base.record, &base.store).expect("made by calls");
    let made = all.block(&base.store, 27_000, 27_000, None, &mut [0; 3375]);
    for frame in made.expect("values in range").frames.iter().take(12) {
        for u in (frame.bits.end as u64 - 1..)
            .take(3)
            .filter(|u| (256..=27_000).contains(u))
        {
            let n = (u + random.next() % 3).min(27_000);
            let mut block = vec![0x5A; n.div_ceil(8) as usize];
            both.sender_block(
                &mut base.record.clone(),
                &base.store,
                plain(n, u),
                &mut block,
                &mut [0; BLOCK_ANSWER],
            )?;
        }
    }
    Ok(())
}
