//! Records whose slots tell of long messages (02, ask 7): lengths and places at the edges, at every circuit number, in calls that are given a buffer and
//! in others.

use crate::both::{Both, Compared};
use crate::inputs::{self, every_byte, mend_left};
use crate::random::Random;
use aes18_reference::bits::bytes_of;
use aes18_reference::calls::{BlockCall, LongOfferCall, OfferCall, ReadCall};
use aes18_reference::calls::{BLOCK_ANSWER, READ_ANSWER};
use aes18_reference::hdlc::{frame, FLAG};
use aes18_reference::packet::{control, packet_count, Circuit, Link};
use aes18_reference::records::{
    SenderSlot, RECEIVER_RECORD, RECEIVER_SLOT, SENDER_RECORD, SENDER_SLOT, SLOTS,
};
use aes18_reference::{LONG_BUFFER, RECEIVER_STORE, SENDER_STORE};

const LIST: [u8; 12] = [0x01, 0, 0, 0x7E, 1, 0xFF, 0x02, 0, 0, 0x1F, 1, 0];
/// Bytes of the buffers that a call is given.
const GIVEN: [Option<usize>; 4] = [None, Some(65_534), Some(LONG_BUFFER), Some(65_551)];
/// Bytes of buffers and of a receiver's store, right, short and longer.
const BUFFERS: [usize; 5] = [0, 4095, 65_534, LONG_BUFFER, 65_551];
const STORES: [usize; 2] = [RECEIVER_STORE - 1, RECEIVER_STORE];
/// Lengths of messages in slots.
const LENGTHS: [usize; 9] = [4093, 4094, 4095, 4096, 4111, 61_440, 65_280, 65_534, 65_535];

pub fn all(both: &mut Both, random: &mut Random) -> Compared<()> {
    senders(both, random)?;
    every_sender_byte(both, random)?;
    receivers(both, random)?;
    every_receiver_byte(both, random)?;
    reads(both, random)
}

/// A sender's record, with a slot of each length at each circuit number: at the start, behind a packet, before the last, behind it and past it, with the
/// packets still to go right and wrong.
fn senders(both: &mut Both, random: &mut Random) -> Compared<()> {
    let mut fresh = random.bytes(SENDER_RECORD);
    both.sender_list(&mut fresh, &LIST)?;
    let (store, long) = (random.bytes(SENDER_STORE), random.bytes(65_551));
    for (number, length) in (0..4).flat_map(|number| LENGTHS.map(|length| (number, length))) {
        let count = packet_count(length);
        for place in [0, 1, count - 1, count, count + 1] {
            let left = (count + 1).saturating_sub(place);
            for left in [left.saturating_sub(1), left] {
                let slot = SenderSlot {
                    index: (place % 8) as u8,
                    priority: 1,
                    repetition: 0,
                    copy: 0,
                    length,
                    place,
                    left,
                };
                let mut record = fresh.clone();
                record[SLOTS + SENDER_SLOT * number..][..SENDER_SLOT].copy_from_slice(&slot.pack());
                sender_calls(both, &record, &store, &long, number as u64)?;
            }
        }
    }
    Ok(())
}

/// A sender's record with a long message that is placed in part, and every byte of its slot, and of another circuit's, with all its 256 values, each also
/// with the packets still to go made right.
fn every_sender_byte(both: &mut Both, random: &mut Random) -> Compared<()> {
    let (mut record, store) = (random.bytes(SENDER_RECORD), random.bytes(SENDER_STORE));
    both.sender_list(&mut record, &LIST)?;
    let mut long = random.bytes(65_551);
    let call = LongOfferCall {
        priority: 1,
        repetition: 1,
        message: &random.bytes(4200),
    };
    both.sender_offer_long(&mut record, &store, &mut long, call)?;
    let (block, answer) = (&mut [0; 200], &mut [0; BLOCK_ANSWER]);
    let call = plain(1600);
    both.block(&mut record, &store, Some(&long), call, block, answer)?;
    for (at, value) in every_byte(2 * SENDER_SLOT) {
        let mut changed = record.clone();
        changed[SLOTS + at] = value;
        let mut mended = changed.clone();
        mend_left(&mut mended);
        for mut record in [changed, mended] {
            let (block, answer) = (&mut [0; 200], &mut [0; BLOCK_ANSWER]);
            both.block(&mut record, &store, Some(&long), call, block, answer)?;
        }
    }
    Ok(())
}

/// A block call without a system packet.
fn plain(n: u64) -> BlockCall<'static> {
    BlockCall {
        n,
        u: n - 100,
        system: 0,
        enable: 0,
        code: 0,
        information: &[],
    }
}

/// An offer at the circuit, a long offer and a block, each with every buffer.
fn sender_calls(
    both: &mut Both,
    record: &[u8],
    store: &[u8],
    long: &[u8],
    circuit: u64,
) -> Compared<()> {
    let offer = OfferCall {
        circuit,
        priority: 0,
        repetition: 0,
        message: b"a short one",
    };
    let long_offer = LongOfferCall {
        priority: 0,
        repetition: 0,
        message: &[0x7E; 4095],
    };
    for given in GIVEN {
        let lent = given.map(|bytes| &long[..bytes]);
        both.offer(&mut record.to_vec(), &mut store.to_vec(), lent, offer)?;
        let (block, answer) = (&mut [0x5A; 88], &mut [0x5A; BLOCK_ANSWER]);
        both.block(&mut record.to_vec(), store, lent, plain(700), block, answer)?;
        if let Some(lent) = lent {
            both.sender_offer_long(&mut record.to_vec(), store, &mut lent.to_vec(), long_offer)?;
        }
    }
    Ok(())
}

/// A receiver's record of these circuits with what is lent beside it, and a slot that tells of an open message: a packet came, of this index.
struct Open {
    record: Vec<u8>,
    store: Vec<u8>,
    long: Vec<u8>,
    circuit: Circuit,
    last: u8,
}

impl Open {
    fn new(
        both: &mut Both,
        random: &mut Random,
        list: &[u8],
        number: usize,
        [length, place]: [usize; 2],
    ) -> Compared<Open> {
        let mut record = random.bytes(RECEIVER_RECORD);
        both.receiver_list(&mut record, list)?;
        let last = random.byte() & 7;
        let [[l0, l1], [p0, p1]] = [length, place].map(|number| (number as u16).to_le_bytes());
        let at = SLOTS + RECEIVER_SLOT * number;
        record[at..at + RECEIVER_SLOT].copy_from_slice(&[1, last, l0, l1, p0, p1]);
        Ok(Open {
            record,
            store: random.bytes(RECEIVER_STORE),
            long: random.bytes(65_551),
            circuit: inputs::circuits(list)[number],
            last,
        })
    }

    fn copy(&self) -> Open {
        Open {
            record: self.record.clone(),
            store: self.store.clone(),
            long: self.long.clone(),
            ..*self
        }
    }

    /// A packet of the circuit, its index so much behind the last.
    fn packet(&self, link: Link, behind: u8, segment: &[u8]) -> Vec<u8> {
        let control = control(link, (self.last + behind) % 8, 2);
        match self.circuit.extension {
            None => [&[self.circuit.address, control], segment].concat(),
            Some(byte) => [&[self.circuit.address, control | 0x20, byte], segment].concat(),
        }
    }

    /// Reads the bits up to the first notice, beside so much of the buffer.
    fn read(&mut self, both: &mut Both, given: Option<usize>, call: ReadCall<'_>) -> Compared<u32> {
        let long = given.map(|bytes| &mut self.long[..bytes]);
        let (record, store) = (&mut self.record, &mut self.store);
        both.read(record, store, long, call, &mut [0x5A; READ_ANSWER])
    }
}

/// The bits of packets between flags.
fn bits_of(packets: &[Vec<u8>]) -> Vec<u8> {
    let framed = packets
        .iter()
        .flat_map(|packet| [&frame(packet)[..], &FLAG].concat());
    bytes_of(&[&FLAG[..], &framed.collect::<Vec<bool>>()].concat())
}

fn whole(bits: &[u8]) -> ReadCall<'_> {
    ReadCall {
        bits,
        from: 0,
        to: 8 * bits.len() as u64,
    }
}

/// Segments of first packets: headers of 4,095 and near it, whole and cut short.
const FIRST: [&[u8]; 8] = [
    &[0x1F, 0xFF, 1, 2, 3, 4, 5, 6, 7, 8, 9, 10, 11, 12, 13, 14],
    &[0xFF, 0xFF, 1, 2, 3, 4, 5, 6, 7, 8, 9, 10, 11, 12, 13, 14],
    &[0x1F, 0xFF, 1, 2, 3, 4, 5, 6, 7, 8, 9, 10, 11, 12, 13],
    &[0x1F, 0xFF],
    &[0x1F],
    &[0x1F, 0xFE, 1, 2, 3, 4, 5, 6, 7, 8, 9, 10, 11, 12, 13, 14],
    &[0x0F, 0xFF, 1, 2, 3, 4, 5, 6, 7, 8, 9, 10, 11, 12, 13, 14],
    &[0x03, 1, 2, 3],
];

/// Slots of an open message of each length and place at the edges, at each circuit number; each reads one packet of every kind.
fn receivers(both: &mut Both, random: &mut Random) -> Compared<()> {
    for number in 0..4 {
        for length in [0, 40, 4094, 4095, 4096, 5000, 65_534, 65_535] {
            for place in places(length) {
                let open = Open::new(both, random, &LIST, number, [length, place])?;
                every_packet(both, &open)?;
            }
        }
    }
    Ok(())
}

/// Places at the edges of a length, and at those of 4,095 bytes.
fn places(length: usize) -> Vec<usize> {
    let ends = [4095, length];
    let edges = ends.map(|end| [0, 1, 2, 14, 15, 16, 17].map(|less| end.saturating_sub(less)));
    let mut places: Vec<usize> = edges.concat();
    places.extend([0, length + 1]);
    places.retain(|place| *place <= (length + 1).min(65_535));
    places.sort();
    places.dedup();
    places
}

fn every_packet(both: &mut Both, open: &Open) -> Compared<()> {
    let mut packets = vec![];
    for bytes in [1, 2, 15, 16] {
        for link in [Link::Between, Link::Last] {
            packets.push(open.packet(link, 1, &vec![0x5A; bytes]));
        }
    }
    for behind in [0, 2] {
        packets.push(open.packet(Link::Last, behind, &[0x66; 16]));
        packets.push(open.packet(Link::First, behind, FIRST[0]));
    }
    packets.extend(FIRST.map(|segment| open.packet(Link::First, 1, segment)));
    for packet in packets {
        let bits = bits_of(&[packet]);
        for given in GIVEN {
            open.copy().read(both, given, whole(&bits))?;
        }
    }
    Ok(())
}

/// A receiver's record with a long message open, and every byte of its slot, and of another circuit's, with all its 256 values.
fn every_receiver_byte(both: &mut Both, random: &mut Random) -> Compared<()> {
    let open = Open::new(both, random, &LIST, 0, [65_535, 4079])?;
    let bits = bits_of(&[open.packet(Link::Last, 1, &[0x5A; 16])]);
    for (at, value) in every_byte(2 * RECEIVER_SLOT) {
        let mut copy = open.copy();
        copy.record[SLOTS + at] = value;
        copy.read(both, Some(LONG_BUFFER), whole(&bits))?;
    }
    Ok(())
}

/// Reads with everything that is lent right, short and too long, from records with and without a long message, and from one out of range.
fn reads(both: &mut Both, random: &mut Random) -> Compared<()> {
    let open = Open::new(both, random, &LIST, 0, [65_535, 4079])?;
    let bits = bits_of(&[open.packet(Link::Last, 1, &[0x5A; 16])]);
    let end = 8 * bits.len() as u64;
    let (mut closed, mut out) = (open.copy(), open.copy());
    closed.record[SLOTS..SLOTS + RECEIVER_SLOT].fill(0);
    out.record[SLOTS + 1] = 8;
    for base in [&open, &closed, &out] {
        for (long, store) in BUFFERS
            .iter()
            .flat_map(|long| STORES.map(|store| (*long, store)))
        {
            for (from, to) in [(0, end), (0, end + 1), (1, 0)] {
                for (record, answer) in [(61, 16), (60, 16), (61, 15), (66, 20)] {
                    let bits = &bits[..];
                    let mut record = [&base.record[..], &[0x77; 5]].concat()[..record].to_vec();
                    let (mut store, mut long) =
                        (base.store[..store].to_vec(), base.long[..long].to_vec());
                    let (call, answer) = (ReadCall { bits, from, to }, &mut vec![0x5A; answer]);
                    both.read(&mut record, &mut store, Some(&mut long), call, answer)?;
                }
            }
        }
    }
    Ok(())
}

/// Any slots near the edges, and some packets that go on from there, read in pieces; some calls are given less of the buffer, or none.
pub fn any_receiver(both: &mut Both, random: &mut Random) -> Compared<()> {
    let list = inputs::list(random);
    let number = random.below(2).min(list.len() / 3 - 1);
    let length = match random.below(8) {
        0 => random.pick(&[0, 40, 4094]),
        1 => random.below(65_536),
        2..=3 => random.pick(&[4095, 4096, 4110, 65_534]),
        _ => 65_535,
    };
    let near = random.pick(&[length, length.min(4095)]);
    let place = near.saturating_sub(random.below(60));
    let mut open = Open::new(both, random, &list, number, [length, place])?;
    let bits = bits_of(&going_on(random, &open));
    let (mut from, end) = (0, 8 * bits.len() as u64);
    for _ in 0..40 {
        let to = end.min(from + random.below(600) as u64);
        let given = inputs::given(random, Some(LONG_BUFFER));
        let call = ReadCall {
            bits: &bits,
            from,
            to,
        };
        let long = given.map(|bytes| &mut open.long[..bytes]);
        let (record, store, answer) = (&mut open.record, &mut open.store, &mut [0; READ_ANSWER]);
        if both.read(record, store, long, call, answer)? == 0 {
            from += u64::from(answer[8]) + 256 * u64::from(answer[9]);
        }
    }
    Ok(())
}

/// Some packets of the circuit, mostly in order.
fn going_on(random: &mut Random, open: &Open) -> Vec<Vec<u8>> {
    let mut behind = 0;
    let mut packets = vec![];
    for _ in 0..8 {
        behind += random.pick(&[1, 1, 1, 1, 1, 1, 1, 0, 2]);
        let link = random.pick(&[Link::Between, Link::Between, Link::Last, Link::First]);
        let bytes = random.pick(&[16, 16, 16, 1, 2, 15]);
        let segment = match link {
            Link::First => random.pick(&FIRST).to_vec(),
            _ => random.bytes(bytes),
        };
        packets.push(open.packet(link, behind, &segment));
    }
    packets
}

/// A sender's record with any lengths and places, the packets still to go mostly right, and any buffer.
pub fn any_sender(both: &mut Both, random: &mut Random) -> Compared<()> {
    let list = inputs::list(random);
    let mut record = random.bytes(SENDER_RECORD);
    both.sender_list(&mut record, &list)?;
    let (mut store, mut long) = (random.bytes(SENDER_STORE), random.bytes(65_551));
    let number = random.below(list.len() / 3).min(random.below(4));
    let length = inputs::long_length(random) % 65_536;
    let place = random.below(packet_count(length) + 1) * random.below(2);
    let slot = SenderSlot {
        index: random.byte() & 7,
        priority: random.byte() & 3,
        repetition: random.byte() % 3,
        copy: 0,
        length,
        place,
        left: random.below(2),
    };
    record[SLOTS + SENDER_SLOT * number..][..SENDER_SLOT].copy_from_slice(&slot.pack());
    if !random.once_in(8) {
        mend_left(&mut record);
    }
    for _ in 0..6 {
        let given = inputs::given(random, Some(LONG_BUFFER));
        let lent = given.map(|bytes| &long[..bytes]);
        let information = inputs::information(random);
        let call = inputs::block_call(random, &information);
        let mut block = inputs::buffer(random, call.n);
        let mut answer = [0x5A; BLOCK_ANSWER];
        both.block(&mut record, &store, lent, call, &mut block, &mut answer)?;
        let message = inputs::message(random, 4095);
        let (priority, repetition) = (random.argument(3), random.argument(5));
        let call = OfferCall {
            circuit: random.argument(3),
            priority,
            repetition,
            message: &message[..random.pick(&[0, 15, 4094, 4095])],
        };
        both.offer(&mut record, &mut store, lent, call)?;
        let call = LongOfferCall {
            priority,
            repetition,
            message: &message,
        };
        let lent = &mut long[..given.unwrap_or(0)];
        both.sender_offer_long(&mut record, &store, lent, call)?;
    }
    Ok(())
}
