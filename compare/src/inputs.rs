//! Circuit lists, messages and the values of block calls; bytes of any length and value.

use crate::random::Random;
use aes18_reference::calls::BlockCall;
use aes18_reference::packet::{listed, Circuit};
use aes18_reference::records::{SenderSlot, LAST_SERVED, SENDER_SLOT, SLOTS};
use aes18_reference::LONG_BUFFER;

/// A circuit's three bytes, of few values so that many are nearly alike.
fn circuit_bytes(random: &mut Random) -> [u8; 3] {
    let address = random.pick(&[0x00, 0x01, 0x02, 0x7E, 0x55, 0xFE, 0x1F]);
    let extended = random.once_in(2);
    let extension = random.pick(&[0x00, 0x01, 0x07, 0xFF]);
    [
        address,
        u8::from(extended),
        if extended { extension } else { 0 },
    ]
}

/// A list that is accepted.
pub fn list(random: &mut Random) -> Vec<u8> {
    let count = 1 + random.below(4);
    loop {
        let list: Vec<u8> = (0..count).flat_map(|_| circuit_bytes(random)).collect();
        if listed(&list).is_ok() {
            return list;
        }
    }
}

/// A list of any kind.
pub fn any_list(random: &mut Random) -> Vec<u8> {
    let count = random.below(6);
    let mut list: Vec<u8> = (0..count).flat_map(|_| circuit_bytes(random)).collect();
    for byte in &mut list {
        if random.once_in(12) {
            *byte = random.pick(&[0, 1, 2, 0xFF]);
        }
    }
    if random.once_in(8) {
        list.truncate(random.below(list.len() + 1));
    }
    list
}

pub fn circuits(list: &[u8]) -> Vec<Circuit> {
    listed(list).expect("an accepted list")
}

/// A message of this length: noise, or bytes that stuff much or little.
pub fn message(random: &mut Random, length: usize) -> Vec<u8> {
    match random.below(4) {
        0 => vec![random.pick(&[0xFF, 0x7E, 0xF8, 0x00, 0x3F, 0x1F]); length],
        1 => (0..length)
            .map(|_| random.pick(&[0xFF, 0xFF, 0xFE, 0x7F, 0xF0]))
            .collect(),
        _ => random.bytes(length),
    }
}

/// A length of a message: mostly one of a few packets, some at the edges.
pub fn length(random: &mut Random) -> usize {
    match random.below(16) {
        0 => random.below(4095),
        1 => random.pick(&[0, 1, 14, 15, 16, 17, 30, 31, 46, 47, 4093, 4094]),
        2..=6 => random.below(16),
        _ => random.below(100),
    }
}

/// A length of a long message: mostly one of a few packets more than the fewest, some at the edges or outside.
pub fn long_length(random: &mut Random) -> usize {
    match random.below(16) {
        0 => random.pick(&[0, 16, 4093, 4094, 65_536, 65_537, 69_631]),
        1 => random.pick(&[65_518, 65_519, 65_533, 65_534, 65_535]),
        2 => 4095 + random.below(61_441),
        3..=6 => random.pick(&[4095, 4096, 4097, 4110, 4111, 4126]),
        _ => 4095 + random.below(300),
    }
}

/// How much of a long buffer a call is given: mostly `whole`, else none, or less than it must be, or just enough.
pub fn given(random: &mut Random, whole: Option<usize>) -> Option<usize> {
    match random.below(16) {
        0 => None,
        1 => Some(random.pick(&[0, 1, 4095, 65_533, 65_534, 65_534])),
        2 => Some(LONG_BUFFER),
        _ => whole,
    }
}

/// A long buffer in a half of all calls, mostly long enough.
pub fn buffer_beside(random: &mut Random) -> Option<Vec<u8>> {
    let bytes = given(random, Some(LONG_BUFFER + 9));
    bytes
        .filter(|_| random.once_in(2))
        .map(|bytes| random.bytes(bytes))
}

/// N and U: mostly in range, some at the edges or outside.
fn sizes(random: &mut Random) -> (u64, u64) {
    let n = match random.below(16) {
        0 => random.pick(&[
            0,
            1,
            255,
            256,
            257,
            26_999,
            27_000,
            27_001,
            65_536,
            (1 << 32) + 256,
            1 << 63,
            u64::MAX,
        ]),
        1 => 256 + random.below(26_745) as u64,
        _ => 256 + random.below(1500) as u64,
    };
    let u = match random.below(16) {
        0 => random.pick(&[
            0,
            255,
            256,
            257,
            n.wrapping_sub(1),
            n.wrapping_add(1),
            (1 << 32) + 256,
            u64::MAX,
        ]),
        1..=8 if n >= 256 => 256 + random.next() % (n - 255),
        _ => n,
    };
    (n, u)
}

/// The values of a block call, with `information` for its system packet if one is wanted.
pub fn block_call<'a>(random: &mut Random, information: &'a [u8]) -> BlockCall<'a> {
    let (n, u) = sizes(random);
    BlockCall {
        n,
        u,
        system: random.pick(&[0, 0, 0, 1, 2, 256, 1 << 32, u64::MAX]),
        enable: random.argument(15),
        code: random.argument(8),
        information,
    }
}

/// Information for a system packet, sometimes too long.
pub fn information(random: &mut Random) -> Vec<u8> {
    let length = match random.below(12) {
        0 => random.pick(&[16, 17, 255, 256, 271]),
        1 => 15,
        _ => random.below(16),
    };
    random.bytes(length)
}

/// A buffer for a block: as long as N bits need, or a byte shorter, or longer.
pub fn buffer(random: &mut Random, n: u64) -> Vec<u8> {
    let needed = n.min(30_000).div_ceil(8) as usize;
    let length = match random.below(24) {
        0 => needed.saturating_sub(1),
        1 => random.below(needed + 1),
        2..=12 => needed,
        _ => needed + random.below(20),
    };
    random.bytes(length)
}

/// The bytes, sometimes too few, or more.
pub fn any_length(random: &mut Random, bytes: &[u8]) -> Vec<u8> {
    let mut bytes = bytes.to_vec();
    match random.below(16) {
        0 => bytes.truncate(random.below(bytes.len())),
        1 => bytes.truncate(bytes.len() - 1),
        2 => bytes.extend([0xC3; 5]),
        _ => {}
    }
    bytes
}

/// Random bytes, `length` of them or a few more.
pub fn spare(random: &mut Random, length: usize) -> Vec<u8> {
    let more = random.pick(&[0, 0, 1, 16]);
    random.bytes(length + more)
}

/// Gives the listed circuits of a sender's record the packets still to go that the rest of their slots tells.
pub fn mend_left(record: &mut [u8]) {
    let listed = usize::from(record[0]);
    let slots = record[SLOTS..LAST_SERVED].chunks_mut(SENDER_SLOT);
    for bytes in slots.take(listed) {
        let mut slot = SenderSlot::unpack(bytes);
        slot.left = slot.still_to_go();
        bytes.copy_from_slice(&slot.pack());
    }
}

/// Each place of this many bytes, with each value.
pub fn every_byte(length: usize) -> impl Iterator<Item = (usize, u8)> {
    (0..length).flat_map(|at| (0..=255).map(move |value| (at, value)))
}
