//! The bytes of the two records, taken apart and judged (refusal 14). 01's ranges are those of listed circuits: numbers in the places of a
//! circuit that is not listed may have any values, and keep them. Circuit 0 may have a long message where the call is given a long buffer, of whatever
//! length (02, ask 7).

use crate::history::{History, FRAMING};
use crate::packet::{listed, packet_count, Circuit};
use crate::{LONGEST_LONG, LONGEST_MESSAGE};

/// Bytes of a sender's record.
pub const SENDER_RECORD: usize = 55;
/// Bytes of a receiver's record.
pub const RECEIVER_RECORD: usize = 61;
/// Where the slots begin in both records.
pub const SLOTS: usize = 13;
/// Bytes of a slot of a sender's record.
pub const SENDER_SLOT: usize = 10;
/// Bytes of a slot of a receiver's record.
pub const RECEIVER_SLOT: usize = 6;
/// Where a sender's record tells the circuit last served.
pub const LAST_SERVED: usize = 53;
/// Where a sender's record tells the enable bits in force.
pub const ENABLE: usize = 54;
/// All four priorities enabled.
pub const ALL_ENABLED: u8 = 15;
/// Where a receiver's record tells the framing.
pub const FRAMING_PLACE: usize = 37;

/// The sender's record of no circuits: in each slot place 1, as behind a message of no bytes, and all else 0; all priorities enabled.
pub const NO_SENDER: [u8; SENDER_RECORD] = {
    let mut record = [0; SENDER_RECORD];
    record[SLOTS + 6] = 1;
    record[SLOTS + SENDER_SLOT + 6] = 1;
    record[SLOTS + 2 * SENDER_SLOT + 6] = 1;
    record[SLOTS + 3 * SENDER_SLOT + 6] = 1;
    record[LAST_SERVED] = 3;
    record[ENABLE] = ALL_ENABLED;
    record
};
/// The receiver's record of no circuits.
pub const NO_RECEIVER: [u8; RECEIVER_RECORD] = [0; RECEIVER_RECORD];

/// Writes the circuits of an accepted list to a record.
pub fn put_circuits(record: &mut [u8], list: &[u8]) {
    record[0] = (list.len() / 3) as u8;
    record[1..=list.len()].copy_from_slice(list);
}

/// The circuits of a record, if there are none or listing accepts them.
fn circuits(record: &[u8]) -> Option<Vec<Circuit>> {
    match usize::from(record[0]) {
        0 => Some(vec![]),
        count @ 1..=4 => listed(&record[1..=3 * count]).ok(),
        _ => None,
    }
}

/// The longest message that a record may tell of at a circuit number, in a call that is given a long buffer or is not.
fn longest(number: usize, given: bool) -> usize {
    if given && number == 0 {
        LONGEST_LONG
    } else {
        LONGEST_MESSAGE
    }
}

fn number(low_first: &[u8]) -> usize {
    usize::from(low_first[0]) + 256 * usize::from(low_first[1])
}

/// A slot of a sender's record.
#[derive(Clone, Copy, Debug, PartialEq, Eq)]
pub struct SenderSlot {
    /// Continuity index of the next packet.
    pub index: u8,
    pub priority: u8,
    pub repetition: u8,
    /// Copies placed of the packet that is next.
    pub copy: u8,
    /// Length of the last message.
    pub length: usize,
    /// Packets of that message of which every copy is placed.
    pub place: usize,
    /// Packets still to go: those of which some copy is still to place.
    pub left: usize,
}

impl SenderSlot {
    pub fn unpack(bytes: &[u8]) -> SenderSlot {
        SenderSlot {
            index: bytes[0],
            priority: bytes[1],
            repetition: bytes[2],
            copy: bytes[3],
            length: number(&bytes[4..]),
            place: number(&bytes[6..]),
            left: number(&bytes[8..]),
        }
    }

    pub fn pack(&self) -> [u8; SENDER_SLOT] {
        let mut bytes = [0; SENDER_SLOT];
        bytes[..4].copy_from_slice(&[self.index, self.priority, self.repetition, self.copy]);
        bytes[4..6].copy_from_slice(&(self.length as u16).to_le_bytes());
        bytes[6..8].copy_from_slice(&(self.place as u16).to_le_bytes());
        bytes[8..].copy_from_slice(&(self.left as u16).to_le_bytes());
        bytes
    }

    /// How many packets have some copy still to place: those whose last copy, of all copies the one numbered `packet * each`, is not yet placed.
    pub fn still_to_go(&self) -> usize {
        let each = usize::from(self.repetition) + 1;
        let placed = self.place * each + usize::from(self.copy);
        (1..=packet_count(self.length))
            .filter(|packet| packet * each > placed)
            .count()
    }

    fn in_range(&self, longest: usize) -> bool {
        self.index <= 7
            && self.priority <= 3
            && self.repetition <= 5
            && self.copy <= self.repetition
            && self.length <= longest
            && self.place <= packet_count(self.length)
            && self.left == self.still_to_go()
    }
}

/// A sender's record taken apart.
#[derive(Clone, Debug, PartialEq, Eq)]
pub struct SenderRecord {
    pub circuits: Vec<Circuit>,
    pub slots: Vec<SenderSlot>,
    pub last_served: usize,
    /// The enable bits in force.
    pub enable: u8,
}

impl SenderRecord {
    /// None if the bytes are out of range in a call that is given a long buffer, or is not.
    pub fn unpack(record: &[u8], given: bool) -> Option<SenderRecord> {
        let circuits = circuits(record)?;
        let slots: Vec<_> = record[SLOTS..LAST_SERVED]
            .chunks(SENDER_SLOT)
            .take(circuits.len())
            .map(SenderSlot::unpack)
            .collect();
        let last_served = usize::from(record[LAST_SERVED]);
        let enable = record[ENABLE];
        let mut numbered = slots.iter().enumerate();
        let in_range = last_served <= 3
            && enable <= ALL_ENABLED
            && numbered.all(|(number, slot)| slot.in_range(longest(number, given)));
        in_range.then_some(SenderRecord {
            circuits,
            slots,
            last_served,
            enable,
        })
    }
}

/// A slot of a receiver's record.
#[derive(Clone, Copy, Debug, PartialEq, Eq)]
pub struct ReceiverSlot {
    /// Whether a packet of the circuit came.
    pub seen: bool,
    /// Continuity index of the last one.
    pub last: u8,
    /// Length of the open message; that of a long one is the most it may have.
    pub length: usize,
    /// Bytes of it that are written.
    pub place: usize,
}

impl ReceiverSlot {
    /// None if the first byte, which is a truth value, is neither 0 nor 1.
    fn unpack(bytes: &[u8]) -> Option<ReceiverSlot> {
        (bytes[0] <= 1).then(|| ReceiverSlot {
            seen: bytes[0] == 1,
            last: bytes[1],
            length: number(&bytes[2..]),
            place: number(&bytes[4..]),
        })
    }

    pub fn pack(&self) -> [u8; RECEIVER_SLOT] {
        let ([l0, l1], [p0, p1]) = (
            (self.length as u16).to_le_bytes(),
            (self.place as u16).to_le_bytes(),
        );
        [u8::from(self.seen), self.last, l0, l1, p0, p1]
    }

    fn in_range(&self, longest: usize) -> bool {
        self.last <= 7 && self.length <= longest && self.place <= self.length
    }
}

/// A receiver's record taken apart.
#[derive(Clone, Debug, PartialEq, Eq)]
pub struct ReceiverRecord {
    pub circuits: Vec<Circuit>,
    pub slots: Vec<ReceiverSlot>,
    pub history: History,
}

impl ReceiverRecord {
    /// None if the bytes are out of range in a call that is given a long buffer, or is not.
    pub fn unpack(record: &[u8], given: bool) -> Option<ReceiverRecord> {
        let circuits = circuits(record)?;
        let slots = record[SLOTS..FRAMING_PLACE].chunks(RECEIVER_SLOT);
        let mut slots: Vec<_> = slots.map(ReceiverSlot::unpack).collect::<Option<_>>()?;
        slots.truncate(circuits.len());
        let mut framing = [0; FRAMING];
        framing.copy_from_slice(&record[FRAMING_PLACE..RECEIVER_RECORD]);
        let history = History::unpack(&framing)?;
        let mut numbered = slots.iter().enumerate();
        numbered
            .all(|(number, slot)| slot.in_range(longest(number, given)))
            .then_some(ReceiverRecord {
                circuits,
                slots,
                history,
            })
    }
}
