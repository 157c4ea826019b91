//! The refusals of the calls.

use core::fmt;

/// Why a call was refused. A refused call changes neither the record nor any lent byte. Where several apply, a call gives the first in its own
/// order, which its documentation says.
///
/// ```
/// use aes18::{Circuit, Refusal, Sender, SENDER_STORE};
///
/// let mut store = [0; SENDER_STORE];
/// let mut sender = Sender::list(&[Circuit { address: 0x01, extension: None }]).unwrap();
/// let before = sender;
///
/// let refusal = sender.offer(&mut store, 1, 0, 0, b"no circuit 1 is listed").unwrap_err();
/// assert_eq!(refusal, Refusal::CircuitNotListed);
/// assert_eq!(refusal.number(), 6);
/// assert_eq!(refusal.to_string(), "refusal 6: circuit number not listed");
/// assert_eq!(sender, before);
/// ```
#[derive(Clone, Copy, Debug, PartialEq, Eq, Hash)]
#[repr(u8)]
pub enum Refusal {
    /// 1: a list whose length is not 3, 6, 9 or 12 bytes: no circuits, or more than four.
    ListLength = 1,
    /// 2: an address FF hex, which belongs to system packets.
    AddressReserved = 2,
    /// 3: a circuit's middle byte above 1, or 0 with an extension byte other than 0. A [`Circuit`](crate::Circuit) never has it.
    ExtensionByte = 3,
    /// 4: two circuits alike.
    CircuitsAlike = 4,
    /// 5: a store shorter than [`SENDER_STORE`](crate::SENDER_STORE) or [`RECEIVER_STORE`](crate::RECEIVER_STORE).
    StoreTooShort = 5,
    /// 6: a circuit number that is not listed.
    CircuitNotListed = 6,
    /// 7: a priority above 3.
    PriorityAbove3 = 7,
    /// 8: a repetition above 5.
    RepetitionAbove5 = 8,
    /// 9: a message longer than [`LONGEST_MESSAGE`](crate::LONGEST_MESSAGE), which [`Sender::offer_long`](crate::Sender::offer_long) alone takes.
    MessageTooLong = 9,
    /// 10: an earlier message at the circuit still has a copy to place.
    MessagePending = 10,
    /// 11: N outside 256 to 27,000 or U outside 256 to N.
    BlockBits = 11,
    /// 12: a buffer under N bits.
    BufferTooShort = 12,
    /// 13: a system packet with enable bits above 15, a code above 8 or more than 15 bytes of information.
    SystemPacket = 13,
    /// 14: a record out of range, which no record made by calls is, if an end that has a long buffer is lent it in all of them. Of a framing alone: one
    /// that no bits leave.
    RecordOutOfRange = 14,
    /// 15: from above to, or to past the bytes lent.
    BitRange = 15,
    /// 16: output below the worst case of a packet's frame: 2 bytes for each packet and FCS byte plus 2 flags, whatever this frame needs.
    LineTooShort = 16,
    /// 17: a packet outside 2 to 19 bytes.
    PacketLength = 17,
    /// 18: a message outside [`SHORTEST_LONG_MESSAGE`](crate::SHORTEST_LONG_MESSAGE) to [`LONGEST_LONG_MESSAGE`](crate::LONGEST_LONG_MESSAGE), offered as
    /// a long one.
    LongMessageLength = 18,
    /// 19: a long buffer shorter than [`LONG_BUFFER`](crate::LONG_BUFFER).
    LongBufferTooShort = 19,
}

/// Every refusal with its words, in the order of the numbers from 1.
const TABLE: [(Refusal, &str); 19] = [
    (Refusal::ListLength, "length not 3, 6, 9 or 12"),
    (Refusal::AddressReserved, "an address FF hex"),
    (
        Refusal::ExtensionByte,
        "a middle byte above 1, or 0 with an extension byte other than 0",
    ),
    (Refusal::CircuitsAlike, "two circuits alike"),
    (Refusal::StoreTooShort, "store too short"),
    (Refusal::CircuitNotListed, "circuit number not listed"),
    (Refusal::PriorityAbove3, "priority above 3"),
    (Refusal::RepetitionAbove5, "repetition above 5"),
    (Refusal::MessageTooLong, "message above 4,094 bytes"),
    (
        Refusal::MessagePending,
        "an earlier message there still has a copy to place",
    ),
    (
        Refusal::BlockBits,
        "N outside 256 to 27,000 or U outside 256 to N",
    ),
    (Refusal::BufferTooShort, "buffer under N bits"),
    (
        Refusal::SystemPacket,
        "enable bits above 15, code above 8 or information above 15 bytes",
    ),
    (Refusal::RecordOutOfRange, "a record out of range"),
    (
        Refusal::BitRange,
        "from above to, or to past the bytes lent",
    ),
    (
        Refusal::LineTooShort,
        "output below the worst case: 2 bytes for each packet and FCS byte plus 2 flags",
    ),
    (Refusal::PacketLength, "a packet outside 2 to 19 bytes"),
    (
        Refusal::LongMessageLength,
        "length outside 4,095 to 65,535 bytes",
    ),
    (Refusal::LongBufferTooShort, "long buffer too short"),
];

impl Refusal {
    /// The specification's number of the refusal, 1 to 19.
    pub fn number(self) -> u8 {
        self as u8
    }

    /// What a call's number says. 255, for a record, an answer or a packet's place too short, is not answered to this library, which gives all of them
    /// in full length.
    pub(crate) fn answered(number: u32) -> Result<(), Refusal> {
        match number {
            0 => Ok(()),
            1..=19 => Err(TABLE[number as usize - 1].0),
            _ => unreachable!("a call answers 0 to 19 where all that it asks for has full length"),
        }
    }
}

/// The number and the specification's words, such as `refusal 5: store too short`.
impl fmt::Display for Refusal {
    fn fmt(&self, f: &mut fmt::Formatter<'_>) -> fmt::Result {
        let number = self.number();
        write!(f, "refusal {number}: {}", TABLE[usize::from(number) - 1].1)
    }
}

impl core::error::Error for Refusal {}
