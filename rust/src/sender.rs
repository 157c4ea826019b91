//! The sending end.

use crate::calls;
use crate::circuit::{Circuit, List};
use crate::lengths::SENDER_RECORD;
use crate::refusal::Refusal;
use crate::system::SystemPacket;

/// A sender: the circuits it lists, what waits to be sent there, and the enable bits in force.
///
/// It is a value of 55 bytes; a copy of it is a sender of its own, with a store of its own, and a long buffer of its own if it has one.
///
/// ```
/// use aes18::{Circuit, Sender, SENDER_STORE};
///
/// # fn main() -> Result<(), aes18::Refusal> {
/// let mut store = [0; SENDER_STORE];
/// let mut sender = Sender::list(&[Circuit { address: 0x10, extension: None }])?;
/// sender.offer(&mut store, 0, 2, 0, &[0x55; 40])?;
///
/// // A header of 2 bytes and 40 of the message are three packets. The first block has room for one of them.
/// let mut bits = [0; 32];
/// assert_eq!(sender.block(&store, 256, 256, None, &mut bits)?.placed, 1);
/// assert_eq!(sender.waiting(0), 2);
/// assert_eq!(sender.block(&store, 256, 256, None, &mut bits)?.placed, 1);
/// assert_eq!(sender.block(&store, 256, 256, None, &mut bits)?.placed, 1);
/// assert_eq!(sender.waiting(0), 0);
///
/// // Nothing waits: the next block holds a flag and ones.
/// let block = sender.block(&store, 256, 256, None, &mut bits)?;
/// assert_eq!((block.placed, block.used, block.zeros), (0, 8, 0));
/// assert_eq!(bits[..3], [0x7E, 0xFF, 0xFF]);
/// # Ok(())
/// # }
/// ```
#[derive(Clone, Copy, Debug, PartialEq, Eq)]
pub struct Sender {
    record: [u8; SENDER_RECORD],
}

/// What was put into a block.
///
/// ```
/// use aes18::{Block, Circuit, Sender, SENDER_STORE};
///
/// # fn main() -> Result<(), aes18::Refusal> {
/// let mut store = [0; SENDER_STORE];
/// let mut sender = Sender::list(&[Circuit { address: 0x10, extension: None }])?;
/// sender.offer(&mut store, 0, 2, 1, &[0xFF; 5])?;
///
/// // A packet of 8 bytes and its FCS are 80 bits, to which stuffing adds 9 zeros. It is sent twice, with three flags of 8 bits.
/// let block = sender.block(&store, 256, 256, None, &mut [0; 32])?;
/// assert_eq!(block, Block { placed: 2, used: 202, zeros: 18 });
/// # Ok(())
/// # }
/// ```
#[derive(Clone, Copy, Debug, PartialEq, Eq)]
pub struct Block {
    /// Frames placed, the system packet's not counted.
    pub placed: u32,
    /// Bits used: those before the closing ones.
    pub used: u32,
    /// Stuffed zeros: those that stuffing added to the frames in the block, the system packet's and every placed copy's. Flags and closing ones have
    /// none, and a frame that does not fit is not counted. They are among the bits used: where a frame's packet has `b` bytes, these are 8 and, for each
    /// frame, `8 * (b + 2)` + its stuffed zeros + 8. A frame has at most `8 * (b + 2) / 5` of them, rounded down.
    pub zeros: u32,
}

impl Block {
    /// The three numbers of an answer.
    fn of(answer: [u8; 12]) -> Block {
        let [p0, p1, p2, p3, u0, u1, u2, u3, z0, z1, z2, z3] = answer;
        Block {
            placed: u32::from_le_bytes([p0, p1, p2, p3]),
            used: u32::from_le_bytes([u0, u1, u2, u3]),
            zeros: u32::from_le_bytes([z0, z1, z2, z3]),
        }
    }
}

impl Sender {
    /// A fresh sender for one to four circuits, numbered from 0 in their order. All four priorities are enabled.
    ///
    /// # Errors
    ///
    /// The first of these refusals that applies: 1, 2, 4.
    pub fn list(circuits: &[Circuit]) -> Result<Sender, Refusal> {
        let mut record = [0; SENDER_RECORD];
        calls::sender_list(&mut record, List::of(circuits).bytes())?;
        Ok(Sender { record })
    }

    /// Takes a message of up to 4,094 bytes, to be sent at the circuit of that number with a priority of 0 to 3, 3 the highest. A repetition of 0
    /// to 5 gives that many copies of each packet after the original. The message is copied to the start of the circuit's region of the store. It is
    /// taken whether its priority is enabled or not, and waits while it is not.
    ///
    /// # Errors
    ///
    /// The first of these refusals that applies: 14, 5, 6, 7, 8, 9, 10.
    pub fn offer(
        &mut self,
        store: &mut [u8],
        circuit: u64,
        priority: u64,
        repetition: u64,
        message: &[u8],
    ) -> Result<(), Refusal> {
        calls::sender_offer(
            &mut self.record,
            store,
            circuit,
            priority,
            repetition,
            message,
        )
    }

    /// Writes the next block, of `n` user bits of which `u` may be used, to the start of `block`: a flag, the system packet where one is given,
    /// frames of what waits at the enabled priorities, then ones. Bits fill bytes lowest first; spare bits of the last byte are 0, and bytes behind it
    /// keep their values. The system packet's enable bits rule this block and all later ones, until another is sent; without one those in force stay.
    ///
    /// # Errors
    ///
    /// The first of these refusals that applies: 14, 5, 11, 12, 13.
    pub fn block(
        &mut self,
        store: &[u8],
        n: u64,
        u: u64,
        system: Option<SystemPacket<'_>>,
        block: &mut [u8],
    ) -> Result<Block, Refusal> {
        calls::sender_block(&mut self.record, store, n, u, system, block).map(Block::of)
    }

    /// [`Sender::offer`] of a sender that has a long buffer. Of the buffer only the length is looked at.
    ///
    /// # Errors
    ///
    /// The first of these refusals that applies: 14, 5, 19, 6, 7, 8, 9, 10.
    pub fn offer_beside(
        &mut self,
        store: &mut [u8],
        buffer: &[u8],
        circuit: u64,
        priority: u64,
        repetition: u64,
        message: &[u8],
    ) -> Result<(), Refusal> {
        calls::sender_offer_beside(
            &mut self.record,
            store,
            buffer,
            circuit,
            priority,
            repetition,
            message,
        )
    }

    /// Takes a long message, of 4,095 to 65,535 bytes, to be sent at circuit 0. It is copied to the start of the long buffer, of which the bytes behind it
    /// keep their values; of the store only the length is looked at. All else is as with a shorter message, which [`Sender::offer_beside`] takes: circuit
    /// 0 takes its next message, long or not, when the last copy of the one before is placed.
    ///
    /// ```
    /// use aes18::{Circuit, Refusal, Sender, LONG_BUFFER, SENDER_STORE};
    ///
    /// # fn main() -> Result<(), aes18::Refusal> {
    /// let (mut store, mut buffer) = ([0; SENDER_STORE], vec![0; LONG_BUFFER]);
    /// let mut sender = Sender::list(&[Circuit { address: 0x30, extension: None }])?;
    /// sender.offer_long(&store, &mut buffer, 1, 0, &[0x55; 65_535])?;
    /// assert_eq!(sender.waiting(0), 4097);
    ///
    /// let again = sender.offer_long(&store, &mut buffer, 1, 0, &[0x55; 4095]);
    /// assert_eq!(again, Err(Refusal::MessagePending));
    /// let again = sender.offer_beside(&mut store, &buffer, 0, 1, 0, b"short");
    /// assert_eq!(again, Err(Refusal::MessagePending));
    ///
    /// let short = sender.offer_long(&store, &mut buffer, 1, 0, &[0x55; 4094]);
    /// assert_eq!(short, Err(Refusal::LongMessageLength));
    /// let long = sender.offer_beside(&mut store, &buffer, 0, 1, 0, &[0x55; 4095]);
    /// assert_eq!(long, Err(Refusal::MessageTooLong));
    /// # Ok(())
    /// # }
    /// ```
    ///
    /// # Errors
    ///
    /// The first of these refusals that applies: 14, 5, 19, 6, 7, 8, 18, 10.
    pub fn offer_long(
        &mut self,
        store: &[u8],
        buffer: &mut [u8],
        priority: u64,
        repetition: u64,
        message: &[u8],
    ) -> Result<(), Refusal> {
        calls::sender_offer_long(
            &mut self.record,
            store,
            buffer,
            priority,
            repetition,
            message,
        )
    }

    /// [`Sender::block`] of a sender that has a long buffer, from whose start the packets of a long message are made.
    ///
    /// # Errors
    ///
    /// The first of these refusals that applies: 14, 5, 19, 11, 12, 13.
    pub fn block_beside(
        &mut self,
        store: &[u8],
        buffer: &[u8],
        n: u64,
        u: u64,
        system: Option<SystemPacket<'_>>,
        block: &mut [u8],
    ) -> Result<Block, Refusal> {
        calls::sender_block_beside(&mut self.record, store, buffer, n, u, system, block)
            .map(Block::of)
    }

    /// The packets still to go at a circuit: how many packets of its pending message have some copy still to place. It is 0 exactly where nothing
    /// is pending, so that an offer is not refused by 10, and where the circuit is not listed. Copies are not counted: a packet counts until
    /// its last copy is placed. The number stands in the record; in one out of range it may be any.
    ///
    /// ```
    /// use aes18::{Circuit, Sender, SENDER_STORE};
    ///
    /// # fn main() -> Result<(), aes18::Refusal> {
    /// let mut store = [0; SENDER_STORE];
    /// let mut bits = [0; 32];
    /// let mut sender = Sender::list(&[Circuit { address: 0x10, extension: None }])?;
    /// assert_eq!(sender.waiting(0), 0);
    ///
    /// // 20 bytes and a header of 2 are two packets, each sent twice. A block of 256 bits takes one copy of the first.
    /// sender.offer(&mut store, 0, 2, 1, &[0x55; 20])?;
    /// assert_eq!(sender.waiting(0), 2);
    /// sender.block(&store, 256, 256, None, &mut bits)?;
    /// assert_eq!(sender.waiting(0), 2);
    /// sender.block(&store, 256, 256, None, &mut bits)?;
    /// assert_eq!(sender.waiting(0), 1);
    /// # Ok(())
    /// # }
    /// ```
    pub fn waiting(&self, circuit: usize) -> usize {
        if circuit >= usize::from(self.record[0]) {
            return 0;
        }
        let mut slots = self.record[SLOTS..].chunks_exact(SLOT);
        slots.nth(circuit).map_or(0, left_in)
    }

    /// The enable bits in force: bit 3 for priority 3 down to bit 0 for priority 0. They are those of the last system packet sent, or all four if none
    /// was. Only an accepted block with a system packet changes them.
    ///
    /// ```
    /// use aes18::{Circuit, Sender, SystemPacket, SENDER_STORE};
    ///
    /// # fn main() -> Result<(), aes18::Refusal> {
    /// let mut store = [0; SENDER_STORE];
    /// let mut bits = [0; 32];
    /// let mut sender = Sender::list(&[Circuit { address: 0x10, extension: None }])?;
    /// assert_eq!(sender.enable(), SystemPacket::ALL_ENABLED);
    /// sender.offer(&mut store, 0, 1, 0, b"charge 71%")?;
    ///
    /// // Priority 3 alone is enabled from here on: the message, of priority 1, waits in this block and in the next.
    /// let high = SystemPacket { enable: 0b1000, code: 2, information: &[] };
    /// assert_eq!(sender.block(&store, 256, 256, Some(high), &mut bits)?.placed, 0);
    /// assert_eq!(sender.block(&store, 256, 256, None, &mut bits)?.placed, 0);
    /// assert_eq!(sender.enable(), 0b1000);
    ///
    /// // The next system packet enables all.
    /// let all = SystemPacket { enable: SystemPacket::ALL_ENABLED, ..high };
    /// assert_eq!(sender.block(&store, 256, 256, Some(all), &mut bits)?.placed, 1);
    /// # Ok(())
    /// # }
    /// ```
    pub fn enable(&self) -> u64 {
        self.record[ENABLE].into()
    }

    /// The record's bytes. Their layout is no storage format: a later version may have another.
    pub fn as_bytes(&self) -> &[u8; SENDER_RECORD] {
        &self.record
    }

    /// The sender of a record's bytes. Any bytes may be given; those out of a record's range every call refuses by 14.
    pub fn from_bytes(record: [u8; SENDER_RECORD]) -> Sender {
        Sender { record }
    }
}

/// Where the record's four slots begin, one for each circuit number, and a slot's bytes.
const SLOTS: usize = 13;
const SLOT: usize = 10;
/// The record's byte that holds the enable bits in force.
const ENABLE: usize = 54;

/// The packets still to go of a slot: its last two bytes, lowest first.
fn left_in(slot: &[u8]) -> usize {
    u16::from_le_bytes([slot[8], slot[9]]).into()
}
