//! The receiving end.

use crate::calls;
use crate::circuit::{Circuit, List};
use crate::framing::Framing;
use crate::lengths::{LONGEST_MESSAGE, RECEIVER_RECORD};
use crate::notice::Notice;
use crate::refusal::Refusal;

/// A receiver: the circuits it lists, what came there, and where it stands between two flags.
///
/// It is a value of 61 bytes; a copy of it is a receiver of its own, with a store of its own, and a long buffer of its own if it has one. Bits may be given
/// cut at any place:
///
/// ```
/// use aes18::{Circuit, Fate, Notice, Receiver, Sender, RECEIVER_STORE, SENDER_STORE};
///
/// # fn main() -> Result<(), aes18::Refusal> {
/// # let circuits = [Circuit { address: 0x01, extension: None }];
/// # let mut store = [0; SENDER_STORE];
/// # let mut sender = Sender::list(&circuits)?;
/// # sender.offer(&mut store, 0, 0, 0, b"charge 71%")?;
/// # let mut bits = [0; 40];
/// # sender.block(&store, 320, 320, None, &mut bits)?;
/// let mut store = [0; RECEIVER_STORE];
/// let mut receiver = Receiver::list(&circuits)?;
///
/// // The first 50 bits end inside a frame; there is nothing to tell yet.
/// let read = receiver.read(&mut store, &bits, 0, 50)?;
/// assert_eq!((read.notice, read.bits), (Notice::End, 50));
///
/// // The next call goes on from there, and stops behind the frame's closing flag.
/// let read = receiver.read(&mut store, &bits, 50, 320)?;
/// let fate = Fate::Whole(10);
/// assert_eq!(read.notice, Notice::Circuit { number: 0, loss: 0, fate });
/// assert_eq!(read.notice.message(&store), Some(&b"charge 71%"[..]));
/// # Ok(())
/// # }
/// ```
#[derive(Clone, Copy, Debug, PartialEq, Eq)]
pub struct Receiver {
    record: [u8; RECEIVER_RECORD],
}

/// The answer of a reading call.
#[derive(Clone, Copy, Debug, PartialEq, Eq)]
pub struct Read {
    /// What the call stopped at.
    pub notice: Notice,
    /// How many bits it read; the next call goes on behind them.
    pub bits: u64,
}

/// A message of which some packets have come and more are due.
#[derive(Clone, Copy, Debug, PartialEq, Eq)]
pub struct Open {
    /// The length of the whole message. That of a long message nobody knows before its last packet: this is the most that it may have, 65,535.
    pub length: usize,
    /// How many of its bytes have come: fewer than its length. They stand at the start of its circuit's region of the store, and those of a long message
    /// at the start of the long buffer.
    pub received: usize,
}

impl Open {
    /// Whether it is a long message.
    ///
    /// ```
    /// use aes18::{Circuit, Open, Receiver, Sender, LONG_BUFFER, RECEIVER_STORE, SENDER_STORE};
    ///
    /// # fn main() -> Result<(), aes18::Refusal> {
    /// # let circuits = [Circuit { address: 0x30, extension: None }];
    /// # let (store, mut buffer) = ([0; SENDER_STORE], vec![0; LONG_BUFFER]);
    /// # let mut sender = Sender::list(&circuits)?;
    /// # sender.offer_long(&store, &mut buffer, 0, 0, &[0x55; 5000])?;
    /// # let mut bits = [0; 32];
    /// # sender.block_beside(&store, &buffer, 256, 256, None, &mut bits)?;
    /// // The first block of a message of 5,000 bytes. How long it is, nobody can tell yet.
    /// let (mut store, mut buffer) = ([0; RECEIVER_STORE], vec![0; LONG_BUFFER]);
    /// let mut receiver = Receiver::list(&circuits)?;
    /// receiver.read_beside(&mut store, &mut buffer, &bits, 0, 256)?;
    /// let open = Open { length: 65_535, received: 14 };
    /// assert_eq!(receiver.open(0), Some(open));
    /// assert!(open.is_long());
    /// # Ok(())
    /// # }
    /// ```
    pub fn is_long(&self) -> bool {
        self.length > LONGEST_MESSAGE
    }
}

impl Receiver {
    /// A fresh receiver for one to four circuits, numbered from 0 in their order.
    ///
    /// # Errors
    ///
    /// The first of these refusals that applies: 1, 2, 4.
    pub fn list(circuits: &[Circuit]) -> Result<Receiver, Refusal> {
        let mut record = [0; RECEIVER_RECORD];
        calls::receiver_list(&mut record, List::of(circuits).bytes())?;
        Ok(Receiver { record })
    }

    /// Reads the bits numbered `from` up to, but not with, `to`, and stops after the first notice, or at the end with [`Notice::End`]. Bit 0 is the
    /// lowest bit of the first byte. The bytes of a message go to its circuit's region of the store as they come.
    ///
    /// # Errors
    ///
    /// The first of these refusals that applies: 14, 5, 15.
    pub fn read(
        &mut self,
        store: &mut [u8],
        bits: &[u8],
        from: u64,
        to: u64,
    ) -> Result<Read, Refusal> {
        calls::receiver_read(&mut self.record, store, bits, from, to).map(Read::of)
    }

    /// [`Receiver::read`] of a receiver that has a long buffer. The bytes of a long message, which its last packet ends, go to the start of the buffer as
    /// they come, and nothing of it to the store. See [the package](crate#long-messages) for the whole of it.
    ///
    /// # Errors
    ///
    /// The first of these refusals that applies: 14, 5, 19, 15.
    pub fn read_beside(
        &mut self,
        store: &mut [u8],
        buffer: &mut [u8],
        bits: &[u8],
        from: u64,
        to: u64,
    ) -> Result<Read, Refusal> {
        calls::receiver_read_beside(&mut self.record, store, buffer, bits, from, to).map(Read::of)
    }

    /// The message that is open at a circuit: it was begun, and neither completed nor dropped since. None where none is open or the circuit is not
    /// listed.
    ///
    /// ```
    /// use aes18::{Circuit, Open, Receiver, Sender, RECEIVER_STORE, SENDER_STORE};
    ///
    /// # fn main() -> Result<(), aes18::Refusal> {
    /// # let circuits = [Circuit { address: 0x01, extension: None }];
    /// # let mut store = [0; SENDER_STORE];
    /// # let mut sender = Sender::list(&circuits)?;
    /// # sender.offer(&mut store, 0, 0, 0, &[0x55; 100])?;
    /// # let mut bits = [0; 32];
    /// # sender.block(&store, 256, 256, None, &mut bits)?;
    /// // The first block of a message of 100 bytes has room for one packet of it.
    /// let mut store = [0; RECEIVER_STORE];
    /// let mut receiver = Receiver::list(&circuits)?;
    /// receiver.read(&mut store, &bits, 0, 256)?;
    /// assert_eq!(receiver.open(0), Some(Open { length: 100, received: 14 }));
    /// assert_eq!(receiver.open(1), None);
    /// # Ok(())
    /// # }
    /// ```
    pub fn open(&self, number: usize) -> Option<Open> {
        if number >= usize::from(self.record[0]) {
            return None;
        }
        let mut slots = self.record[SLOTS..FRAMING].chunks_exact(SLOT);
        slots.nth(number).and_then(open_in)
    }

    /// A copy of the framing by which it reads: where it stands between two flags.
    pub fn framing(&self) -> Framing {
        Framing::from_bytes(core::array::from_fn(|at| self.record[FRAMING + at]))
    }

    /// The record's bytes. Their layout is no storage format: a later version may have another.
    pub fn as_bytes(&self) -> &[u8; RECEIVER_RECORD] {
        &self.record
    }

    /// The receiver of a record's bytes. Any bytes may be given; those out of a record's range every call refuses by 14.
    pub fn from_bytes(record: [u8; RECEIVER_RECORD]) -> Receiver {
        Receiver { record }
    }
}

impl Read {
    /// The notice and the bits read of an answer.
    fn of(answer: [u8; 16]) -> Read {
        let [.., b0, b1, b2, b3, b4, b5, b6, b7] = answer;
        Read {
            notice: Notice::of(&answer),
            bits: u64::from_le_bytes([b0, b1, b2, b3, b4, b5, b6, b7]),
        }
    }
}

/// Where the record's four slots begin, one for each circuit number, and a slot's bytes. Its bytes 2 and 3 are the length of the open message, its
/// bytes 4 and 5 how many of its bytes have come, lowest byte first.
const SLOTS: usize = 13;
const SLOT: usize = 6;
/// Where the record's framing begins, behind the slots.
const FRAMING: usize = 37;

/// The message that is open in a slot: one is exactly if fewer bytes have come than it has.
fn open_in(slot: &[u8]) -> Option<Open> {
    let length = usize::from(u16::from_le_bytes([slot[2], slot[3]]));
    let received = usize::from(u16::from_le_bytes([slot[4], slot[5]]));
    (received < length).then_some(Open { length, received })
}
