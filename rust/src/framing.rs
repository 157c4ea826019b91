//! The framing of user bits, without circuits.

use crate::calls;
use crate::lengths::{FRAMING_RECORD, LONGEST_PACKET};
use crate::packet::Packet;
use crate::refusal::Refusal;

/// A framing: where a reader of user bits stands between two flags. It hears every packet that passes, of whatever circuit, and lists none.
///
/// It is a value of 24 bytes; a copy of it is a framing of its own. Bits may be given cut at any place:
///
/// ```
/// use aes18::{Stop, Circuit, Framing, Sender, SENDER_STORE};
///
/// # fn main() -> Result<(), aes18::Refusal> {
/// # let circuit = |address| Circuit { address, extension: None };
/// # let mut store = [0; SENDER_STORE];
/// # let mut sender = Sender::list(&[circuit(0x01), circuit(0x2A)])?;
/// # sender.offer(&mut store, 0, 3, 0, b"charge 71%")?;
/// # sender.offer(&mut store, 1, 0, 0, b"doors shut")?;
/// # let mut bits = [0; 40];
/// # sender.block(&store, 320, 320, None, &mut bits)?;
/// // A block with a packet of circuit 01 and one of circuit 2A. A bit of the first is torn.
/// bits[5] ^= 1;
///
/// // The first 50 bits end inside a frame; there is nothing to tell yet.
/// let mut framing = Framing::new();
/// let read = framing.read(&bits, 0, 50)?;
/// assert_eq!((read.stop, read.bits), (Stop::End, 50));
///
/// // The next call goes on from there, and stops behind the torn frame's closing flag.
/// let read = framing.read(&bits, 50, 320)?;
/// assert_eq!(read.stop, Stop::Spoilt);
///
/// // Then comes the packet of circuit 2A, which nobody had to list.
/// let read = framing.read(&bits, 50 + read.bits, 320)?;
/// let Stop::Packet(packet) = read.stop else { panic!() };
/// assert_eq!(packet.as_bytes(), b"\x2A\x80\x0Adoors shut");
/// # Ok(())
/// # }
/// ```
///
/// A receiver reads by a framing too, which [`Receiver::framing`](crate::Receiver::framing) gives: a copy that is taken before a call of the
/// receiver, and reads the bits that this call read, has the packet behind the notice. Bits need not be kept for it:
///
/// ```
/// use aes18::{Stop, Circuit, Notice, Receiver, Sender, RECEIVER_STORE, SENDER_STORE};
///
/// # fn main() -> Result<(), aes18::Refusal> {
/// # let circuit = |address| Circuit { address, extension: None };
/// # let mut store = [0; SENDER_STORE];
/// # let mut sender = Sender::list(&[circuit(0x2A)])?;
/// # sender.offer(&mut store, 0, 0, 0, b"doors shut")?;
/// # let mut bits = [0; 40];
/// # sender.block(&store, 320, 320, None, &mut bits)?;
/// let mut store = [0; RECEIVER_STORE];
/// let mut receiver = Receiver::list(&[circuit(0x01)])?;
/// receiver.read(&mut store, &bits, 0, 50)?;
///
/// let mut framing = receiver.framing();
/// let read = receiver.read(&mut store, &bits, 50, 320)?;
/// assert_eq!(read.notice, Notice::Elsewhere);
///
/// let Stop::Packet(packet) = framing.read(&bits, 50, 50 + read.bits)?.stop else { panic!() };
/// assert_eq!(packet[0], 0x2A);
/// assert_eq!(framing, receiver.framing());
/// # Ok(())
/// # }
/// ```
#[derive(Clone, Copy, Debug, PartialEq, Eq)]
pub struct Framing {
    record: [u8; FRAMING_RECORD],
}

/// The answer of a framing's read.
#[derive(Clone, Copy, Debug, PartialEq, Eq)]
pub struct FramingRead {
    /// What the call stopped at.
    pub stop: Stop,
    /// How many bits it read; the next call goes on behind them.
    pub bits: u64,
}

/// What a framing's read stopped at: the body of a frame, or the end of the bits.
#[derive(Clone, Copy, Debug, PartialEq, Eq)]
pub enum Stop {
    /// All bits are read and there is nothing more to tell.
    End,
    /// A body that unstuffs to 32 bits or more, has no seven ones in a row and does not pass: its end, its length or its FCS is wrong.
    Spoilt,
    /// A body that passes: this is its packet. Whether a sender makes such a packet, or it is malformed, is not looked at.
    Packet(Packet),
}

impl Framing {
    /// A fresh framing, before any bit.
    pub const fn new() -> Framing {
        Framing {
            record: [0; FRAMING_RECORD],
        }
    }

    /// Reads the bits numbered `from` up to, but not with, `to`, and stops behind the first body that passes or is spoilt, or at the end with
    /// [`Stop::End`]. Bit 0 is the lowest bit of the first byte. So it stops where a receiver's read gives a notice.
    ///
    /// # Errors
    ///
    /// The first of these refusals that applies: 14, 15.
    pub fn read(&mut self, bits: &[u8], from: u64, to: u64) -> Result<FramingRead, Refusal> {
        let mut bytes = [0; LONGEST_PACKET];
        let [stop, length, _, _, _, _, _, _, read @ ..] =
            calls::framing_read(&mut self.record, bits, from, to, &mut bytes)?;
        Ok(FramingRead {
            stop: match stop {
                0 => Stop::End,
                1 => Stop::Spoilt,
                2 => Stop::Packet(Packet::of(bytes, usize::from(length))),
                _ => unreachable!("a framing's read answers 0 to 2"),
            },
            bits: u64::from_le_bytes(read),
        })
    }

    /// The record's bytes. Their layout is no storage format: a later version may have another.
    pub fn as_bytes(&self) -> &[u8; FRAMING_RECORD] {
        &self.record
    }

    /// The framing of a record's bytes. Any bytes may be given; those of a framing that no bits leave every call refuses by 14.
    pub fn from_bytes(record: [u8; FRAMING_RECORD]) -> Framing {
        Framing { record }
    }
}

/// [`Framing::new`].
impl Default for Framing {
    fn default() -> Framing {
        Framing::new()
    }
}
