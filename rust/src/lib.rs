//! Messages in the user bits of AES3 audio (AES18, ITU-R BS.776), sent and received by functions that are proved in Rattle. This library gives
//! them as safe Rust types; it has no dependencies, allocates nothing and needs no standard library.
//!
//! A [`Sender`] lists up to four circuits, takes messages of up to 4,094 bytes there and makes blocks of user bits. A [`Receiver`] lists circuits
//! and reads user bits, cut anywhere, up to the next [`Notice`]. Both are plain values. The bytes that they work on are lent in each call: a
//! store of [`SENDER_STORE`] or [`RECEIVER_STORE`] bytes, the same one at every call of that end, which nobody else writes in between. [`Totals`]
//! beside a receiver are what its notices add up to. A [`Framing`] reads every [`Packet`] that passes in user bits, whatever its circuit, without a
//! store or a list.
//!
//! Messages of 4,095 to 65,535 bytes are sent and received too, by ends that are lent a [long buffer](#long-messages) beside the store.
//!
//! Beside the user bits there is the serial line to a telemetry terminal: packets of 2 to 19 bytes as the octet-stuffed frames of RFC 1662.
//! [`write_line`] writes a packet's frame, and a [`LineReader`] reads the packets of a line that is cut anywhere.
//!
//! Every call takes any input: it answers its result or a [`Refusal`], and a refused call changes nothing.
//!
//! # A pass, sent and read back
//!
//! ```
//! use aes18::{Circuit, Notice, Receiver, Sender, RECEIVER_STORE, SENDER_STORE};
//!
//! # fn main() -> Result<(), aes18::Refusal> {
//! let battery = Circuit { address: 0x01, extension: None };
//! let switches = Circuit { address: 0x02, extension: Some(0x07) };
//!
//! // Two messages: at circuit 0 with priority 1 sent once, at circuit 1 with priority 3 sent twice.
//! let mut store = [0; SENDER_STORE];
//! let mut sender = Sender::list(&[battery, switches])?;
//! sender.offer(&mut store, 0, 1, 0, b"charge 71%, rising at 2 A")?;
//! sender.offer(&mut store, 1, 3, 1, &[0x0F, 0xF0])?;
//!
//! // A block of 800 user bits that may all be used.
//! let mut bits = [0; 100];
//! let block = sender.block(&store, 800, 800, None, &mut bits)?;
//! assert_eq!(block.placed, 4);
//!
//! // At the other end: read from notice to notice until End.
//! let mut store = [0; RECEIVER_STORE];
//! let mut receiver = Receiver::list(&[battery, switches])?;
//! let mut messages = Vec::new();
//! let mut from = 0;
//! loop {
//!     let read = receiver.read(&mut store, &bits, from, 800)?;
//!     from += read.bits;
//!     if let Some(message) = read.notice.message(&store) {
//!         messages.push(message.to_vec());
//!     }
//!     if read.notice == Notice::End {
//!         break;
//!     }
//! }
//! assert_eq!(messages, [&[0x0F, 0xF0][..], b"charge 71%, rising at 2 A"]);
//! # Ok(())
//! # }
//! ```
//!
//! # Long messages
//!
//! A message of 4,095 to 65,535 bytes is a long one. It goes over at circuit number 0 of both ends, which are lent a long buffer of [`LONG_BUFFER`] bytes
//! each: from its listing on, an end has this buffer, the same one, in all its calls or in none, and nobody else writes it between them. The calls of an
//! end that has one are [`Sender::offer_long`], [`Sender::offer_beside`], [`Sender::block_beside`] and [`Receiver::read_beside`]. By these, shorter
//! messages go over as they do without it, at circuit 0 too. [`Notice::message_beside`] has what is handed over, long or not.
//!
//! ```
//! use aes18::{Circuit, Notice, Receiver, Sender, LONG_BUFFER, RECEIVER_STORE, SENDER_STORE};
//!
//! # fn main() -> Result<(), aes18::Refusal> {
//! let camera = Circuit { address: 0x30, extension: None };
//! let image: Vec<u8> = (0..30_000).map(|at| (at % 251) as u8).collect();
//!
//! let (mut store, mut buffer) = ([0; SENDER_STORE], vec![0; LONG_BUFFER]);
//! let mut sender = Sender::list(&[camera])?;
//! sender.offer_long(&store, &mut buffer, 1, 0, &image)?;
//!
//! let (mut heard, mut collected) = ([0; RECEIVER_STORE], vec![0; LONG_BUFFER]);
//! let mut receiver = Receiver::list(&[camera])?;
//! let mut lengths = Vec::new();
//! for n in 0..200 {
//!     if n == 190 {
//!         sender.offer_beside(&mut store, &buffer, 0, 1, 0, b"shutter closed")?;
//!     }
//!     let mut bits = [0; 240];
//!     sender.block_beside(&store, &buffer, 1920, 1920, None, &mut bits)?;
//!     let mut from = 0;
//!     loop {
//!         let read = receiver.read_beside(&mut heard, &mut collected, &bits, from, 1920)?;
//!         from += read.bits;
//!         if let Some(message) = read.notice.message_beside(&heard, &collected) {
//!             assert!(message == image || message == b"shutter closed");
//!             lengths.push(message.len());
//!         }
//!         if read.notice == Notice::End {
//!             break;
//!         }
//!     }
//! }
//! assert_eq!(lengths, [30_000, 14]);
//! # Ok(())
//! # }
//! ```
//!
//! The record of an end that has a long buffer is out of range for the calls without: a sender's from a long offer on until a shorter message is taken at
//! circuit 0, a receiver's while a long message is open.
//!
//! No loss above six packets is told. Where more are lost in a row inside a message, the length in its header mostly betrays it, and the fate is
//! [`Fate::Wrong`]. A long message has no such length: it may then be handed over without the bytes of the packets lost.
//!
//! # Other makers' gear
//!
//! Blocks are bit for bit what BS.776, its HDLC framing and the specification (document 01, with document 02's enable bits and long messages) give. In
//! these places the specification decides otherwise than BS.776: the message continuity index (section 5.2.1.1) is sent as 0 and not looked at; no seven
//! ones need stand before a block (6.1.2); no justification is mandatory (6.3.1); a block takes packets by priority as long as they fit, with no table of
//! the most packets of a message and no rule that spreads them over blocks (6.3.2.1); and messages that BS.776 codes with the length 4,095, above 4,094
//! bytes or of unknown length (5.2.1.2), go over at circuit 0 alone and have 4,095 to 65,535 bytes: these are the long ones. Whether enable bits (6.2.1.1)
//! rule later blocks that have no system packet, BS.776 does not say; here they do, and gear that takes each block by itself needs a system packet in
//! every block. `include/aes18.h` in the repository says what a caller does about the others.
//!
//! # Linking
//!
//! The build script links the proved static library `libaes18.a`: the one in the folder that the environment variable `AES18_ARCHIVE` names, or
//! else the one that `tools/staticlib` proves and writes in the repository around this package. A relative `AES18_ARCHIVE` starts at this
//! package's folder. It has to be of this version: an earlier one has no calls for long messages, or takes a sender's record too and lays it out otherwise,
//! without the packets still to go, or leaves the stuffed zeros of every block 0.

#![no_std]
#![deny(unsafe_code)]
#![warn(missing_docs)]

#[allow(unsafe_code)]
mod calls;
mod circuit;
pub mod ffi;
mod framing;
mod lengths;
mod line;
mod notice;
mod packet;
mod receiver;
mod refusal;
mod sender;
mod system;
mod totals;

pub use circuit::Circuit;
pub use framing::{Framing, FramingRead, Stop};
pub use lengths::{
    FRAMING_RECORD, LINE_RECORD, LONGEST_LINE_FRAME, LONGEST_LONG_MESSAGE, LONGEST_MESSAGE,
    LONGEST_PACKET, LONG_BUFFER, RECEIVER_RECORD, RECEIVER_STORE, REGION, SENDER_RECORD,
    SENDER_STORE, SHORTEST_LONG_MESSAGE, SHORTEST_PACKET, SYSTEM_PLACE, TOTALS_RECORD,
};
pub use line::{write_line, LineRead, LineReader};
pub use notice::{Fate, Notice};
pub use packet::Packet;
pub use receiver::{Open, Read, Receiver};
pub use refusal::Refusal;
pub use sender::{Block, Sender};
pub use system::SystemPacket;
pub use totals::{Figures, Totals};
