//! The AES18 user-bit channel written a second time from its specification (document 01, "01" below), to be compared with the proved
//! library. It shares no code with the library and works differently: bits are strings of `bool`, a receiver keeps the bits themselves
//! since the last flag and searches them for flags, bodies are unstuffed whole, the FCS is a long division, and a sender holds a queue
//! of ready copies for each circuit and the system packets that it sent; the serial line is a text that is cut at its flags, and so are the
//! bits of a framing alone. It is meant to be checked by reading it beside 01 and the change requests, not to be fast or small.
//!
//! [`sender::Sender`] and [`receiver::Receiver`] are the two ends with all they remember, [`totals::Totals`] what notices add up to,
//! [`framing::Framing`] reads packets of whatever circuit, [`mod@line`] is the serial line. [`calls`] has the functions of the C interface,
//! which are given a record as bytes: there an end is built anew from the bytes in each call.
#![forbid(unsafe_code)]

pub mod bits;
pub mod calls;
pub mod framing;
pub mod hdlc;
pub mod history;
pub mod lent;
pub mod line;
pub mod packet;
pub mod receiver;
pub mod records;
pub mod sender;
pub mod totals;

/// Bytes of a store that belong to one circuit.
pub const REGION: usize = 4096;
/// Bytes a sender's store must have.
pub const SENDER_STORE: usize = 16384;
/// Bytes a receiver's store must have.
pub const RECEIVER_STORE: usize = 16400;
/// Where a receiver's store holds the information of a system packet.
pub const SYSTEM_PLACE: usize = 16384;
/// Bytes of the longest message that goes to a circuit's region.
pub const LONGEST_MESSAGE: usize = 4094;
/// Bytes of the shortest and of the longest long message (02, ask 7).
pub const SHORTEST_LONG: usize = 4095;
pub const LONGEST_LONG: usize = 65_535;
/// Bytes a long buffer must have.
pub const LONG_BUFFER: usize = 65_535;
