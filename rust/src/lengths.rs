//! Lengths in bytes of what is lent and of what is kept.

/// Bytes of a store's region. Each circuit number has one, from byte 4,096 times the number.
pub const REGION: usize = 4096;
/// Bytes that a sender's store must have; what a longer one has behind them is unused.
pub const SENDER_STORE: usize = 4 * REGION;
/// The byte of a receiver's store from which a system packet's information stands.
pub const SYSTEM_PLACE: usize = 4 * REGION;
/// Bytes that a receiver's store must have; what a longer one has behind them is unused.
pub const RECEIVER_STORE: usize = SYSTEM_PLACE + 16;
/// Bytes of the longest message that stands in a region.
pub const LONGEST_MESSAGE: usize = 4094;
/// Bytes of the shortest long message.
pub const SHORTEST_LONG_MESSAGE: usize = LONGEST_MESSAGE + 1;
/// Bytes of the longest long message.
pub const LONGEST_LONG_MESSAGE: usize = 65_535;
/// Bytes that a long buffer must have; what a longer one has behind them is unused.
pub const LONG_BUFFER: usize = LONGEST_LONG_MESSAGE;
/// Bytes of a sender's record.
pub const SENDER_RECORD: usize = 55;
/// Bytes of a receiver's record.
pub const RECEIVER_RECORD: usize = 61;
/// Bytes of a record of totals.
pub const TOTALS_RECORD: usize = 64;
/// Bytes of the record of a framing.
pub const FRAMING_RECORD: usize = 24;
/// Bytes of the record of a serial line's reader.
pub const LINE_RECORD: usize = 24;
/// Bytes of the shortest packet that a frame holds.
pub const SHORTEST_PACKET: usize = 2;
/// Bytes of the longest packet that a frame holds.
pub const LONGEST_PACKET: usize = 19;
/// Bytes of the longest frame of the serial line: two for each byte of the longest packet and of its FCS, and two flags.
pub const LONGEST_LINE_FRAME: usize = 2 * (LONGEST_PACKET + 2) + 2;
