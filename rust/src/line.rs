//! The serial line to a telemetry terminal.

use crate::calls;
use crate::lengths::{LINE_RECORD, LONGEST_PACKET};
use crate::packet::Packet;
use crate::refusal::Refusal;

/// Writes a packet of 2 to 19 bytes to the start of `line` as a frame of RFC 1662, and answers how many bytes the frame has: a flag (7E hex), the
/// packet and its FCS, and a flag. Each 7E and 7D between the flags is sent as 7D and the byte exclusive-ored with 20 hex; nothing else is
/// escaped. Bytes behind the frame keep their values.
///
/// `line` must have room for the worst case, 2 bytes for each packet and FCS byte plus 2 flags, whatever this frame needs;
/// [`LONGEST_LINE_FRAME`](crate::LONGEST_LINE_FRAME) bytes are enough for every packet.
///
/// ```
/// use aes18::{write_line, Refusal};
///
/// let mut line = [0; 12];
/// assert_eq!(write_line(&[0x01, 0x7E, 0x02], &mut line), Ok(8));
/// assert_eq!(line[..5], [0x7E, 0x01, 0x7D, 0x5E, 0x02]);
/// assert_eq!(line[7..], [0x7E, 0, 0, 0, 0]);
///
/// // Two bytes for each of 3 + 2, and two flags.
/// assert_eq!(write_line(&[0x01, 0x7E, 0x02], &mut line[..11]), Err(Refusal::LineTooShort));
/// ```
///
/// # Errors
///
/// The first of these refusals that applies: 17, 16.
pub fn write_line(packet: &[u8], line: &mut [u8]) -> Result<usize, Refusal> {
    calls::line_write(packet, line).map(number)
}

/// A reader of the serial line: where it stands between two flags.
///
/// It is a value of 24 bytes; a copy of it is a reader of its own. The line may be given cut at any place:
///
/// ```
/// use aes18::{write_line, LineReader, LONGEST_LINE_FRAME};
///
/// # fn main() -> Result<(), aes18::Refusal> {
/// // Two packets, the second behind the first.
/// let mut line = [0; 2 * LONGEST_LINE_FRAME];
/// let mut end = write_line(&[0x01, 0x7E, 0x02], &mut line)?;
/// end += write_line(b"charge 71%", &mut line[end..])?;
///
/// // The cut is between an escape and what it escapes.
/// let (first, second) = line[..end].split_at(3);
/// assert_eq!((first, second[0]), (&[0x7E, 0x01, 0x7D][..], 0x5E));
///
/// // Each part is read from packet to packet, until there is none.
/// let mut reader = LineReader::new();
/// let mut packets = Vec::new();
/// for mut part in [first, second] {
///     loop {
///         let read = reader.read(part);
///         part = &part[read.bytes..];
///         match read.packet {
///             Some(packet) => packets.push(packet.to_vec()),
///             None => break,
///         }
///     }
/// }
/// assert_eq!(packets, [&[0x01, 0x7E, 0x02][..], b"charge 71%"]);
/// # Ok(())
/// # }
/// ```
///
/// Bytes before the first flag are skipped, and two flags in a row hold no frame. A frame is dropped, without a word, if its FCS is wrong, if its
/// packet is outside 2 to 19 bytes or if its escape is followed by a flag, which is a flag all the same: what stands behind any 7E is read as it
/// would be behind a first flag. Frames may share a flag.
#[derive(Clone, Copy, Debug, PartialEq, Eq)]
pub struct LineReader {
    record: [u8; LINE_RECORD],
}

/// The answer of a line's read.
#[derive(Clone, Copy, Debug, PartialEq, Eq)]
pub struct LineRead {
    /// The packet that the call stopped behind; none where the bytes end before any.
    pub packet: Option<Packet>,
    /// How many bytes it read; the next call goes on behind them.
    pub bytes: usize,
}

impl LineReader {
    /// A fresh reader, before any byte of a line.
    pub const fn new() -> LineReader {
        LineReader {
            record: [0; LINE_RECORD],
        }
    }

    /// Reads the bytes of the line, and stops behind the first packet, or at their end. Every byte is taken; nothing is refused.
    pub fn read(&mut self, line: &[u8]) -> LineRead {
        let mut bytes = [0; LONGEST_PACKET];
        let [length, _, _, _, _, _, _, _, read @ ..] =
            calls::line_read(&mut self.record, line, &mut bytes);
        let length = usize::from(length);
        LineRead {
            packet: (length > 0).then_some(Packet::of(bytes, length)),
            bytes: number(read),
        }
    }

    /// The record's bytes. Their layout is no storage format: a later version may have another.
    pub fn as_bytes(&self) -> &[u8; LINE_RECORD] {
        &self.record
    }

    /// The reader of a record's bytes. Any bytes are some reader.
    pub fn from_bytes(record: [u8; LINE_RECORD]) -> LineReader {
        LineReader { record }
    }
}

/// [`LineReader::new`].
impl Default for LineReader {
    fn default() -> LineReader {
        LineReader::new()
    }
}

/// A number of bytes in an answer; it is never above that of the bytes lent.
fn number(bytes: [u8; 8]) -> usize {
    u64::from_le_bytes(bytes) as usize
}
