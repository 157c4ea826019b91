//! Frames of packets, in user bits and on the serial line. The FCS of a packet is taken from the frame that the library writes for the line.

use aes18::{write_line, Framing, Packet, Refusal, Stop, LONGEST_LINE_FRAME};

/// A flag, as a byte of the line and as eight user bits.
pub const FLAG: u8 = 0x7E;
/// Bits of a flag.
pub const FLAG_BITS: u64 = 8;
const ESCAPE: u8 = 0x7D;
/// What an escaped byte is exclusive-ored with.
const ESCAPED: u8 = 0x20;
/// Ones behind which a zero is stuffed.
const RUN: u32 = 5;
/// Bytes of an FCS.
const FCS_BYTES: u64 = 2;

/// Bits in bytes, the first in the lowest bit; spare bits of the last byte are 0.
#[derive(Default)]
pub struct Bits {
    pub bytes: Vec<u8>,
    pub count: u64,
}

impl Bits {
    fn push(&mut self, one: bool) {
        let place = self.count % 8;
        if place == 0 {
            self.bytes.push(0);
        }
        if let Some(last) = self.bytes.last_mut() {
            *last |= u8::from(one) << place;
        }
        self.count += 1;
    }

    fn push_byte(&mut self, byte: u8) {
        (0..8).for_each(|place| self.push(bit(&[byte], place)));
    }
}

/// The bit of that number in bytes.
pub fn bit(bytes: &[u8], number: u64) -> bool {
    bytes[(number / 8) as usize] >> (number % 8) & 1 == 1
}

/// A packet's frame on the serial line.
pub fn on_line(packet: &[u8]) -> Result<Vec<u8>, Refusal> {
    let mut line = vec![0; LONGEST_LINE_FRAME];
    let length = write_line(packet, &mut line)?;
    line.truncate(length);
    Ok(line)
}

/// What a frame on the serial line has between its flags, without escapes: a packet and its FCS.
fn unescaped(frame: &[u8]) -> Vec<u8> {
    let mut escape = false;
    let mut bytes = Vec::with_capacity(frame.len());
    for byte in frame.iter().copied().filter(|byte| *byte != FLAG) {
        match (escape, byte) {
            (false, ESCAPE) => escape = true,
            (false, _) => bytes.push(byte),
            (true, _) => {
                bytes.push(byte ^ ESCAPED);
                escape = false;
            }
        }
    }
    bytes
}

/// A packet with its FCS behind it.
pub fn with_fcs(packet: &[u8]) -> Result<Vec<u8>, Refusal> {
    on_line(packet).map(|frame| unescaped(&frame))
}

/// The bits that a frame has between its flags before stuffing: those of a packet of so many bytes, and of its FCS.
pub fn unstuffed_bits(packet: u64) -> u64 {
    8 * (packet + FCS_BYTES)
}

/// The packet of the body that passes with the last of the bits `from..to`, and none before, read by the framing as it was before them.
pub fn packet(
    mut framing: Framing,
    bytes: &[u8],
    from: u64,
    to: u64,
) -> Result<Option<Packet>, Refusal> {
    match framing.read(bytes, from, to)?.stop {
        Stop::Packet(packet) => Ok(Some(packet)),
        Stop::Spoilt | Stop::End => Ok(None),
    }
}

/// Bytes as the body of a frame in user bits, with a flag before it and one behind it.
pub fn in_bits(bytes: &[u8]) -> Bits {
    let mut frame = Bits::default();
    frame.push_byte(FLAG);
    let mut ones = 0;
    for number in 0..8 * bytes.len() as u64 {
        let one = bit(bytes, number);
        frame.push(one);
        ones = if one { ones + 1 } else { 0 };
        if ones == RUN {
            frame.push(false);
            ones = 0;
        }
    }
    frame.push_byte(FLAG);
    frame
}

#[cfg(test)]
mod tests {
    use super::*;

    /// Bits as text.
    fn text(bits: &Bits) -> String {
        let digit = |number| if bit(&bits.bytes, number) { '1' } else { '0' };
        (0..bits.count).map(digit).collect()
    }

    /// The body of the frame of these bytes.
    fn body(bytes: &[u8]) -> String {
        let frame = text(&in_bits(bytes));
        let flag = "01111110";
        let body = frame.strip_prefix(flag).and_then(|f| f.strip_suffix(flag));
        body.unwrap().to_string()
    }

    /// The specification's own cases.
    #[test]
    fn stuffed_bytes() {
        assert_eq!(body(&[]), "");
        assert_eq!(body(&[0xFF]), "111110111");
        assert_eq!(body(&[0xF8]), "000111110");
        assert_eq!(body(&[0x7E]), "011111010");
        assert_eq!(body(&[0xFF; 21]).len(), 201);
        assert_eq!(in_bits(&[0x00]).bytes, [0x7E, 0x00, 0x7E]);
    }

    #[test]
    fn escapes_are_undone() {
        let packet = [0x7E, 0x7D, 0x5E, 0x5D, 0x20, 0x7D, 0x7E];
        let frame = on_line(&packet).unwrap();
        assert_eq!(frame[..5], [0x7E, 0x7D, 0x5E, 0x7D, 0x5D]);
        let bytes = with_fcs(&packet).unwrap();
        assert_eq!((&bytes[..7], bytes.len()), (&packet[..], 9));
        assert_eq!(with_fcs(&[0x01]), Err(Refusal::PacketLength));
    }

    /// The published FCS of the nine digits, 906E hex, low byte first.
    #[test]
    fn a_published_fcs() {
        let bytes = with_fcs(b"123456789").unwrap();
        assert_eq!(bytes, b"123456789\x6E\x90");
    }
}
