//! The packet of a frame.

use core::ops::Deref;

use crate::lengths::LONGEST_PACKET;

/// A packet, as a frame of the user bits or of the serial line holds it: 2 to 19 bytes, without the FCS.
#[derive(Clone, Copy, Debug, PartialEq, Eq)]
pub struct Packet {
    bytes: [u8; LONGEST_PACKET],
    length: usize,
}

impl Packet {
    /// The first `length` of these bytes, all others 0.
    pub(crate) const fn of(bytes: [u8; LONGEST_PACKET], length: usize) -> Packet {
        Packet { bytes, length }
    }

    /// Its bytes.
    pub fn as_bytes(&self) -> &[u8] {
        &self.bytes[..self.length]
    }
}

impl AsRef<[u8]> for Packet {
    fn as_ref(&self) -> &[u8] {
        self.as_bytes()
    }
}

impl Deref for Packet {
    type Target = [u8];

    fn deref(&self) -> &[u8] {
        self.as_bytes()
    }
}
