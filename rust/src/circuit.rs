//! Circuits and circuit lists.

use core::fmt;

/// A circuit: an address byte, with or without one extension byte.
///
/// ```
/// use aes18::Circuit;
///
/// assert_eq!(Circuit { address: 0x01, extension: None }.to_string(), "01");
/// assert_eq!(Circuit { address: 0x7E, extension: Some(0x07) }.to_string(), "7E:07");
/// ```
#[derive(Clone, Copy, Debug, PartialEq, Eq, Hash)]
pub struct Circuit {
    /// The address. FF hex belongs to system packets; listing refuses it.
    pub address: u8,
    /// The extension byte, where the circuit has one.
    pub extension: Option<u8>,
}

/// In hex: `01`, or `01:07` with an extension.
impl fmt::Display for Circuit {
    fn fmt(&self, f: &mut fmt::Formatter<'_>) -> fmt::Result {
        write!(f, "{:02X}", self.address)?;
        match self.extension {
            Some(extension) => write!(f, ":{extension:02X}"),
            None => Ok(()),
        }
    }
}

/// A list as the calls take it, three bytes for each circuit. Of more than four circuits five are kept: their length is refused like any above.
pub(crate) struct List {
    bytes: [u8; 15],
    length: usize,
}

impl List {
    /// The list of these circuits.
    pub(crate) fn of(circuits: &[Circuit]) -> List {
        let mut bytes = [0; 15];
        for (place, circuit) in bytes.chunks_exact_mut(3).zip(circuits) {
            place[0] = circuit.address;
            place[1] = u8::from(circuit.extension.is_some());
            place[2] = circuit.extension.unwrap_or(0);
        }
        List {
            bytes,
            length: 3 * circuits.len().min(5),
        }
    }

    /// Its bytes.
    pub(crate) fn bytes(&self) -> &[u8] {
        &self.bytes[..self.length]
    }
}
