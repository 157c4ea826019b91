//! The notices of a serial line.

use aes18::{Circuit, Notice};

use super::line::Line;
use crate::account::{Heard, History, Unit};
use crate::error::Error;
use crate::frames;
use crate::listener::Listener;

/// The packets of a serial line, each of which goes to a receiver.
pub struct Packets {
    /// The file that is read, for messages.
    name: String,
    pub line: Line,
    pub listener: Listener,
    pub history: History,
}

impl Packets {
    /// Nothing read yet of the file of that name.
    pub fn new(name: &str, circuits: &[Circuit]) -> Result<Packets, Error> {
        Ok(Packets {
            name: name.to_string(),
            line: Line::default(),
            listener: Listener::new(circuits)?,
            history: History::new(Unit::Byte.doubtful()),
        })
    }

    /// The notice of a packet whose closing flag stands before that byte: the packet goes to the receiver as a frame in user bits.
    pub fn hear(&mut self, packet: &[u8], place: u64) -> Result<Heard, Error> {
        let checked = frames::with_fcs(packet);
        let frame = frames::in_bits(&checked.map_err(|refusal| Error::Data(refusal.to_string()))?);
        let told = self.listener.read(&frame.bytes, 0, frame.count)?;
        match told.notice {
            Notice::Spoilt | Notice::End => Err(self.fault(place)),
            _ if told.bits < frame.count => Err(self.fault(place)),
            _ => {
                let free = self.line.free();
                Ok(self.history.hear(&told, place, free, &self.listener))
            }
        }
    }

    /// The error where the receiver does not take a packet of the line for one.
    fn fault(&self, place: u64) -> Error {
        Error::Data(format!(
            "{}: byte {place}: the frame before this byte has a right FCS, and aes18 put it wrongly into user bits: an error of aes18 itself",
            self.name
        ))
    }
}
