//! A receiver that listens to the circuits listed, or to none.

use aes18::{Circuit, Notice, Open, Packet, Receiver, LONG_BUFFER, RECEIVER_STORE};

use crate::error::Error;
use crate::frames;

/// The receiver with its store.
pub struct Listener {
    receiver: Receiver,
    store: Vec<u8>,
    /// It is given in every call.
    long_buffer: Vec<u8>,
    /// Whether no circuit is listed. The receiver lists one all the same, whose packets are told as those of any other.
    to_none: bool,
    /// Whether every packet is told, as it is where no circuit is listed. That takes a second reading of each frame.
    every_packet: bool,
}

/// What a reading call answers.
pub struct Listened {
    pub notice: Notice,
    /// How many bits it read; the next call goes on behind them.
    pub bits: u64,
    /// The packet: at Elsewhere, or at each frame that passes where every packet is told.
    pub packet: Option<Packet>,
}

impl Listened {
    /// The answer of a call that read nothing.
    pub const NOTHING: Listened = Listened {
        notice: Notice::End,
        bits: 0,
        packet: None,
    };
}

impl Listener {
    /// A fresh receiver.
    pub fn new(circuits: &[Circuit]) -> Result<Listener, Error> {
        let any = [Circuit {
            address: 0,
            extension: None,
        }];
        let to_none = circuits.is_empty();
        let receiver = Receiver::list(if to_none { &any } else { circuits });
        Ok(Listener {
            receiver: receiver.map_err(|refusal| Error::Data(refusal.to_string()))?,
            store: vec![0; RECEIVER_STORE],
            long_buffer: vec![0; LONG_BUFFER],
            to_none,
            every_packet: to_none,
        })
    }

    /// The same with every packet told.
    pub fn with_every_packet(mut self) -> Listener {
        self.every_packet = true;
        self
    }

    /// Reads the bits `from..to` of the bytes up to the first notice.
    pub fn read(&mut self, bytes: &[u8], from: u64, to: u64) -> Result<Listened, Error> {
        let refused = |refusal: aes18::Refusal| Error::Data(refusal.to_string());
        let framing = self.receiver.framing();
        let (store, long_buffer) = (&mut self.store, &mut self.long_buffer);
        let read = self
            .receiver
            .read_beside(store, long_buffer, bytes, from, to);
        let read = read.map_err(refused)?;
        let notice = match read.notice {
            Notice::Circuit { .. } if self.to_none => Notice::Elsewhere,
            notice => notice,
        };
        let packet = match self.every_packet || notice == Notice::Elsewhere {
            true => frames::packet(framing, bytes, from, from + read.bits),
            false => Ok(None),
        };
        Ok(Listened {
            notice,
            bits: read.bits,
            packet: packet.map_err(refused)?,
        })
    }

    /// The message that is open at the circuit of that number.
    pub fn open(&self, number: usize) -> Option<Open> {
        self.receiver.open(number)
    }

    /// The message at Whole, or the information at System, of the last notice.
    pub fn bytes(&self, notice: &Notice) -> Option<&[u8]> {
        let message = notice.message_beside(&self.store, &self.long_buffer);
        message.or_else(|| notice.information(&self.store))
    }
}

#[cfg(test)]
mod tests {
    use super::*;

    /// The notice of a packet, and the packet where it is told.
    fn hear(circuits: &[Circuit], packet: &[u8]) -> (Notice, Option<Vec<u8>>) {
        hear_by(Listener::new(circuits).unwrap(), packet)
    }

    fn hear_by(mut listener: Listener, packet: &[u8]) -> (Notice, Option<Vec<u8>>) {
        let frame = frames::in_bits(&frames::with_fcs(packet).unwrap());
        let told = listener.read(&frame.bytes, 0, frame.count).unwrap();
        assert_eq!(told.bits, frame.count);
        (told.notice, told.packet.map(|packet| packet.to_vec()))
    }

    /// Where no circuit is listed the packets of all are told as those of others, each with its bytes.
    #[test]
    fn listening_to_none() {
        for packet in [&b"\x00\x81\x02hi"[..], b"\x01\x81\x02hi"] {
            let told = (Notice::Elsewhere, Some(packet.to_vec()));
            assert_eq!(hear(&[], packet), told);
        }
        let malformed = b"\x02\x81".to_vec();
        assert_eq!(hear(&[], &malformed), (Notice::Malformed, Some(malformed)));
        let (notice, system) = hear(&[], b"\xFF\xC5\x81\x01");
        assert!(matches!(notice, Notice::System { .. }));
        assert_eq!(system.as_deref(), Some(&b"\xFF\xC5\x81\x01"[..]));
    }

    #[test]
    fn listening_to_one() {
        let listed = [Circuit {
            address: 0,
            extension: None,
        }];
        let (notice, packet) = hear(&listed, b"\x00\x81\x02hi");
        assert!(matches!(notice, Notice::Circuit { number: 0, .. }));
        assert_eq!(packet, None);
        let other = b"\x00\xA1\x07\x02hi".to_vec();
        assert_eq!(hear(&listed, &other), (Notice::Elsewhere, Some(other)));
        let every = Listener::new(&listed).unwrap().with_every_packet();
        let (again, packet) = hear_by(every, b"\x00\x81\x02hi");
        assert_eq!(
            (again, packet.as_deref()),
            (notice, Some(&b"\x00\x81\x02hi"[..]))
        );
    }
}
