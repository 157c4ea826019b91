//! Packets of every form, each in a proper frame, read by a receiver with a message open at each of its circuits.

use crate::both::{Both, Compared};
use aes18_reference::bits::bytes_of;
use aes18_reference::calls::{ReadCall, READ_ANSWER};
use aes18_reference::hdlc::{frame, FLAG};
use aes18_reference::records::RECEIVER_RECORD;
use aes18_reference::RECEIVER_STORE;

const LIST: [u8; 6] = [0x01, 0, 0, 0x02, 1, 0x07];

/// A receiver's record and store.
struct Open {
    record: [u8; RECEIVER_RECORD],
    store: Vec<u8>,
}

impl Open {
    /// Both circuits have had a first packet with index 3, of a message of 40 bytes.
    fn new(both: &mut Both) -> Compared<Open> {
        let mut open = Open {
            record: [0; RECEIVER_RECORD],
            store: vec![0x5A; RECEIVER_STORE],
        };
        both.receiver_list(&mut open.record, &LIST)?;
        let segment = [&[0x10, 40][..], &[0x33; 14]].concat();
        open.read(both, &[&[0x01, 0x8C][..], &segment].concat())?;
        open.read(both, &[&[0x02, 0xAC, 0x07][..], &segment].concat())?;
        Ok(open)
    }

    /// Reads the packet's frame between flags.
    fn read(&mut self, both: &mut Both, packet: &[u8]) -> Compared<()> {
        let bits = [&FLAG[..], &frame(packet), &FLAG].concat();
        let call = ReadCall {
            bits: &bytes_of(&bits),
            from: 0,
            to: bits.len() as u64,
        };
        both.receiver_read(
            &mut self.record,
            &mut self.store,
            call,
            &mut [0; READ_ANSWER],
        )?;
        Ok(())
    }

    /// Reads the packet, and leaves this receiver as it was.
    fn try_packet(&self, both: &mut Both, packet: &[u8]) -> Compared<()> {
        let mut copy = Open {
            record: self.record,
            store: self.store.clone(),
        };
        copy.read(both, packet)
    }
}

/// Each control byte at each kind of address with each length; each header; each descriptor.
pub fn all(both: &mut Both) -> Compared<()> {
    let open = Open::new(both)?;
    for control in 0..=255 {
        for length in 0..=17 {
            for address in [0x01, 0x02, 0x77, 0xFF] {
                let packet = [&[address, control][..], &vec![0x07; length]].concat();
                open.try_packet(both, &packet)?;
            }
        }
    }
    for first in 0..=255 {
        for second in [0, 1, 14, 15, 16, 17, 40, 254, 255] {
            for length in [1, 2, 3, 8, 9, 15, 16] {
                let mut packet = [&[0x01, 0x90, first, second][..], &[0xFF; 14]].concat();
                packet.truncate(2 + length);
                open.try_packet(both, &packet)?;
            }
        }
    }
    for descriptor in 0..=255 {
        for length in 0..=16 {
            for start in [&[0xFF, 0xC5][..], &[0xFF, 0xD5], &[0xFF, 0xE5, 0x00]] {
                let mut packet = [start, &[descriptor], &vec![0x66; length]].concat();
                packet.truncate(19);
                open.try_packet(both, &packet)?;
            }
        }
    }
    Ok(())
}
