//! Listing calls of both ends.

use crate::both::{Both, Compared};
use crate::inputs;
use crate::random::Random;
use aes18_reference::records::{RECEIVER_RECORD, SENDER_RECORD};

/// Lists of any kind, with records of any length.
pub fn any(both: &mut Both, random: &mut Random) -> Compared<()> {
    for _ in 0..40 {
        let list = inputs::any_list(random);
        let longer = random.pick(&[SENDER_RECORD, RECEIVER_RECORD, RECEIVER_RECORD, 80]);
        let length = longer - random.pick(&[0, 0, 0, 1, SENDER_RECORD]);
        list_at_both_ends(both, &random.bytes(length), &list)?;
    }
    Ok(())
}

/// Every address with every middle byte, every length of a list, and every length of a record.
pub fn all(both: &mut Both) -> Compared<()> {
    let record: Vec<u8> = (100..180).collect();
    for address in 0..=255 {
        for middle in 0..=255 {
            for extension in [0, 1, 255] {
                list_at_both_ends(both, &record, &[address, middle, extension])?;
            }
        }
    }
    let list = [1, 0, 0, 1, 1, 0, 2, 1, 255, 0x7E, 0, 0, 5, 0, 0];
    for length in 0..=list.len() {
        list_at_both_ends(both, &record, &list[..length])?;
    }
    for length in 0..=record.len() {
        list_at_both_ends(both, &record[..length], &list[..12])?;
    }
    Ok(())
}

fn list_at_both_ends(both: &mut Both, record: &[u8], list: &[u8]) -> Compared<()> {
    both.sender_list(&mut record.to_vec(), list)?;
    both.receiver_list(&mut record.to_vec(), list)?;
    Ok(())
}
