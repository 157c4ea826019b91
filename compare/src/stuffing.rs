//! The frames of blocks that both sides made alike, beside the reference that stuffs their bytes in two parts (02, ask 2).

use crate::both::{differ, Both, Compared};
use aes18_reference::bits::{bits_of, bytes_of};
use aes18_reference::hdlc::{run_left, stuffed_in_two, unstuff, FLAG};
use aes18_reference::sender::Block;

/// The bits of each frame of a block are those of its bytes, packet and FCS, stuffed in two parts, wherever they are cut.
pub fn in_two(both: &mut Both, block: &[u8], made: &Block) -> Compared<()> {
    let bits = bits_of(block);
    for frame in &made.frames {
        let body = &bits[frame.bits.start + FLAG.len()..frame.bits.end - FLAG.len()];
        let bytes = bytes_of(&unstuff(body));
        for cut in 0..=bytes.len() {
            let (first, rest) = bytes.split_at(cut);
            let parts = stuffed_in_two(first, rest);
            if parts != body {
                let call = format!("a frame of the bytes {bytes:02x?}, cut behind {cut} of them");
                return differ(call, "its bits", text(body), text(&parts));
            }
            both.tally.cuts.add(run_left(first), first, rest);
        }
    }
    Ok(())
}

/// Bits written as text.
fn text(bits: &[bool]) -> String {
    let digit = |bit: &bool| if *bit { '1' } else { '0' };
    bits.iter().map(digit).collect()
}
