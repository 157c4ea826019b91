//! Enable bits that hold over from block to block (02, ask 4).

use crate::both::{differ, Both, Compared};
use crate::ends::Sending;
use crate::inputs;
use crate::random::Random;
use aes18_reference::bits::bits_of;
use aes18_reference::calls::{BlockCall, OfferCall, BLOCK_ANSWER};
use aes18_reference::hdlc::{bodies, judge, Judged};
use aes18_reference::records::{ENABLE, SENDER_RECORD};
use aes18_reference::SENDER_STORE;

const LIST: [u8; 12] = [0x01, 0, 0, 0x7E, 1, 0xFF, 0x02, 0, 0, 0x1F, 1, 0];
/// A block call with a system packet that enables all.
const SYSTEM: BlockCall = BlockCall {
    n: 900,
    u: 900,
    system: 1,
    enable: 15,
    code: 0,
    information: &[],
};

/// The offer of a message at a circuit, with the circuit's number as its priority.
fn offer_at(circuit: u64) -> OfferCall<'static> {
    OfferCall {
        circuit,
        priority: circuit,
        repetition: 0,
        message: b"a message of two packets",
    }
}

/// Every value of a record's enable byte at every number of circuits, with a message waiting at each but circuit 0.
pub fn all(both: &mut Both) -> Compared<()> {
    for circuits in 0..=4 {
        let mut record = [0x5A; SENDER_RECORD];
        let mut store = vec![0x5A; SENDER_STORE];
        both.sender_list(&mut record, &LIST[..3 * circuits])?;
        for circuit in 1..4 {
            both.sender_offer(&mut record, &mut store, offer_at(circuit))?;
        }
        every_value(both, record, &store)?;
    }
    Ok(())
}

/// Blocks and an offer with every value of this record's enable byte.
fn every_value(both: &mut Both, record: [u8; SENDER_RECORD], store: &[u8]) -> Compared<()> {
    for enable in 0..=255 {
        let mut given = record;
        given[ENABLE] = enable;
        for system in [0, 1] {
            let (mut copy, call) = (given, BlockCall { system, ..SYSTEM });
            let (block, answer) = (&mut [0x5A; 120], &mut [0x5A; BLOCK_ANSWER]);
            both.sender_block(&mut copy, store, call, block, answer)?;
        }
        both.sender_offer(&mut given, &mut store.to_vec(), offer_at(0))?;
    }
    Ok(())
}

/// A sender whose system packets are few: between them are offers, blocks without one, and refused blocks with one of other bits.
pub fn few(both: &mut Both, random: &mut Random) -> Compared<()> {
    let list = inputs::list(random);
    let mut sending = Sending::list(both, random, &list)?;
    let (mut enable, mut in_a_row) = (15, 0);
    for _ in 0..60 {
        offer(both, random, &mut sending)?;
        if random.once_in(4) {
            refused(both, random, &mut sending)?;
        }
        let before = both.tally.enabling.held_over();
        block(both, random, &mut sending, &mut enable)?;
        let held = both.tally.enabling.held_over() > before;
        in_a_row = if held { in_a_row + 1 } else { 0 };
        both.tally.enabling.in_a_row(in_a_row);
    }
    Ok(())
}

fn offer(both: &mut Both, random: &mut Random, sending: &mut Sending) -> Compared<()> {
    let length = random.below(40);
    let message = inputs::message(random, length);
    sending.offer_anywhere(both, random, &message)
}

/// A block with a system packet that is refused by 11, 12 or 13.
fn refused(both: &mut Both, random: &mut Random, sending: &mut Sending) -> Compared<()> {
    let enable = random.next() % 16;
    let mut call = BlockCall { enable, ..SYSTEM };
    let mut buffer = vec![0x5A; 113];
    match random.below(6) {
        0 => call.n = random.pick(&[0, 255, 27_001]),
        1 => call.u = random.pick(&[0, 255, 901]),
        2 => buffer.truncate(112),
        3 => call.enable = random.pick(&[16, 17, 255, 256 + enable]),
        4 => call.code = 9,
        _ => call.information = &[0; 16],
    }
    let made = sending.block(both, call, &mut buffer)?;
    assert!(made.is_none(), "{call:?} is refused");
    Ok(())
}

/// A block, one in twenty with a system packet, the others with an enable argument that is not looked at.
fn block(
    both: &mut Both,
    random: &mut Random,
    sending: &mut Sending,
    enable: &mut u8,
) -> Compared<()> {
    let system = u64::from(random.once_in(20));
    let call = BlockCall {
        n: 500 + random.next() % 400,
        u: 300 + random.next() % 200,
        system,
        enable: match system {
            0 => random.argument(15),
            _ => random.next() % 16,
        },
        ..SYSTEM
    };
    let mut buffer = vec![0x5A; 113];
    let made = sending.block(both, call, &mut buffer)?;
    assert!(made.is_some(), "{call:?} is accepted");
    hold(&bits_of(&buffer)[..call.n as usize], enable)
}

/// Each packet in the bits of a block has a priority that the last system packet enables. `enable` has the bits of the last one up to here.
fn hold(bits: &[bool], enable: &mut u8) -> Compared<()> {
    for body in bodies(bits) {
        let Judged::Packet(packet) = judge(&bits[body]) else {
            continue;
        };
        if packet[0] == 0xFF {
            *enable = packet[1] & 15;
        } else if *enable >> (packet[1] & 3) & 1 == 0 {
            let call = format!("a block under the enable bits {enable}");
            let priority = format!("one of priority {}", packet[1] & 3);
            return differ(call, "a packet", priority, "none of those".to_string());
        }
    }
    Ok(())
}
