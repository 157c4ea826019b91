//! The stuffed zeros of blocks: known ones, and those that unstuffing drops between the flags of any block.

use aes18::{Block, Refusal, Sender, SystemPacket, SENDER_STORE};

use super::frames::{bits_of, bytes_of, framed, plain};

/// A frame taken out of a block: the bits of packet and FCS, and the zeros that unstuffing drops.
struct Unstuffed {
    kept: u32,
    dropped: u32,
}

/// The frames between the flags of bits that begin and end with one.
fn unstuffed(bits: &[bool]) -> Vec<Unstuffed> {
    let mut frames = Vec::new();
    let (mut from, mut dropped, mut ones) = (0, 0, 0);
    for (at, bit) in (1..).zip(bits) {
        match (bit, ones) {
            (true, _) => ones += 1,
            (false, 6) => {
                let kept = at - from - 8 - dropped;
                frames.push(Unstuffed { kept, dropped });
                (from, dropped, ones) = (at, 0, 0);
            }
            (false, 5) => (dropped, ones) = (dropped + 1, 0),
            (false, _) => ones = 0,
        }
    }
    // The block's first flag ends what stands before it, which is nothing.
    frames.split_off(1)
}

/// Compares a block's answer with its bits.
fn compare(made: Block, block: &[u8], system: bool) {
    let frames = unstuffed(&bits_of(block)[..made.used as usize]);
    assert_eq!(frames.len() as u32, made.placed + u32::from(system));
    let zeros = frames.iter().map(|frame| frame.dropped);
    assert_eq!(zeros.sum::<u32>(), made.zeros);
    let used = frames.iter().map(|frame| frame.kept + frame.dropped + 8);
    assert_eq!(8 + used.sum::<u32>(), made.used);
    for frame in &frames {
        assert_eq!(frame.kept % 8, 0, "whole bytes");
        assert!(frame.dropped <= frame.kept / 5);
    }
}

/// A block of 800 bits with the message at the only circuit, 10, with that repetition, and a system packet if there is one.
fn made(message: &[u8], repetition: u64, system: Option<SystemPacket<'_>>) -> (Block, Vec<u8>) {
    let mut store = [0; SENDER_STORE];
    let mut sender = Sender::list(&[plain(0x10)]).unwrap();
    sender.offer(&mut store, 0, 2, repetition, message).unwrap();
    let mut bits = vec![0; 100];
    let made = sender.block(&store, 800, 800, system, &mut bits).unwrap();
    compare(made, &bits, system.is_some());
    (made, bits)
}

/// The block of these packets, of which the first `system` are no placed frames.
fn of_packets(packets: &[&[u8]], system: u32) -> (Block, Vec<u8>) {
    let bits = framed(packets);
    let bytes: usize = packets.iter().map(|packet| packet.len() + 3).sum();
    let used = bits.len() as u32;
    let block = Block {
        placed: packets.len() as u32 - system,
        used,
        zeros: used - 8 - 8 * bytes as u32,
    };
    let ones = vec![true; 800 - bits.len()];
    (block, bytes_of(&[bits, ones].concat()))
}

/// Messages whose numbers are known: 9 zeros in the frame of five bytes FF, none in that of five bytes 55.
#[test]
fn known_blocks() {
    let ones = b"\x10\x82\x05\xFF\xFF\xFF\xFF\xFF";
    for copies in 1..=6 {
        let expected = of_packets(&vec![&ones[..]; copies], 0);
        assert_eq!(expected.0.zeros, 9 * copies as u32);
        assert_eq!(made(&[0xFF; 5], copies as u64 - 1, None), expected);
    }
    let none = of_packets(&[b"\x10\x82\x05\x55\x55\x55\x55\x55"], 0);
    assert_eq!(none.0.zeros, 0);
    assert_eq!(made(&[0x55; 5], 0, None), none);
}

/// A system packet's frame counts, beside others and alone.
#[test]
fn system_packets_count() {
    let system = b"\xFF\xC4\x83\xFF\xFF\xFF";
    let wanted = SystemPacket {
        enable: 4,
        code: 8,
        information: &[0xFF; 3],
    };
    let ones = b"\x10\x82\x05\xFF\xFF\xFF\xFF\xFF";
    let both = of_packets(&[system, ones], 1);
    assert_eq!((both.0.placed, both.0.zeros), (1, 6 + 9));
    assert_eq!(made(&[0xFF; 5], 0, Some(wanted)), both);
    let disabled = SystemPacket {
        enable: 0,
        ..wanted
    };
    let alone = of_packets(&[b"\xFF\xC0\x83\xFF\xFF\xFF"], 1);
    assert_eq!((alone.0.placed, alone.0.zeros), (0, 7));
    assert_eq!(made(&[0xFF; 5], 0, Some(disabled)), alone);
}

/// Of a frame that does not fit nothing is counted: where both copies would need one bit more, the block has the zeros of one.
#[test]
fn a_frame_that_does_not_fit() {
    let mut store = [0; SENDER_STORE];
    for (u, placed, zeros) in [(393, 1, 25), (394, 2, 50)] {
        let mut sender = Sender::list(&[plain(0x10)]).unwrap();
        sender.offer(&mut store, 0, 2, 1, &[0xFF; 15]).unwrap();
        let mut bits = [0; 100];
        let made = sender.block(&store, 800, u, None, &mut bits).unwrap();
        assert_eq!((made.placed, made.zeros), (placed, zeros));
        compare(made, &bits, false);
    }
}

/// Offers a message of bytes with many ones at each of four circuits; refused where an earlier one is pending.
fn offer_at_all(sender: &mut Sender, store: &mut [u8], random: &mut impl FnMut(u64) -> u64) {
    for circuit in 0..4 {
        let bytes = [0xFF, 0x7E, 0xF8, random(256) as u8];
        let message: Vec<u8> = (0..random(60)).map(|_| bytes[random(4) as usize]).collect();
        let offered = sender.offer(store, circuit, random(4), random(6), &message);
        assert!(matches!(offered, Ok(()) | Err(Refusal::MessagePending)));
    }
}

/// Any messages, in blocks of any length, with and without system packets.
#[test]
fn any_block() {
    let mut state = 6u32;
    let mut random = move |below: u64| {
        state = state.wrapping_mul(1_664_525).wrapping_add(1_013_904_223);
        u64::from(state >> 8) % below
    };
    let mut store = [0; SENDER_STORE];
    let mut sender = Sender::list(&[0x10, 0x1F, 0x7E, 0xFE].map(plain)).unwrap();
    let mut zeros = 0;
    for _ in 0..3000 {
        offer_at_all(&mut sender, &mut store, &mut random);
        let information = vec![0xFF; random(16) as usize];
        let system = SystemPacket {
            enable: random(16),
            code: random(9),
            information: &information,
        };
        let system = Some(system).filter(|_| random(3) == 0);
        let n = 256 + random(2000);
        let u = 256 + random(n - 255);
        let mut bits = [0; 3375];
        let made = sender.block(&store, n, u, system, &mut bits).unwrap();
        compare(made, &bits, system.is_some());
        zeros += made.zeros;
    }
    assert!(zeros > 50_000, "{zeros}");
}
