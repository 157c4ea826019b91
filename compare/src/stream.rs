//! Streams of bits for a receiver: noise, flags, and frames with right check sequences around packets of every kind.

use crate::inputs;
use crate::random::Random;
use aes18_reference::bits::bits_of;
use aes18_reference::hdlc::{frame, stuff, FLAG};
use aes18_reference::packet::{packets, Circuit};

/// Some hundred to some thousand bits for a receiver of these circuits.
pub fn stream(random: &mut Random, circuits: &[Circuit]) -> Vec<bool> {
    let mut bits = if random.once_in(8) {
        vec![true; 6]
    } else {
        vec![]
    };
    for _ in 0..4 + random.below(20) {
        bits.extend(piece(random, circuits));
        if !random.once_in(10) {
            bits.extend(flags(random));
        }
    }
    bits
}

/// A flag, or two, also two that share their 0.
fn flags(random: &mut Random) -> Vec<bool> {
    match random.below(12) {
        0 => [&FLAG[..], &FLAG[1..]].concat(),
        1 => [FLAG, FLAG].concat(),
        2 => FLAG[1..].to_vec(),
        _ => FLAG.to_vec(),
    }
}

fn piece(random: &mut Random, circuits: &[Circuit]) -> Vec<bool> {
    match random.below(12) {
        0 => noise(random),
        1 => vec![random.once_in(2); random.below(40)],
        2 => any_body(random),
        3 => spoilt_frame(random, circuits),
        4..=5 => frame(&system_packet(random)),
        6..=7 => frame(&any_packet(random, circuits)),
        _ => conversation(random, circuits),
    }
}

/// Noise, of any density of ones.
fn noise(random: &mut Random) -> Vec<bool> {
    let (length, ones) = (random.below(400), 1 + random.below(7));
    random.bits(length, ones)
}

/// A body of 0 to 25 bytes and some bits, with a right check sequence where it has room for one.
fn any_body(random: &mut Random) -> Vec<bool> {
    let length = random.below(24);
    let packet = inputs::message(random, length);
    let mut body = frame(&packet);
    if random.once_in(3) {
        body = stuff(&bits_of(&packet));
        let more = random.below(9);
        body.extend(stuff(&random.bits(more, 4)));
    }
    body
}

/// A frame in which something is wrong: a bit, a run of ones, an end, a start, or the 0 after five ones that end it.
fn spoilt_frame(random: &mut Random, circuits: &[Circuit]) -> Vec<bool> {
    let mut body = frame(&any_packet(random, circuits));
    let at = random.below(body.len());
    match random.below(6) {
        0 => body[at] ^= true,
        1 => body.splice(at..at, [true; 7]).for_each(drop),
        2 => body.truncate(at),
        3 => body.drain(..at).for_each(drop),
        4 => body
            .splice(at..at, [true, true, true, true, true, false])
            .for_each(drop),
        _ => return frame_ending_in_ones(random),
    }
    body
}

/// A frame that ends in five ones, with the 0 behind them or without it; one in 32 does, so that some hundred hold one.
fn frame_ending_in_ones(random: &mut Random) -> Vec<bool> {
    let mut body = vec![];
    for _ in 0..400 {
        let length = 3 + random.below(16);
        body = frame(&random.bytes(length));
        if body.ends_with(&[true, true, true, true, true, false]) {
            body.truncate(body.len() - random.below(2));
            break;
        }
    }
    body
}

/// A circuit's address and extension: mostly a listed one.
fn circuit(random: &mut Random, circuits: &[Circuit]) -> Circuit {
    let mut circuit = random.pick(circuits);
    match random.below(12) {
        0 => circuit.address ^= 1 << random.below(8),
        1 => circuit.extension = random.pick(&[None, Some(0), Some(7)]),
        2 => circuit.address = 0xFF,
        _ => {}
    }
    circuit
}

/// A packet with any control byte and a segment of 0 to 17 bytes, headers of all kinds among them.
fn any_packet(random: &mut Random, circuits: &[Circuit]) -> Vec<u8> {
    let circuit = circuit(random, circuits);
    let control = random.pick(&[0x80, 0x80, 0x80, 0x40, 0x00, 0xC0]) | random.byte() & 0x1F;
    let mut packet = match circuit.extension {
        None => vec![circuit.address, control],
        Some(extension) => vec![circuit.address, control | 0x20, extension],
    };
    let length = random.pick(&[0, 1, 2, 3, 8, 14, 15, 16, 16, 16, 16, 16, 17]);
    let start = packet.len();
    packet.extend(random.bytes(length));
    packet.truncate(19);
    let header = match random.below(8) {
        0 => [0x10, random.pick(&[0, 1, 14, 15, 16, 17])],
        1 => [0x1F, random.pick(&[0xFE, 0xFF])],
        2..=3 => [0x10 | random.byte(), random.byte()],
        4..=6 => [
            length.saturating_sub(random.below(3)) as u8 & 15,
            random.byte(),
        ],
        _ => [random.byte(), random.byte()],
    };
    for (byte, value) in packet[start..].iter_mut().zip(header) {
        *byte = value;
    }
    packet
}

/// A packet to FF hex: control, extension, descriptor and length right or wrong.
fn system_packet(random: &mut Random) -> Vec<u8> {
    let links = random.pick(&[0xC0, 0xC0, 0xC0, 0xC0, 0x80, 0x40, 0x00]);
    let reserved = random.pick(&[0, 0, 0, 0x10]);
    let extended = random.once_in(4);
    let mut packet = vec![0xFF, links | reserved | random.byte() & 15];
    if extended {
        packet[1] |= 0x20;
        packet.push(random.byte());
    }
    let length = random.below(17);
    let told = if random.once_in(4) {
        random.below(16)
    } else {
        length
    };
    let code = if random.once_in(4) {
        random.below(16)
    } else {
        random.below(9)
    };
    if !random.once_in(10) {
        packet.push((code << 4 | told & 15) as u8);
        packet.extend(random.bytes(length));
    }
    packet.truncate(19);
    packet
}

/// The frames of one or two messages at a circuit, the index running on, with a packet here and there lost, repeated or changed.
fn conversation(random: &mut Random, circuits: &[Circuit]) -> Vec<bool> {
    let circuit = circuit(random, circuits);
    let mut index = random.byte() & 7;
    let mut sent = vec![];
    for _ in 0..1 + random.below(2) {
        let length = random.pick(&[0, 3, 15, 16, 30, 31, 40, 46, 47, 70]);
        let message = inputs::message(random, length);
        let of_message = packets(circuit, &message, index, random.byte() & 3);
        index = (index + of_message.len() as u8) & 7;
        sent.extend(of_message);
    }
    let mut bits = vec![];
    for mut packet in sent {
        let times = random.pick(&[1, 1, 1, 1, 1, 1, 1, 1, 0, 2]);
        change(random, &mut packet);
        for _ in 0..times {
            bits.extend(frame(&packet));
            bits.extend(FLAG);
        }
    }
    bits
}

/// Changes something of a packet, mostly nothing: links, index, the segment's end, or a bit of the segment's start.
fn change(random: &mut Random, packet: &mut Vec<u8>) {
    match random.below(30) {
        0 => packet[1] ^= random.pick(&[0x40, 0x80, 0xC0]),
        1 => packet[1] ^= random.pick(&[0x04, 0x08, 0x10]),
        2 => packet.truncate(packet.len() - 1),
        3 if packet.len() < 19 => packet.push(random.byte()),
        4 if packet.len() > 3 => packet[2] ^= 1 << random.below(8),
        _ => {}
    }
}
