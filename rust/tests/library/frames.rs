//! Frames made by hand, for packets that no sender makes.

use aes18::Circuit;

/// A circuit without an extension.
pub fn plain(address: u8) -> Circuit {
    Circuit {
        address,
        extension: None,
    }
}

/// The bits of packets, each with its FCS and stuffed, with a flag before, between and behind them.
pub fn framed(packets: &[&[u8]]) -> Vec<bool> {
    let mut bits = bits_of(&[0x7E]);
    for packet in packets {
        let checked = [*packet, &fcs(packet).to_le_bytes()].concat();
        bits.extend(stuffed(&bits_of(&checked)));
        bits.extend(bits_of(&[0x7E]));
    }
    bits
}

/// The bits of bytes, lowest first.
pub fn bits_of(bytes: &[u8]) -> Vec<bool> {
    let places = bytes.iter().flat_map(|byte| (0..8).map(move |k| byte >> k));
    places.map(|byte| byte & 1 == 1).collect()
}

/// The bytes of bits, lowest first, spare bits of the last 0.
pub fn bytes_of(bits: &[bool]) -> Vec<u8> {
    let byte = |bits: &[bool]| (0..).zip(bits).map(|(k, bit)| u8::from(*bit) << k).sum();
    bits.chunks(8).map(byte).collect()
}

fn stuffed(bits: &[bool]) -> Vec<bool> {
    let mut stuffed = Vec::new();
    let mut ones = 0;
    for bit in bits {
        stuffed.push(*bit);
        ones = if *bit { ones + 1 } else { 0 };
        if ones == 5 {
            stuffed.push(false);
            ones = 0;
        }
    }
    stuffed
}

/// The FCS of bytes; its low byte is sent first.
pub fn fcs(bytes: &[u8]) -> u16 {
    let step = |register: u16, bit: bool| match (register & 1 == 1) != bit {
        true => register >> 1 ^ 0x8408,
        false => register >> 1,
    };
    !bits_of(bytes).into_iter().fold(0xFFFF, step)
}
