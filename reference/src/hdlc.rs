//! 01, "Frames and bits": the FCS, stuffing, flags and bodies. 02, ask 2: bytes stuffed in two parts; ask 6: the zeros that stuffing adds.

use crate::bits::{bits_of, bytes_of};
use std::ops::Range;

/// 7E hex as it is sent.
pub const FLAG: [bool; 8] = [false, true, true, true, true, true, true, false];

/// The two bytes of the FCS in sending order. A packet is a polynomial over two elements whose highest term is the bit sent first. Its
/// first 16 bits are turned over (the preset to ones), 16 zeros go behind it, and it is divided by the polynomial with the terms 16,
/// 12, 5, 0. What remains is turned over and sent highest term first.
pub fn fcs(packet: &[u8]) -> [u8; 2] {
    let mut dividend = bits_of(packet);
    let length = dividend.len();
    dividend.resize(length + 16, false);
    for bit in &mut dividend[..16] {
        *bit = !*bit;
    }
    for at in 0..length {
        if dividend[at] {
            for term in [16, 12, 5, 0] {
                dividend[at + 16 - term] ^= true;
            }
        }
    }
    let sent: Vec<bool> = dividend[length..].iter().map(|bit| !bit).collect();
    let bytes = bytes_of(&sent);
    [bytes[0], bytes[1]]
}

/// The bits with a 0 after every five ones, also when the five end them.
pub fn stuff(bits: &[bool]) -> Vec<bool> {
    let mut stuffed = Vec::with_capacity(bits.len() + bits.len() / 5);
    let mut ones = 0;
    for &bit in bits {
        stuffed.push(bit);
        ones = if bit { ones + 1 } else { 0 };
        if ones == 5 {
            stuffed.push(false);
            ones = 0;
        }
    }
    stuffed
}

/// The run of ones that a first part leaves: those at the end of its stuffed bits.
pub fn run_left(first: &[u8]) -> usize {
    let stuffed = stuff(&bits_of(first));
    stuffed.iter().rev().take_while(|bit| **bit).count()
}

/// The bits stuffed on from a run of up to four ones before them: both are stuffed, and the run is taken off again.
pub fn stuff_on(run: usize, bits: &[bool]) -> Vec<bool> {
    stuff(&[&vec![true; run], bits].concat()).split_off(run)
}

/// The first part stuffed, and behind it the rest stuffed on from the run of ones that it left.
pub fn stuffed_in_two(first: &[u8], rest: &[u8]) -> Vec<bool> {
    let mut stuffed = stuff(&bits_of(first));
    stuffed.extend(stuff_on(run_left(first), &bits_of(rest)));
    stuffed
}

/// The bits of a body without the 0 after each five ones.
pub fn unstuff(body: &[bool]) -> Vec<bool> {
    let mut bits = Vec::with_capacity(body.len());
    let mut ones = 0;
    for &bit in body {
        if ones < 5 || bit {
            bits.push(bit);
        }
        ones = if bit { ones + 1 } else { 0 };
    }
    bits
}

/// A packet's frame without its flags: packet and FCS, stuffed.
pub fn frame(packet: &[u8]) -> Vec<bool> {
    stuff(&bits_of(&[packet, &fcs(packet)].concat()))
}

/// The zeros that stuffing added to a packet's frame: what it has more than the bits of the packet and of the FCS's two bytes.
pub fn added_zeros(packet: &[u8], frame: &[bool]) -> usize {
    frame.len() - 8 * (packet.len() + 2)
}

/// What a body comes to.
#[derive(Clone, Debug, PartialEq, Eq)]
pub enum Judged {
    /// It passes; this is its packet.
    Packet(Vec<u8>),
    /// It does not pass and unstuffs to 32 bits or more.
    Spoilt,
    /// It does not pass and is shorter.
    Nothing,
}

/// Judges a body that is not void.
pub fn judge(body: &[bool]) -> Judged {
    let bits = unstuff(body);
    let whole_bytes = bits.len() % 8 == 0 && (4..=21).contains(&(bits.len() / 8));
    if whole_bytes && !body.ends_with(&[true; 5]) {
        let mut packet = bytes_of(&bits);
        let sent = packet.split_off(packet.len() - 2);
        if sent == fcs(&packet) {
            return Judged::Packet(packet);
        }
    }
    if bits.len() >= 32 {
        Judged::Spoilt
    } else {
        Judged::Nothing
    }
}

/// Where the bodies stand in the bits that a fresh receiver reads, without the void ones. Flags that share their 0 have none between them.
pub fn bodies(bits: &[bool]) -> Vec<Range<usize>> {
    let flags: Vec<usize> = (0..bits.len().saturating_sub(7))
        .filter(|&at| bits[at..].starts_with(&FLAG))
        .collect();
    let between = flags.windows(2).map(|pair| pair[0] + 8..pair[1]);
    between
        .filter(|body| body.start <= body.end)
        .filter(|body| {
            !bits[body.clone()]
                .windows(7)
                .any(|seven| seven == [true; 7])
        })
        .collect()
}
