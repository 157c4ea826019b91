//! The serial line: packets written, lines of frames, damaged frames and noise read behind any record and cut anywhere.

use crate::both::{differ, hex, read_of, Both, Compared};
use crate::inputs::{any_length, every_byte, spare};
use crate::random::Random;
use aes18_reference::calls::{LINE_READ_ANSWER, LINE_WRITE_ANSWER};
use aes18_reference::hdlc::fcs;
use aes18_reference::line::{self, frame, packets, worst_case};
use aes18_reference::line::{ESCAPE, FLAG, LINE_RECORD, LONGEST_PACKET};

const FRESH: [u8; LINE_RECORD] = [0; LINE_RECORD];
/// A packet that is escaped in every byte, FCS and all.
const ALL_ESCAPED: [u8; 19] = [
    0x7E, 0x7E, 0x7E, 0x7E, 0x7E, 0x7E, 0x7D, 0x7E, 0x7D, 0x7E, 0x7D, 0x7E, 0x7D, 0x7D, 0x7D, 0x7D,
    0x7D, 0x7D, 0x7E,
];

/// Every packet of two bytes there and back; every length of what is lent; a long line; every byte behind every count; every value of every
/// byte of a record.
pub fn all(both: &mut Both) -> Compared<()> {
    for packet in (0..=u16::MAX).map(u16::to_le_bytes) {
        let mut line = [0x5A; 10];
        both.line_write(&packet, &mut line, &mut [0x5A; LINE_WRITE_ANSWER])?;
        let told = read(both, &mut FRESH.clone(), &line)?;
        same("a packet of two bytes", &line, &told, &[packet.to_vec()])?;
    }
    lengths(both)?;
    let long = [&[FLAG][..], &[0x41; 70_000], &frame(&ALL_ESCAPED)].concat();
    read(both, &mut FRESH.clone(), &long)?;
    every_step(both)?;
    every_record_byte(both)
}

/// Every byte behind every count, with and without a flag and an escape before it.
fn every_step(both: &mut Both) -> Compared<()> {
    for (count, value) in every_byte(24) {
        for start in [[0, 0], [0, 1], [1, 0], [1, 1]] {
            let mut record = [0x33; LINE_RECORD];
            record[..3].copy_from_slice(&[start[0], start[1], count as u8]);
            read(both, &mut record, &[value])?;
        }
    }
    Ok(())
}

/// A record that holds a packet with its FCS, also one that runs on behind the record.
fn holding(packet: &[u8]) -> Vec<u8> {
    let start = [1, 0, packet.len() as u8 + 2];
    let mut record = [&start, packet, &fcs(packet)].concat();
    record.resize(record.len().max(LINE_RECORD), 0x33);
    record
}

/// Packets of every length held in a record, and every byte of two of these records with all its 256 values.
fn every_record_byte(both: &mut Both) -> Compared<()> {
    for length in 0..=40 {
        read(both, &mut holding(&vec![0x41; length]), &[FLAG])?;
    }
    for held in [holding(&[0x41; 5]), holding(&ALL_ESCAPED)] {
        for (at, value) in every_byte(LINE_RECORD) {
            for line in [&[][..], &[0x41], &[ESCAPE], &[FLAG], &[0x41; 30]] {
                let mut record = held.clone();
                record[at] = value;
                read(both, &mut record, line)?;
            }
        }
    }
    Ok(())
}

/// Every length of a packet, a line, a record and an answer, as far as it matters.
fn lengths(both: &mut Both) -> Compared<()> {
    for length in 0..=25 {
        for packet in [[0x41; 25], [FLAG; 25]] {
            for output in 0..=60 {
                for answer in [0, 7, 8, 9] {
                    let (mut line, mut answer) = (vec![0x5A; output], vec![0x5A; answer]);
                    both.line_write(&packet[..length], &mut line, &mut answer)?;
                }
            }
        }
    }
    for (record, packet, answer) in (0..40).flat_map(|n| [(n, 19, 16), (24, n, 16), (24, 19, n)]) {
        let (mut packet, mut answer) = (vec![0x5A; packet], vec![0x5A; answer]);
        let line = frame(&[0x42; 19]);
        both.line_read(&mut vec![0; record], &line, &mut packet, &mut answer)?;
    }
    Ok(())
}

/// Packets of any length, with output around what each must have.
pub fn writing(both: &mut Both, random: &mut Random) -> Compared<()> {
    for _ in 0..100 {
        let length = random.below(26);
        let packet = packet(random, length);
        let needed = worst_case(packet.len());
        let output = match random.below(8) {
            0 => random.below(needed),
            1 => needed - 1,
            2 => frame(&packet).len(),
            3..=4 => needed,
            _ => needed + random.below(20),
        };
        let mut line = random.bytes(output);
        let mut answer = any_length(random, &[0x5A; LINE_WRITE_ANSWER]);
        both.line_write(&packet, &mut line, &mut answer)?;
    }
    Ok(())
}

/// A list of packets, written by calls of which some are refused, and read back from the line that they leave: exactly those that were accepted.
pub fn read_back(both: &mut Both, random: &mut Random) -> Compared<()> {
    let (mut list, mut line) = (vec![], vec![]);
    for _ in 0..random.below(12) {
        let length = random.pick(&[0, 1, 2, 3, 5, 8, 12, 18, 19, 20]);
        let packet = packet(random, length);
        let output = random.pick(&[12, 44, 44, 44, 60]);
        let mut written = random.bytes(output);
        let mut answer = spare(random, LINE_WRITE_ANSWER);
        if both.line_write(&packet, &mut written, &mut answer)? == 0 {
            line.extend(&written[..usize::from(answer[0])]);
            list.push(packet);
        }
    }
    let mut record = FRESH.to_vec();
    let longest = random.pick(&[1, 2, 20, 300]);
    let told = read_in_pieces(both, random, &mut record, &line, longest)?;
    same("packets written and read back", &line, &told, &list)
}

/// A line of any kind, read from its start in pieces: its packets, and the record is the one that the uncut line leaves.
pub fn any_line(both: &mut Both, random: &mut Random) -> Compared<()> {
    let line = stretches(random);
    let mut record = FRESH.to_vec();
    let longest = random.pick(&[1, 2, 5, 20, 100, 500]);
    let told = read_in_pieces(both, random, &mut record, &line, longest)?;
    same("a line in pieces", &line, &told, &packets(&line))?;
    both.tally.lines.whole(&line);
    let mut uncut = FRESH;
    read(both, &mut uncut, &line)?;
    if record == uncut {
        return Ok(());
    }
    let call = format!("a line in pieces: {}", hex(&line));
    differ(call, "the record", hex(&record), hex(&uncut))
}

/// Lines, many without a flag, behind records of any bytes, with any lengths of what is lent.
pub fn any_record(both: &mut Both, random: &mut Random) -> Compared<()> {
    for _ in 0..8 {
        let record = record(random);
        let mut record = any_length(random, &record);
        for _ in 0..1 + random.below(4) {
            let mut line = stretch(random);
            if random.once_in(2) {
                line.retain(|byte| *byte != FLAG);
            }
            line.truncate(random.pick(&[0, 1, 2, 3, 10, 100, 100]));
            let mut packet = any_length(random, &[0x5A; LONGEST_PACKET]);
            let mut answer = any_length(random, &[0x5A; LINE_READ_ANSWER]);
            both.line_read(&mut record, &line, &mut packet, &mut answer)?;
        }
    }
    Ok(())
}

/// The packets are those of the uncut line wherever it is cut, and one byte a call.
pub fn every_place(both: &mut Both, random: &mut Random) -> Compared<()> {
    let mut line = stretches(random);
    line.truncate(150);
    let list = packets(&line);
    for cut in 0..=line.len() {
        let mut record = FRESH;
        let mut told = read(both, &mut record, &line[..cut])?;
        told.extend(read(both, &mut record, &line[cut..])?);
        same(&format!("a line cut at {cut}"), &line, &told, &list)?;
    }
    let mut record = FRESH.to_vec();
    let told = read_in_pieces(both, random, &mut record, &line, 1)?;
    same("a line, one byte a call", &line, &told, &list)
}

fn same(what: &str, line: &[u8], told: &[Vec<u8>], list: &[Vec<u8>]) -> Compared<()> {
    if told == list {
        return Ok(());
    }
    let call = format!("{what}: {}", hex(line));
    let (told, list) = (format!("{told:02x?}"), format!("{list:02x?}"));
    differ(call, "the packets", told, list)
}

/// Reads all of a line: the packets.
fn read(both: &mut Both, record: &mut [u8], line: &[u8]) -> Compared<Vec<Vec<u8>>> {
    let (mut packet, mut answer) = ([0x5A; LONGEST_PACKET], [0x5A; LINE_READ_ANSWER]);
    let (mut rest, mut told) = (line, vec![]);
    loop {
        both.line_read(record, rest, &mut packet, &mut answer)?;
        rest = &rest[read_of(&answer)..];
        match usize::from(answer[0]) {
            0 => return Ok(told),
            length => told.push(packet[..length].to_vec()),
        }
    }
}

/// Reads all of a line in pieces of up to `longest` bytes: the packets.
fn read_in_pieces(
    both: &mut Both,
    random: &mut Random,
    record: &mut [u8],
    line: &[u8],
    longest: usize,
) -> Compared<Vec<Vec<u8>>> {
    let (mut rest, mut told) = (line, vec![]);
    while !rest.is_empty() {
        let (piece, behind) = rest.split_at(1 + random.below(longest.min(rest.len())));
        told.extend(read(both, record, piece)?);
        rest = behind;
    }
    Ok(told)
}

/// A packet of this length: noise, or bytes of which many are escaped or nearly so.
fn packet(random: &mut Random, length: usize) -> Vec<u8> {
    match random.below(4) {
        0 => random.bytes(length),
        1 if length == ALL_ESCAPED.len() => ALL_ESCAPED.to_vec(),
        1 => vec![random.pick(&[FLAG, ESCAPE, 0x5E, 0x5D, 0x00, 0x11]); length],
        _ => noise(random, length),
    }
}

/// Bytes rich in flags, escapes and what an escape makes of them.
fn noise(random: &mut Random, length: usize) -> Vec<u8> {
    let byte = |_| match random.below(3) {
        0 => random.byte(),
        _ => random.pick(&[FLAG, ESCAPE, ESCAPE, 0x5E, 0x5D, 0x20, 0x00]),
    };
    (0..length).map(byte).collect()
}

/// A line of some stretches.
fn stretches(random: &mut Random) -> Vec<u8> {
    (0..1 + random.below(10))
        .flat_map(|_| stretch(random))
        .collect()
}

/// A frame, also one that shares a flag with what stands beside it; a frame of a length that is not allowed, or damaged; flags; noise.
fn stretch(random: &mut Random) -> Vec<u8> {
    let length = 2 + random.below(18);
    let mut right = frame(&packet(random, length));
    match random.below(16) {
        0 => {
            let length = random.below(60);
            noise(random, length)
        }
        1 => vec![0x41; random.below(60)],
        2 => vec![FLAG; random.below(4)],
        3..=4 => {
            let length = random.pick(&[0, 1, 20, 21, 22, 40, 254]);
            frame(&packet(random, length))
        }
        5..=9 => {
            damage(random, &mut right);
            right
        }
        10 => right[1..].to_vec(),
        11..=12 => right[..right.len() - 1].to_vec(),
        _ => right,
    }
}

/// Damages a frame, or writes it as no writer does and every reader must read it.
fn damage(random: &mut Random, frame: &mut Vec<u8>) {
    let (at, last) = (random.below(frame.len()), frame.len() - 1);
    match random.below(8) {
        0 => frame[at] ^= 1 << random.below(8),
        1 => drop(frame.remove(at)),
        2 => frame.insert(at, random.pick(&[FLAG, ESCAPE, 0x00])),
        3 => frame.insert(last, ESCAPE),
        4 => frame.truncate(at),
        5 => frame.swap(last - 1, last - 2),
        6 => {
            let as_5e = (1..last).find(|at| frame[*at] == 0x5E && frame[at - 1] != ESCAPE);
            frame.splice(as_5e.map_or(0..0, |at| at..at + 1), [ESCAPE, FLAG]);
        }
        _ => {
            let body = line::unescaped(&frame[1..last]);
            let turned = body.iter().flat_map(|byte| [ESCAPE, byte ^ 0x20]);
            frame.splice(1..last, turned);
        }
    }
}

/// A record that a line leaves, or one with a frame in it, or noise; some of its first bytes changed.
fn record(random: &mut Random) -> Vec<u8> {
    let mut record = match random.below(3) {
        0 => random.bytes(LINE_RECORD),
        1 => {
            let length = random.below(20);
            holding(&packet(random, length))
        }
        _ => {
            let (mut left, mut line) = (FRESH, stretch(random));
            line.truncate(1 + random.below(30));
            line::read(&mut left, &line);
            left.to_vec()
        }
    };
    for byte in &mut record[..4] {
        if random.once_in(3) {
            *byte = random.pick(&[0, 0, 1, 1, 2, 3, 20, 21, 22, 23, 255]);
        }
    }
    record
}
