//! The serial line: packets are written as the frames of a line, and lines are read from packet to packet.

use crate::noise::Noise;
use crate::race::{turns, Race};
use crate::sides::{Library, Line, LineAnswer, LineSide, Plain};
use aes18::{LONGEST_LINE_FRAME, LONGEST_PACKET};

/// The packets of a line.
const PACKETS: usize = 1000;

/// Packets of the longest length, to be written one behind the other.
pub type Packets = Vec<Vec<u8>>;

/// The bytes of a line, to be read.
pub type LineBytes = Vec<u8>;

/// Bytes as packets.
fn packets(bytes: &[u8]) -> Packets {
    let chunks = bytes.chunks_exact(LONGEST_PACKET);
    chunks.map(|packet| packet.to_vec()).collect()
}

/// What writing leaves: a line, up to its end.
#[derive(PartialEq)]
pub struct Written {
    line: Vec<u8>,
    end: usize,
}

impl Default for Written {
    fn default() -> Written {
        Written {
            line: vec![0; PACKETS * LONGEST_LINE_FRAME],
            end: 0,
        }
    }
}

/// Writes the packets.
pub fn write<S: LineSide>(packets: &Packets, written: &mut Written) -> Result<(), u32> {
    let mut end = 0;
    for packet in packets {
        end += S::Line::write(packet, &mut written.line[end..])? as usize;
    }
    written.end = end;
    Ok(())
}

/// The line of packets.
fn line(packets: &Packets) -> Result<LineBytes, u32> {
    let mut written = Written::default();
    write::<Library>(packets, &mut written)?;
    written.line.truncate(written.end);
    Ok(written.line)
}

/// What reading leaves.
#[derive(Default, PartialEq)]
pub struct Taken {
    answers: Vec<LineAnswer>,
    packets: Vec<u8>,
}

/// Reads a line up to its end, and takes each packet.
pub fn take<S: LineSide>(line: &LineBytes, taken: &mut Taken) -> Result<(), u32> {
    let mut reader = S::Line::default();
    let mut packet = [0; LONGEST_PACKET];
    let mut rest = &line[..];
    taken.answers.clear();
    taken.packets.clear();
    loop {
        let answer = reader.read(rest, &mut packet)?;
        rest = &rest[answer.bytes() as usize..];
        taken.answers.push(answer);
        taken.packets.extend_from_slice(&packet[..answer.packet()]);
        if answer.packet() == 0 {
            return Ok(());
        }
    }
}

/// The races of writing.
pub fn writing(noise: &mut Noise) -> Result<[Race<Packets, Written, 2>; 2], u32> {
    let race = |name, packets: Packets| {
        let turns = turns!(write: Library, Plain);
        line(&packets).map(|line| Race::new(name, packets, line.len() as u64, turns))
    };
    let random = noise.bytes(PACKETS * LONGEST_PACKET);
    let flags = vec![0x7E; PACKETS * LONGEST_PACKET];
    Ok([
        race("packets of 19 bytes, random", packets(&random))?,
        race("packets of 19 bytes, all 7E hex", packets(&flags))?,
    ])
}

/// The races of reading; `packets` are those of a clean line.
pub fn reading(
    packets: &Packets,
    noise: &mut Noise,
) -> Result<[Race<LineBytes, Taken, 2>; 2], u32> {
    let race = |name, line: LineBytes| {
        let bytes = line.len() as u64;
        Race::new(name, line, bytes, turns!(take: Library, Plain))
    };
    let clean = line(packets)?;
    let random = noise.bytes(clean.len());
    Ok([race("clean line", clean), race("noise", random)])
}
