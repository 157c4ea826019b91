//! The change requests, "Ask 3": the serial line. A line is read as a text: it is cut at its flags, and what stands between two of them is
//! taken as a whole. A record is read as the text that it stands for, and what a call reads goes on behind that text.

use crate::hdlc::fcs;
use std::ops::Range;

/// Bytes of a reader's record.
pub const LINE_RECORD: usize = 24;
/// Bytes of the longest packet.
pub const LONGEST_PACKET: usize = 19;
/// Bytes of the longest packet with its FCS, which is all that a record has room for.
const ROOM: usize = LONGEST_PACKET + 2;

pub const FLAG: u8 = 0x7E;
pub const ESCAPE: u8 = 0x7D;
/// An escaped byte is exclusive-ored with it.
const TURN: u8 = 0x20;

/// The bytes with each 7E and 7D escaped.
pub fn escaped(bytes: &[u8]) -> Vec<u8> {
    let escape = |&byte: &u8| match byte {
        FLAG | ESCAPE => vec![ESCAPE, byte ^ TURN],
        _ => vec![byte],
    };
    bytes.iter().flat_map(escape).collect()
}

/// A packet's frame: packet and FCS, escaped, between two flags.
pub fn frame(packet: &[u8]) -> Vec<u8> {
    let body = escaped(&[packet, &fcs(packet)].concat());
    [&[FLAG][..], &body, &[FLAG]].concat()
}

/// The most bytes that the frame of a packet of this length has.
pub fn worst_case(length: usize) -> usize {
    2 * (length + 2) + 2
}

/// Writes a packet's frame to the start of a line and answers how many bytes it has.
pub fn write(packet: &[u8], line: &mut [u8]) -> Result<usize, u32> {
    if !(2..=LONGEST_PACKET).contains(&packet.len()) {
        return Err(17);
    }
    if line.len() < worst_case(packet.len()) {
        return Err(16);
    }
    let frame = frame(packet);
    line[..frame.len()].copy_from_slice(&frame);
    Ok(frame.len())
}

/// Where the pieces between two flags stand in a text.
pub fn pieces(text: &[u8]) -> Vec<Range<usize>> {
    let flags: Vec<usize> = (0..text.len()).filter(|&at| text[at] == FLAG).collect();
    let between = |pair: &[usize]| pair[0] + 1..pair[1];
    flags.windows(2).map(between).collect()
}

/// Whether a piece's last byte is an escape. Of the 7D that stand together at its end the first is one, the second is what it escapes, and so
/// on: the last is an escape if their number is odd.
pub fn ends_in_escape(piece: &[u8]) -> bool {
    let together = piece.iter().rev().take_while(|byte| **byte == ESCAPE);
    together.count() % 2 == 1
}

/// The bytes of a piece without its escapes.
pub fn unescaped(piece: &[u8]) -> Vec<u8> {
    let byte = |at: usize| match (ends_in_escape(&piece[..at]), ends_in_escape(&piece[..=at])) {
        (true, _) => Some(piece[at] ^ TURN),
        (false, true) => None,
        (false, false) => Some(piece[at]),
    };
    (0..piece.len()).filter_map(byte).collect()
}

/// What a piece between two flags comes to.
#[derive(Clone, Debug, PartialEq, Eq)]
pub enum Judged {
    Packet(Vec<u8>),
    /// No byte stands between the flags.
    Nothing,
    /// The last byte is an escape, so that a flag follows it.
    Escape,
    /// The last two bytes are not the FCS of those before them.
    Fcs,
    /// They are, but of fewer bytes than 2 or of more than 19.
    Length,
}

pub fn judge(piece: &[u8]) -> Judged {
    if piece.is_empty() {
        return Judged::Nothing;
    }
    if ends_in_escape(piece) {
        return Judged::Escape;
    }
    match unescaped(piece).split_last_chunk() {
        Some((packet, sent)) if *sent == fcs(packet) => match packet.len() {
            2..=LONGEST_PACKET => Judged::Packet(packet.to_vec()),
            _ => Judged::Length,
        },
        _ => Judged::Fcs,
    }
}

/// The packets of a text, each with the place behind its frame.
fn frames(text: &[u8]) -> impl Iterator<Item = (Vec<u8>, usize)> + '_ {
    let judged = |piece: Range<usize>| match judge(&text[piece.clone()]) {
        Judged::Packet(packet) => Some((packet, piece.end + 1)),
        _ => None,
    };
    pieces(text).into_iter().filter_map(judged)
}

/// The packets that a line has for a fresh reader.
pub fn packets(line: &[u8]) -> Vec<Vec<u8>> {
    frames(line).map(|(packet, _)| packet).collect()
}

/// The text that a record stands for: what was read from the last flag on, or none where there was no flag. Where the record does not have
/// the bytes since they are too many, others stand in for them.
pub fn text_of(record: &[u8; LINE_RECORD]) -> Vec<u8> {
    let [inside, escape, count, bytes @ ..] = record;
    if *inside == 0 {
        return vec![];
    }
    let bytes = bytes.get(..usize::from(*count)).unwrap_or(&[0; ROOM + 1]);
    let mut text = [&[FLAG][..], &escaped(bytes)].concat();
    text.extend((*escape != 0).then_some(ESCAPE));
    text
}

/// What a read answers.
#[derive(Clone, Debug, PartialEq, Eq)]
pub struct Read {
    /// The first packet, if there is one.
    pub packet: Option<Vec<u8>>,
    /// How many bytes were read: those up to the end of its frame, or all.
    pub bytes: usize,
}

/// Reads a line behind what the record stands for, up to the first packet.
pub fn read(record: &mut [u8; LINE_RECORD], line: &[u8]) -> Read {
    let before = text_of(record);
    let text = [&before, line].concat();
    let first = frames(&text).next();
    let end = first.as_ref().map_or(text.len(), |(_, end)| *end);
    let bytes = end - before.len();
    if line[..bytes].contains(&FLAG) {
        *record = [0; LINE_RECORD];
    }
    put_text(record, &text[..end]);
    Read {
        packet: first.map(|(packet, _)| packet),
        bytes,
    }
}

/// Makes a record stand for a text that goes on from what it stood for. Bytes behind the held ones keep their values, and where the text adds no
/// byte to those held, all that tell them do.
fn put_text(record: &mut [u8; LINE_RECORD], text: &[u8]) {
    let [inside, escape, count, bytes @ ..] = record;
    let Some(flag) = text.iter().rposition(|byte| *byte == FLAG) else {
        *escape = u8::from(*escape != 0);
        return;
    };
    let piece = &text[flag + 1..];
    (*inside, *escape) = (1, u8::from(ends_in_escape(piece)));
    let held = unescaped(piece);
    if held.len() == usize::from(*count).min(ROOM + 1) {
        return;
    }
    *count = held.len().min(ROOM + 1) as u8;
    match bytes.get_mut(..held.len()) {
        Some(place) => place.copy_from_slice(&held),
        None => bytes.fill(0),
    }
}
