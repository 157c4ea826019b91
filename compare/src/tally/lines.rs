//! What was seen of the serial line.

use super::{add, line, unseen};
use aes18_reference::hdlc::fcs;
use aes18_reference::line::{escaped, frame, judge, pieces, text_of, unescaped, worst_case};
use aes18_reference::line::{Judged, ESCAPE, FLAG, LINE_RECORD, LONGEST_PACKET};
use std::fmt;

const WRITTEN: [&str; 7] = [
    "nothing escaped",
    "bytes of the packet escaped",
    "the FCS's first byte",
    "the FCS's second byte",
    "every byte",
    "just enough output",
    "more output",
];
const REFUSED: [&str; 7] = [
    "a packet of 1 byte",
    "one of 20 bytes",
    "17 before 16",
    "output one byte short",
    "output that this frame would fit",
    "255 before 17",
    "255 before 16",
];
/// What stood between two flags.
const BETWEEN: [&str; 9] = [
    "a packet",
    "nothing",
    "a wrong FCS",
    "a wrong FCS and length",
    "no packet before the FCS",
    "a packet of one byte",
    "a packet above 19 bytes",
    "an escape before the flag",
    "a frame right but for such an escape",
];
/// What stood on the two sides of a flag, or of an escape and a flag.
const SIDES: [&str; 4] = [
    "two packets",
    "a dropped frame and a packet",
    "a packet and a dropped frame",
    "a frame in two if 7D 7E were 5E",
];
/// What a call read or left.
const READ: [&str; 9] = [
    "no bytes",
    "bytes before the first flag",
    "a flag behind an escape that a call left",
    "7D behind one",
    "another byte behind one",
    "an escape left",
    "21 bytes left",
    "the 22nd byte",
    "more bytes behind it",
];
/// What in a record was not as calls leave it, and what became of it.
const ODD: [&str; 11] = [
    "byte 0 above 1",
    "byte 1 above 1",
    "bytes of no flag kept",
    "bytes kept behind those added",
    "a count above 22 kept",
    "bytes kept beside a count above 21",
    "bytes cleared beside one",
    "bytes cleared by the 22nd",
    "bytes cleared by a flag",
    "a right frame of no flag dropped",
    "a right frame beside a count above 21 dropped",
];

#[derive(Default)]
pub struct Lines {
    written: [u64; 7],
    refused: [u64; 7],
    between: [u64; 9],
    sides: [u64; 4],
    read: [u64; 9],
    odd: [u64; 11],
}

fn any(bytes: &[u8]) -> bool {
    bytes.iter().any(|byte| *byte != 0)
}

/// The bytes of a record that stand behind those it counts.
fn behind(record: &[u8; LINE_RECORD]) -> &[u8] {
    record.get(3 + usize::from(record[2])..).unwrap_or(&[])
}

fn is_escaped(byte: u8) -> bool {
    byte == FLAG || byte == ESCAPE
}

impl Lines {
    /// Counts a call that was given a packet and so many bytes of output, by the number that it answered.
    pub fn written(&mut self, answered: u32, packet: &[u8], output: usize) {
        let (length, most, [low, high]) = (packet.len(), worst_case(packet.len()), fcs(packet));
        let frame = frame(packet).len();
        let outside = !(2..=LONGEST_PACKET).contains(&length);
        let seen = [
            frame == length + 4,
            packet.iter().any(|byte| is_escaped(*byte)),
            is_escaped(low),
            is_escaped(high),
            frame == most,
            output == most,
            output > most,
        ];
        add(&mut self.written, seen.map(|seen| seen && answered == 0));
        let seen = [
            answered == 17 && length == 1,
            answered == 17 && length == 20,
            answered == 17 && output < most,
            answered == 16 && output + 1 == most,
            answered == 16 && output >= frame,
            answered == 255 && outside,
            answered == 255 && !outside && output < most,
        ];
        add(&mut self.refused, seen);
    }

    /// Counts a call that read these bytes of a line and answered 0, by its record before and after it.
    pub fn read(&mut self, before: &[u8], bytes: &[u8], after: &[u8]) {
        let (Some(before), Some(after)) = (before.first_chunk(), after.first_chunk()) else {
            return;
        };
        let text = [&text_of(before), bytes].concat();
        let unknown = usize::from(before[0] != 0 && before[2] > 21);
        for piece in pieces(&text).into_iter().skip(unknown) {
            self.between[kind(&text[piece])] += 1;
        }
        self.add_read(before, bytes, after);
        self.add_odd(before, bytes, after);
    }

    fn add_read(&mut self, before: &[u8; LINE_RECORD], bytes: &[u8], after: &[u8; LINE_RECORD]) {
        let inside = before[0] != 0;
        let escaped = bytes.first().filter(|_| inside && before[1] != 0);
        let flag = bytes.contains(&FLAG);
        let seen = [
            bytes.is_empty(),
            !inside && bytes.first().is_some_and(|byte| *byte != FLAG),
            escaped == Some(&FLAG),
            escaped == Some(&ESCAPE),
            escaped.is_some_and(|byte| !is_escaped(*byte)),
            after[0] == 1 && after[1] == 1 && !bytes.is_empty(),
            after[0] == 1 && after[2] == 21,
            after[0] == 1 && after[2] == 22 && (flag || before[2] <= 21),
            inside && before[2] > 21 && !flag && bytes.len() > 1,
        ];
        add(&mut self.read, seen);
    }

    fn add_odd(&mut self, before: &[u8; LINE_RECORD], bytes: &[u8], after: &[u8; LINE_RECORD]) {
        let (inside, many, flag) = (before[0] != 0, before[2] > 21, bytes.contains(&FLAG));
        let held = &before[3..3 + usize::from(before[2]).min(21)];
        let right = before[1] == 0 && kind(&escaped(held)) == 0;
        let dropped = right && bytes.first() == Some(&FLAG);
        let seen = [
            !flag && before[0] > 1,
            !flag && before[1] > 1 && after[1] == 1,
            !flag && !inside && any(&after[2..]) && !bytes.is_empty(),
            !flag && inside && after[2] > before[2] && any(behind(after)),
            !flag && inside && after[2] > 22,
            !flag && inside && after[2] > 21 && any(&after[3..]),
            !flag && inside && many && any(&before[3..]) && !any(&after[3..]),
            !flag && inside && !many && any(behind(before)) && after[2] == 22,
            flag && any(behind(before)),
            dropped && !inside,
            dropped && inside && many,
        ];
        add(&mut self.odd, seen);
    }

    /// Counts what stands beside the flags of a whole line that was read from its start.
    pub fn whole(&mut self, line: &[u8]) {
        let pieces = pieces(line);
        for pair in pieces.windows(2) {
            let (first, second) = (&line[pair[0].clone()], &line[pair[1].clone()]);
            let joined = first
                .split_last()
                .map(|(_, start)| [start, &[0x5E], second]);
            let joined = joined.map_or(vec![], |parts| parts.concat());
            let (left, right) = (kind(first), kind(second));
            let seen = [
                left == 0 && right == 0,
                left > 1 && right == 0,
                left == 0 && right > 1,
                judge(first) == Judged::Escape && kind(&joined) == 0,
            ];
            add(&mut self.sides, seen);
        }
    }

    /// What a comparison that covers everything has seen, and this one has not.
    pub fn missing(&self) -> impl Iterator<Item = String> + '_ {
        let never = |what: &'static str, names, counts| {
            unseen(names, counts).map(move |never| format!("{what}: {never}"))
        };
        never("writing to a line", &WRITTEN, &self.written)
            .chain(never("writing to a line", &REFUSED, &self.refused))
            .chain(never("between two flags", &BETWEEN, &self.between))
            .chain(never("beside a flag", &SIDES, &self.sides))
            .chain(never("reading from a line", &READ, &self.read))
            .chain(never("a line's record", &ODD, &self.odd))
    }
}

/// What stands between two flags, by its place among the names.
fn kind(piece: &[u8]) -> usize {
    let length = unescaped(piece).len();
    match judge(piece) {
        Judged::Packet(_) => 0,
        Judged::Nothing => 1,
        Judged::Fcs if (4..=21).contains(&length) => 2,
        Judged::Fcs => 3,
        Judged::Length if length == 2 => 4,
        Judged::Length if length == 3 => 5,
        Judged::Length => 6,
        Judged::Escape => match judge(&piece[..piece.len() - 1]) {
            Judged::Packet(_) => 8,
            _ => 7,
        },
    }
}

impl fmt::Display for Lines {
    fn fmt(&self, out: &mut fmt::Formatter<'_>) -> fmt::Result {
        let (written, refused) = (line(&WRITTEN, &self.written), line(&REFUSED, &self.refused));
        writeln!(out, "written to a line: {written}; refused: {refused}")?;
        let (between, sides) = (line(&BETWEEN, &self.between), line(&SIDES, &self.sides));
        writeln!(out, "between two flags: {between}; beside a flag: {sides}")?;
        let (read, odd) = (line(&READ, &self.read), line(&ODD, &self.odd));
        write!(out, "read from a line: {read}; records: {odd}")
    }
}
