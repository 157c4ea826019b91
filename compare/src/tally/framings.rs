//! What was seen of the framing alone.

use super::{add, line, unseen, NOTICES};
use aes18_reference::bits::{bit_at, bytes_of};
use aes18_reference::calls::ReadCall;
use aes18_reference::hdlc::{fcs, judge, unstuff, Judged, FLAG};
use aes18_reference::history::{History, FRAMING};
use std::fmt;

const STOPPED: [&str; 3] = ["End", "Spoilt", "Packet"];
/// The lengths of the packets.
const LENGTHS: [&str; 18] = [
    "2", "3", "4", "5", "6", "7", "8", "9", "10", "11", "12", "13", "14", "15", "16", "17", "18",
    "19",
];
/// What stood between two flags.
const BODIES: [&str; 11] = [
    "a packet",
    "flags that share their 0",
    "no bits",
    "seven ones",
    "fewer than 32 bits",
    "32 bits or more with seven ones",
    "a wrong FCS",
    "no whole bytes",
    "more than 21 bytes",
    "five ones at the end",
    "a frame right but for them",
];
/// Where a call began or ended.
const CUTS: [&str; 10] = [
    "no bits read",
    "at the start of all bits or behind seven ones",
    "outside a body",
    "behind an opening flag",
    "behind a plain 0",
    "behind five ones and a 0",
    "inside a closing flag",
    "behind 168 bits",
    "behind more",
    "still behind more",
];
/// The edges of what bits leave, in framings that were accepted.
const INSIDE: [&str; 8] = [
    "6 ones outside a body",
    "6 ones behind a flag",
    "6 ones in a body",
    "count 0 in a body",
    "count 168",
    "count 169",
    "count 169 behind five ones",
    "ten ones and a 0",
];
/// What was wrong with framings that were refused.
const OUTSIDE: [&str; 14] = [
    "phase 5",
    "a phase above",
    "7 ones",
    "more ones",
    "count 170",
    "a count above",
    "ones in phase 0",
    "a count in phase 0",
    "a count in phase 1 or 2",
    "the bit behind those counted",
    "another bit behind them",
    "a bit beside count 169",
    "four ones in phase 4",
    "six ones in phase 4",
];
const REFUSED: [&str; 9] = [
    "a framing one byte short",
    "a packet's place one byte short",
    "an answer one byte short",
    "255 before 14",
    "255 before 15",
    "14 before 15",
    "from above to",
    "to one bit past the bytes",
    "to far past them",
];

#[derive(Default)]
pub struct Framings {
    stopped: [u64; 3],
    lengths: [u64; 18],
    bodies: [u64; 11],
    cuts: [u64; 10],
    inside: [u64; 8],
    outside: [u64; 14],
    refused: [u64; 9],
    /// Notices of a receiver, whose framing gave what they told of.
    beside: [u64; 6],
}

/// The bits that a framing keeps.
fn kept(framing: &[u8; FRAMING]) -> impl DoubleEndedIterator<Item = bool> + '_ {
    (24..24 + u64::from(framing[2]).min(168)).map(|at| bit_at(framing, at))
}

/// How many ones end the bits that a framing keeps.
fn end_ones(framing: &[u8; FRAMING]) -> usize {
    kept(framing).rev().take_while(|bit| *bit).count()
}

/// The bit behind those that a framing counts, and whether any stands behind that one.
fn behind(framing: &[u8; FRAMING]) -> (bool, bool) {
    let mut behind = (24 + u64::from(framing[2])..8 * FRAMING as u64).map(|at| bit_at(framing, at));
    (behind.next().unwrap_or(false), behind.any(|bit| bit))
}

fn past(call: ReadCall<'_>) -> bool {
    call.from > call.to || call.to > 8 * call.bits.len() as u64
}

impl Framings {
    /// Counts a call that answered 0, by its framing before and after it.
    pub fn read(&mut self, before: &[u8], call: ReadCall<'_>, after: &[u8], answer: &[u8]) {
        let (Some(before), Some(after)) = (before.first_chunk(), after.first_chunk()) else {
            return;
        };
        self.stopped[usize::from(answer[0])] += 1;
        if answer[0] == 2 {
            self.lengths[usize::from(answer[1]) - 2] += 1;
        }
        let read = u64::from_le_bytes(std::array::from_fn(|at| answer[8 + at]));
        let bits = (call.from..call.from + read).map(|at| bit_at(call.bits, at));
        let history = History::unpack(before).unwrap_or_default();
        let whole: Vec<bool> = history.bits().iter().copied().chain(bits).collect();
        let unknown = usize::from(before[2] > 168);
        for kind in between_flags(&whole).into_iter().skip(unknown) {
            self.bodies[kind] += 1;
        }
        self.add_cut(before, read, after);
        self.add_inside(before);
    }

    fn add_cut(&mut self, before: &[u8; FRAMING], read: u64, after: &[u8; FRAMING]) {
        let [phase, ones, count, ..] = *after;
        let seen = [
            read == 0,
            phase == 0,
            phase == 1,
            phase == 2,
            phase == 3,
            phase == 4,
            phase > 2 && ones > 0,
            count == 168,
            count == 169 && before[2] < 169,
            count == 169 && before[2] == 169 && read > 1,
        ];
        add(&mut self.cuts, seen);
    }

    fn add_inside(&mut self, before: &[u8; FRAMING]) {
        let [phase, ones, count, ..] = *before;
        let seen = [
            phase == 1 && ones == 6,
            phase == 2 && ones == 6,
            phase > 2 && ones == 6,
            phase == 3 && count == 0,
            count == 168,
            phase == 3 && count == 169,
            phase == 4 && count == 169,
            phase == 4 && count < 169 && end_ones(before) == 10,
        ];
        add(&mut self.inside, seen);
    }

    /// Counts a call that was refused by a number, with the lengths of the packet's place and of the answer.
    pub fn refused(&mut self, number: u32, before: &[u8], call: ReadCall<'_>, lent: [usize; 2]) {
        let [packet, answer] = lent;
        let whole = before.first_chunk();
        let left = whole.is_some_and(|framing| History::unpack(framing).is_some());
        let end = 8 * call.bits.len() as u64;
        let seen = [
            number == 255 && before.len() == 23,
            number == 255 && packet == 18,
            number == 255 && answer == 15,
            number == 255 && whole.is_some() && !left,
            number == 255 && left && past(call),
            number == 14 && past(call),
            number == 15 && call.from > call.to && call.to <= end,
            number == 15 && call.from <= call.to && call.to == end + 1,
            number == 15 && call.to > end + 64,
        ];
        add(&mut self.refused, seen);
        if let (14, Some(framing)) = (number, whole) {
            self.add_outside(framing);
        }
    }

    /// Counts what is wrong with a framing that no bits leave.
    fn add_outside(&mut self, framing: &[u8; FRAMING]) {
        let [phase, ones, count, ..] = *framing;
        let (next, later) = behind(framing);
        let numbers = phase < 5 && ones < 7 && count < 170;
        let fives = numbers && phase == 4 && count < 169 && !next && !later;
        let seen = [
            phase == 5,
            phase > 5,
            ones == 7,
            ones > 7,
            count == 170,
            count > 170,
            numbers && phase == 0 && ones > 0,
            numbers && phase == 0 && count > 0,
            numbers && (1..=2).contains(&phase) && count > 0,
            numbers && next && !later,
            numbers && !next && later,
            numbers && count == 169 && framing[3..].iter().any(|byte| *byte > 0),
            fives && end_ones(framing) == 4,
            fives && end_ones(framing) == 6,
        ];
        add(&mut self.outside, seen);
    }

    /// Counts a notice of a receiver whose framing was read beside it.
    pub fn beside(&mut self, notice: u8) {
        self.beside[usize::from(notice)] += 1;
    }

    /// What a comparison that covers everything has seen, and this one has not.
    pub fn missing(&self) -> impl Iterator<Item = String> + '_ {
        let never = |what: &'static str, names, counts| {
            unseen(names, counts).map(move |never| format!("{what}{never}"))
        };
        never("a framing: ", &STOPPED, &self.stopped)
            .chain(never("a packet's length ", &LENGTHS, &self.lengths))
            .chain(never("between two flags of bits: ", &BODIES, &self.bodies))
            .chain(never("a framing's cut: ", &CUTS, &self.cuts))
            .chain(never("a framing read on: ", &INSIDE, &self.inside))
            .chain(never("a framing refused: ", &OUTSIDE, &self.outside))
            .chain(never("a framing refused: ", &REFUSED, &self.refused))
            .chain(never("a receiver's framing: ", &NOTICES, &self.beside))
    }
}

/// What stands between each two flags of bits, by its place among the names.
fn between_flags(bits: &[bool]) -> Vec<usize> {
    let is_flag = |at: &usize| bits[*at..].starts_with(&FLAG);
    let flags: Vec<usize> = (0..bits.len()).filter(is_flag).collect();
    let kind = |pair: &[usize]| match bits.get(pair[0] + FLAG.len()..pair[1]) {
        Some(body) => kind(body),
        None => 1,
    };
    flags.windows(2).map(kind).collect()
}

/// What a body is, by its place among the names.
fn kind(body: &[bool]) -> usize {
    let bits = unstuff(body);
    let five = body.ends_with(&[true; 5]);
    match (body.windows(7).any(|seven| seven == [true; 7]), judge(body)) {
        (true, _) if bits.len() < 32 => 3,
        (true, _) => 5,
        (false, Judged::Packet(_)) => 0,
        (false, Judged::Nothing) if body.is_empty() => 2,
        (false, Judged::Nothing) => 4,
        (false, Judged::Spoilt) if five && right(&bits) => 10,
        (false, Judged::Spoilt) if five => 9,
        (false, Judged::Spoilt) if bits.len() > 168 => 8,
        (false, Judged::Spoilt) if bits.len() % 8 > 0 => 7,
        (false, Judged::Spoilt) => 6,
    }
}

/// Whether bits are 4 to 21 whole bytes with a right FCS.
fn right(bits: &[bool]) -> bool {
    let bytes = bytes_of(bits);
    let whole = bits.len() % 8 == 0 && (4..=21).contains(&bytes.len());
    let checked = bytes.split_last_chunk();
    whole && checked.is_some_and(|(packet, sent)| *sent == fcs(packet))
}

impl fmt::Display for Framings {
    fn fmt(&self, out: &mut fmt::Formatter<'_>) -> fmt::Result {
        let (stopped, lengths) = (line(&STOPPED, &self.stopped), line(&LENGTHS, &self.lengths));
        writeln!(out, "framings: {stopped}; packets by length: {lengths}")?;
        let (bodies, cuts) = (line(&BODIES, &self.bodies), line(&CUTS, &self.cuts));
        writeln!(out, "between two flags of bits: {bodies}; cut: {cuts}")?;
        let (inside, outside) = (line(&INSIDE, &self.inside), line(&OUTSIDE, &self.outside));
        writeln!(out, "framings read on: {inside}; refused: {outside}")?;
        let (refused, beside) = (line(&REFUSED, &self.refused), line(&NOTICES, &self.beside));
        write!(
            out,
            "framings' calls refused: {refused}; beside a receiver: {beside}"
        )
    }
}
