//! What was seen of stuffed zeros (02, ask 6).

use super::{add, line, unseen};
use crate::read_back::Frame;
use aes18_reference::bits::bits_of;
use aes18_reference::hdlc::{run_left, stuff};
use aes18_reference::sender::Sender;
use std::fmt;

/// The zeros of a frame. The most is a fifth of its unstuffed bits, rounded down.
const FRAMES: [&str; 4] = [
    "a zero of the FCS",
    "five ones that begin in the packet and end in the FCS",
    "five ones that end the frame",
    "at most 3 fewer than the most",
];
/// The same where it is a circuit's; a system packet's address has one.
const PLACED: [&str; 2] = ["none", "of the FCS alone"];
/// Where the zeros of a block were.
const BLOCKS: [&str; 8] = [
    "none, in no frame",
    "of the system frame, nothing placed",
    "of the system frame alone, frames placed",
    "of the system frame and of others",
    "of several frames without a system packet",
    "of copies in one block",
    "not those of a picked frame that did not fit",
    "none, and some in a picked frame that did not fit",
];
/// The answer's bytes in calls that are accepted, or are refused by 255.
const ANSWERS: [&str; 4] = ["8 refused", "11 refused", "12", "13"];
/// So many zeros must have been seen in a block: more than a byte holds.
const MANY: usize = 256;

#[derive(Default)]
pub struct Zeros {
    circuits: [u64; 4],
    systems: [u64; 4],
    placed: [u64; 2],
    blocks: [u64; 8],
    answers: [u64; 4],
    /// The most zeros of a block.
    most: usize,
}

/// Of a frame's zeros those whose five ones end in the FCS.
fn of_fcs(frame: &Frame) -> usize {
    let packet = bits_of(&frame.bytes[..frame.bytes.len() - 2]);
    frame.zeros() - (stuff(&packet).len() - packet.len())
}

/// Whether five ones begin in a frame's packet and end in its FCS.
fn in_both(frame: &Frame) -> bool {
    let (packet, fcs) = frame.bytes.split_at(frame.bytes.len() - 2);
    let run = run_left(packet);
    run > 0 && run + fcs[0].trailing_ones() as usize >= 5
}

/// The zeros of the frame that was picked and did not fit, which is the one that this record's next block begins with.
fn unplaced(record: &[u8], store: &[u8], long: Option<&[u8]>) -> Option<usize> {
    let mut sender = Sender::resume_beside(record, store, long).ok()?;
    let made = sender.block_beside(store, long, 256, 256, None, &mut [0; 32]);
    made.ok()?.frames.first().map(|frame| frame.zeros)
}

impl Zeros {
    /// Counts a block call by the number answered and the answer's length.
    pub fn answer(&mut self, answered: u32, length: usize) {
        let refused = answered == 255;
        let seen = [
            refused && length == 8,
            refused && length == 11,
            answered == 0 && length == 12,
            answered == 0 && length == 13,
        ];
        add(&mut self.answers, seen);
    }

    /// Counts an accepted block by its frames, the record that it left, and what is lent beside that.
    pub fn block(&mut self, frames: &[Frame], record: &[u8], store: &[u8], long: Option<&[u8]>) {
        for frame in frames {
            self.add_frame(frame);
        }
        let (system, placed): (Vec<&Frame>, Vec<&Frame>) =
            frames.iter().partition(|frame| frame.is_system());
        let with_zeros = placed.iter().filter(|frame| frame.zeros() > 0).count();
        let mut pairs = frames.windows(2);
        let unplaced = unplaced(record, store, long).unwrap_or(0);
        let seen = [
            frames.is_empty(),
            !system.is_empty() && placed.is_empty(),
            !system.is_empty() && !placed.is_empty() && with_zeros == 0,
            !system.is_empty() && with_zeros > 0,
            system.is_empty() && with_zeros > 1,
            pairs.any(|pair| pair[0].bytes == pair[1].bytes && pair[0].zeros() > 0),
            with_zeros > 0 && unplaced > 0,
            system.is_empty() && with_zeros == 0 && unplaced > 0,
        ];
        add(&mut self.blocks, seen);
        let zeros = frames.iter().map(Frame::zeros).sum();
        self.most = self.most.max(zeros);
    }

    fn add_frame(&mut self, frame: &Frame) {
        let (zeros, of_fcs) = (frame.zeros(), of_fcs(frame));
        let seen = [
            of_fcs > 0,
            in_both(frame),
            frame.body.ends_with(&[true, true, true, true, true, false]),
            zeros + 3 >= frame.most(),
        ];
        if frame.is_system() {
            add(&mut self.systems, seen);
        } else {
            add(&mut self.circuits, seen);
            let seen = [zeros == 0, zeros > 0 && zeros == of_fcs];
            add(&mut self.placed, seen);
        }
    }

    /// What a comparison that covers everything has seen, and this one has not.
    pub fn missing(&self) -> impl Iterator<Item = String> + '_ {
        let never = |what: &'static str, names, counts| {
            unseen(names, counts).map(move |never| format!("{what}: {never}"))
        };
        let few = (self.most < MANY).then(|| {
            let most = self.most;
            format!("zeros of a block: {most} at most, fewer than {MANY}")
        });
        let (circuit, system) = ("zeros of a circuit's frame", "zeros of a system frame");
        never(circuit, &PLACED, &self.placed)
            .chain(never(circuit, &FRAMES, &self.circuits))
            .chain(never(system, &FRAMES, &self.systems))
            .chain(never("zeros of a block", &BLOCKS, &self.blocks))
            .chain(never("bytes of a block's answer", &ANSWERS, &self.answers))
            .chain(few)
    }
}

impl fmt::Display for Zeros {
    fn fmt(&self, out: &mut fmt::Formatter<'_>) -> fmt::Result {
        let (placed, circuits) = (line(&PLACED, &self.placed), line(&FRAMES, &self.circuits));
        writeln!(out, "zeros of a circuit's frame: {placed}, {circuits}")?;
        let systems = line(&FRAMES, &self.systems);
        writeln!(out, "zeros of a system frame: {systems}")?;
        let (blocks, answers) = (line(&BLOCKS, &self.blocks), line(&ANSWERS, &self.answers));
        write!(
            out,
            "zeros of a block: {blocks}; at most {}; bytes of its answer: {answers}",
            self.most
        )
    }
}
