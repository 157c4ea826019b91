//! What was seen of long messages (02, ask 7) at receivers.

use super::{add, line, unseen, Lent};
use aes18_reference::calls::{answered_notice, ReadCall};
use aes18_reference::framing::Framing;
use aes18_reference::hdlc::Judged;
use aes18_reference::lent::is_long;
use aes18_reference::packet::{parse, Link, Packet, LONG_HEADER};
use aes18_reference::receiver::{Fate, Notice};
use aes18_reference::records::{ReceiverRecord, ReceiverSlot, FRAMING_PLACE, RECEIVER_RECORD};
use aes18_reference::LONGEST_LONG;
use std::fmt;

/// First packets whose header holds 4,095: begun, and those that are Wrong.
const FIRST: [&str; 7] = [
    "begun",
    "of fewer than 16 bytes",
    "of the header's first byte alone",
    "at number 0 without the buffer",
    "at number 1 beside it",
    "at number 2 beside it",
    "at number 3 beside it",
];
/// Where a last packet ends an open long message, which may have 65,535 bytes; the ends that are Whole are in the middle.
const ENDS: [&str; 9] = [
    "below 4,094",
    "at 4,094",
    "at 4,095",
    "at 4,096",
    "at 4,097 to 65,533",
    "at 65,534",
    "at 65,535",
    "at 65,536",
    "above",
];
/// The same where the record says that it may have less.
const FORGED_ENDS: [&str; 6] = [
    "below 4,095",
    "below the most",
    "at the most, 4,095",
    "at the most, more",
    "one above it",
    "more above it",
];
/// Where a packet between ends: Held, and from the fourth on Wrong.
const BETWEEN: [&str; 6] = [
    "below the most but one",
    "at 65,534",
    "at the most but one, less",
    "at the most",
    "above it",
    "with fewer than 16 bytes",
];
/// What else became of packets of circuit number 0 beside the buffer.
const OTHERS: [&str; 8] = [
    "a copy while a long message is open",
    "a loss that drops one",
    "a message begun that drops one with a loss",
    "a message begun that drops one without a loss",
    "a short message whole that drops one",
    "a short message begun",
    "a short message held",
    "a short message whole behind its packets",
];

#[derive(Default)]
pub struct Heard {
    first: [u64; 7],
    ends: [u64; 9],
    forged_ends: [u64; 6],
    between: [u64; 6],
    others: [u64; 8],
}

/// The packet that a read's notice tells of.
fn packet(record: &[u8], call: ReadCall<'_>, answer: &[u8]) -> Option<Vec<u8>> {
    let framing = record[FRAMING_PLACE..RECEIVER_RECORD].first_chunk()?;
    let read = answer[8..]
        .first_chunk()
        .map(|bytes| u64::from_le_bytes(*bytes))?;
    let told = Framing::resume(framing)
        .ok()?
        .read(call.bits, call.from, call.from + read);
    match told.ok()?.body {
        Judged::Packet(packet) => Some(packet),
        _ => None,
    }
}

/// Whether the first packet with this segment has a header of 4,095, as far as it came.
fn is_long_header(segment: &[u8]) -> bool {
    let [high, low] = [LONG_HEADER / 256, LONG_HEADER % 256].map(|byte| byte as u8);
    segment[0] & 0x1F == 0x10 | high && segment.get(1).is_none_or(|byte| *byte == low)
}

impl Heard {
    /// Counts an accepted read.
    pub fn read(&mut self, lent: &Lent<'_>, call: ReadCall<'_>, after: &[u8], answer: &[u8]) {
        let Some(Notice::Circuit { number, loss, fate }) = answered_notice(&answer[..16]) else {
            return;
        };
        if fate == Fate::Wrong {
            self.add_wrong(lent, number, call, answer);
        }
        if lent.given() && number == 0 {
            let slot = |record| Some(ReceiverRecord::unpack(record, true)?.slots[0]);
            if let (Some(old), Some(new)) = (slot(lent.record), slot(after)) {
                self.add(&old, &new, loss, fate);
            }
        }
    }

    /// Counts a packet that is Wrong by the packet itself.
    fn add_wrong(&mut self, lent: &Lent<'_>, number: usize, call: ReadCall<'_>, answer: &[u8]) {
        let Some(packet) = packet(lent.record, call, answer) else {
            return;
        };
        let Packet::Ordinary { link, segment, .. } = parse(&packet) else {
            return;
        };
        let slots = ReceiverRecord::unpack(lent.record, lent.given()).map(|told| told.slots);
        match (link, slots.map(|slots| slots[number])) {
            (Link::First, _) if is_long_header(segment) => {
                let here = lent.given() && number == 0;
                let seen = [
                    false,
                    here && (2..16).contains(&segment.len()),
                    here && segment.len() == 1,
                    !lent.given() && number == 0,
                    lent.given() && number == 1,
                    lent.given() && number == 2,
                    lent.given() && number == 3,
                ];
                add(&mut self.first, seen);
            }
            (Link::Last, Some(slot)) if is_long(slot.length) => {
                self.add_end(&slot, slot.place + segment.len());
            }
            (Link::Between, Some(slot)) if is_long(slot.length) => {
                self.add_between(&slot, segment.len());
            }
            _ => {}
        }
    }

    /// Counts where a last packet ends an open long message.
    fn add_end(&mut self, slot: &ReceiverSlot, end: usize) {
        if slot.length < LONGEST_LONG {
            let seen = [
                end < 4095,
                (4095..slot.length).contains(&end),
                end == slot.length && end == 4095,
                end == slot.length && end > 4095,
                end == slot.length + 1,
                end > slot.length + 1,
            ];
            add(&mut self.forged_ends, seen);
            return;
        }
        let seen = [
            end < 4094,
            end == 4094,
            end == 4095,
            end == 4096,
            (4097..=65_533).contains(&end),
            end == 65_534,
            end == 65_535,
            end == 65_536,
            end > 65_536,
        ];
        add(&mut self.ends, seen);
    }

    fn add_between(&mut self, slot: &ReceiverSlot, bytes: usize) {
        let end = slot.place + bytes;
        let whole = bytes == 16;
        let seen = [
            whole && end + 1 < slot.length,
            whole && end + 1 == slot.length && end == 65_534,
            whole && end + 1 == slot.length && end < 65_534,
            whole && end == slot.length,
            whole && end > slot.length,
            !whole,
        ];
        add(&mut self.between, seen);
    }

    /// Counts any packet of circuit number 0 beside the buffer, by its slot before and after it.
    fn add(&mut self, old: &ReceiverSlot, new: &ReceiverSlot, loss: u8, fate: Fate) {
        let open = old.place < old.length;
        let long = open && is_long(old.length);
        match fate {
            Fate::Begun => self.first[0] += u64::from(is_long(new.length)),
            Fate::Held if long => self.add_between(old, new.place - old.place),
            Fate::Whole(end) if long && is_long(end) => self.add_end(old, end),
            _ => {}
        }
        let whole = matches!(fate, Fate::Whole(_));
        let seen = [
            long && fate == Fate::Copy,
            long && loss > 0,
            long && fate == Fate::Begun && loss > 0,
            long && fate == Fate::Begun && loss == 0,
            long && matches!(fate, Fate::Whole(..=14)),
            fate == Fate::Begun && !is_long(new.length),
            fate == Fate::Held && !is_long(new.length),
            whole && open && !long,
        ];
        add(&mut self.others, seen);
    }

    /// What a comparison that covers everything has seen, and this one has not.
    pub fn missing(&self) -> Vec<String> {
        let never = |what: &'static str, names, counts| {
            unseen(names, counts).map(move |never| format!("long messages heard: {what}{never}"))
        };
        never("a first packet ", &FIRST, &self.first)
            .chain(never("an end ", &ENDS, &self.ends))
            .chain(never("a forged end ", &FORGED_ENDS, &self.forged_ends))
            .chain(never(
                "a packet between that ends ",
                &BETWEEN,
                &self.between,
            ))
            .chain(never("", &OTHERS, &self.others))
            .collect()
    }
}

impl fmt::Display for Heard {
    fn fmt(&self, out: &mut fmt::Formatter<'_>) -> fmt::Result {
        let (first, ends) = (line(&FIRST, &self.first), line(&ENDS, &self.ends));
        writeln!(
            out,
            "first packets of long messages: {first}; their ends: {ends}"
        )?;
        let forged = line(&FORGED_ENDS, &self.forged_ends);
        let (between, others) = (line(&BETWEEN, &self.between), line(&OTHERS, &self.others));
        write!(
            out,
            "ends of shorter ones in records: {forged}; packets between: {between}; beside the buffer: {others}"
        )
    }
}
