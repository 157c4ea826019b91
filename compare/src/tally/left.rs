//! What was seen of the packets still to go (02, ask 5).

use super::{add, line, unseen, Lent};
use crate::inputs::mend_left;
use aes18_reference::packet::packet_count;
use aes18_reference::records::{SenderRecord, SenderSlot, LAST_SERVED, SENDER_SLOT, SLOTS};
use std::fmt;

/// What a field has in place of the packets still to go.
const WRONG: [&str; 8] = [
    "one more",
    "one less",
    "the bytes swapped",
    "another high byte",
    "0 while some are to go",
    "not 0 while none is",
    "the copies to place",
    "all packets of the message",
];
/// The circuit number of the wrong field, and how many circuits are listed.
const NUMBERS: [&str; 4] = ["0", "1", "2", "3"];
const LISTED: [&str; 4] = ["1", "2", "3", "4"];
/// What became of the packets still to go of a circuit in a block.
const MADE: [&str; 6] = [
    "as many, with a copy placed",
    "as many, with no copy placed",
    "one less",
    "fewer by more",
    "none any more",
    "a packet with some copies placed and some not",
];
/// The two kinds of calls.
const CALLS: [&str; 2] = ["in a block call", "in an offer"];
const BLOCK: usize = 0;
const OFFER: usize = 1;
/// Packets of an accepted offer.
const OFFERS: [&str; 6] = ["1", "2 to 255", "256", "257", "258 to 4,096", "4,097"];

#[derive(Default)]
pub struct Left {
    /// Records out of range by one field alone, in block calls and in offers: by what it has; where it is one more, and where it is one less, by its
    /// circuit number. In both by the circuits listed.
    out: [[u64; 8]; 2],
    by_one: [[[u64; 4]; 2]; 2],
    listed: [u64; 4],
    /// Wrong fields in the records of accepted calls, which are of numbers that are not listed: by circuit number, and by what they have.
    not_judged: [u64; 4],
    unlisted: [u64; 8],
    made: [u64; 6],
    offers: [u64; 6],
}

/// A record that is out of range by one field alone: how many circuits it lists, and the circuit number and slot of that field.
struct Out {
    listed: usize,
    number: usize,
    slot: SenderSlot,
}

fn out_by_field(lent: &Lent<'_>) -> Option<Out> {
    let mut mended = lent.record.to_vec();
    mend_left(&mut mended);
    let right = SenderRecord::unpack(&mended, lent.given())?;
    let told = slots(lent.record).zip(right.slots);
    let mut wrong = told.enumerate().filter(|(_, (slot, right))| slot != right);
    let (number, (slot, _)) = wrong.next()?;
    wrong.next().is_none().then_some(Out {
        listed: right.circuits.len(),
        number,
        slot,
    })
}

/// All slots of a record, listed or not.
fn slots(record: &[u8]) -> impl Iterator<Item = SenderSlot> + '_ {
    let bytes = record[SLOTS..LAST_SERVED].chunks(SENDER_SLOT);
    bytes.map(SenderSlot::unpack)
}

/// What the field of a slot that is right but for it has.
fn wrong(slot: &SenderSlot) -> [bool; 8] {
    let (told, right) = (slot.left, slot.still_to_go());
    let copies = right * (usize::from(slot.repetition) + 1);
    [
        told == right + 1,
        told + 1 == right,
        told == usize::from((right as u16).swap_bytes()),
        told % 256 == right % 256,
        told == 0,
        right == 0,
        told + usize::from(slot.copy) == copies,
        told == packet_count(slot.length),
    ]
}

impl Left {
    /// Counts a block call by what it was lent and its record after it.
    pub fn block(&mut self, lent: &Lent<'_>, after: &[u8]) {
        if self.judged(BLOCK, lent) {
            self.add_made(lent.record, after);
        }
    }

    /// Counts an offer in the same way.
    pub fn offer(&mut self, lent: &Lent<'_>, after: &[u8]) {
        if self.judged(OFFER, lent) {
            self.add_offered(lent.record, after);
        }
    }

    /// Counts what the fields of a call's record have, by the number answered; whether the call was accepted.
    fn judged(&mut self, call: usize, lent: &Lent<'_>) -> bool {
        match lent.answered {
            0 => self.add_not_judged(lent.record),
            14 => self.add_out(call, lent),
            _ => {}
        }
        lent.answered == 0
    }

    /// Counts a record that was refused by 14, if that is by one field alone.
    fn add_out(&mut self, call: usize, lent: &Lent<'_>) {
        let Some(out) = out_by_field(lent) else {
            return;
        };
        let wrong = wrong(&out.slot);
        add(&mut self.out[call], wrong);
        for (counts, by_one) in self.by_one[call].iter_mut().zip(wrong) {
            counts[out.number] += u64::from(by_one);
        }
        self.listed[out.listed - 1] += 1;
    }

    fn add_not_judged(&mut self, record: &[u8]) {
        let fields = self.not_judged.iter_mut().zip(slots(record));
        for (count, slot) in fields.filter(|(_, slot)| slot.left != slot.still_to_go()) {
            *count += 1;
            add(&mut self.unlisted, wrong(&slot));
        }
    }

    fn add_offered(&mut self, before: &[u8], after: &[u8]) {
        let mut both = slots(before).zip(slots(after));
        if let Some((_, slot)) = both.find(|(old, new)| old != new) {
            let left = slot.left;
            let seen = [
                left == 1,
                (2..=255).contains(&left),
                left == 256,
                left == 257,
                (258..=4096).contains(&left),
                left == 4097,
            ];
            add(&mut self.offers, seen);
        }
    }

    fn add_made(&mut self, before: &[u8], after: &[u8]) {
        let pending = slots(before)
            .zip(slots(after))
            .take(before[0].into())
            .filter(|(old, _)| old.left > 0);
        for (old, new) in pending {
            let seen = [
                new.left == old.left && old != new,
                old == new,
                new.left + 1 == old.left,
                new.left + 1 < old.left,
                new.left == 0,
                old != new && new.left > 0 && new.copy > 0,
            ];
            add(&mut self.made, seen);
        }
    }

    /// What a comparison that covers everything has seen, and this one has not.
    pub fn missing(&self) -> Vec<String> {
        let mut counted: Vec<(String, &[&str], &[u64])> = vec![
            ("wrong, circuits listed".into(), &LISTED, &self.listed),
            ("not judged, circuit".into(), &NUMBERS, &self.not_judged),
            ("not judged,".into(), &WRONG, &self.unlisted),
            ("after a block".into(), &MADE, &self.made),
            ("of an offer".into(), &OFFERS, &self.offers),
        ];
        for (kind, call) in CALLS.iter().enumerate() {
            counted.push((format!("{call},"), &WRONG, &self.out[kind]));
            for (wrong, numbers) in WRONG.iter().zip(&self.by_one[kind]) {
                counted.push((format!("{call}, {wrong}, circuit"), &NUMBERS, numbers));
            }
        }
        let never = |(what, names, counts): (String, _, _)| {
            unseen(names, counts).map(move |never| format!("packets still to go: {what} {never}"))
        };
        counted.into_iter().flat_map(never).collect()
    }
}

impl fmt::Display for Left {
    fn fmt(&self, out: &mut fmt::Formatter<'_>) -> fmt::Result {
        for (kind, call) in CALLS.iter().enumerate() {
            let [more, less] = self.by_one[kind].map(|numbers| line(&NUMBERS, &numbers));
            writeln!(
                out,
                "packets still to go, wrong {call}: {}; one more by circuit number {more}; one less {less}",
                line(&WRONG, &self.out[kind])
            )?;
        }
        let (not_judged, unlisted) = (
            line(&NUMBERS, &self.not_judged),
            line(&WRONG, &self.unlisted),
        );
        writeln!(
            out,
            "packets still to go, wrong by circuits listed: {}; not listed and not judged: by circuit number {not_judged}; {unlisted}",
            line(&LISTED, &self.listed)
        )?;
        let (made, offers) = (line(&MADE, &self.made), line(&OFFERS, &self.offers));
        write!(
            out,
            "packets still to go after a block: {made}; of an offer: {offers}"
        )
    }
}
