//! What was seen of the enable bits in force (02, ask 4).

use super::{add, line, unseen, Lent};
use aes18_reference::calls::BlockCall;
use aes18_reference::packet::{packet_count, System};
use aes18_reference::records::{SenderRecord, SenderSlot, ALL_ENABLED, ENABLE, SENDER_RECORD};
use std::fmt;

/// The bits that rule a block.
const BITS: [&str; 16] = [
    "0", "1", "2", "3", "4", "5", "6", "7", "8", "9", "10", "11", "12", "13", "14", "15",
];
/// What became of the bits in a block that was made.
const MADE: [&str; 6] = [
    "changed",
    "sent again",
    "left, and the argument others",
    "left, and the argument above 15",
    "changed in a record of no circuits",
    "left in one",
];
/// What they did there.
const FRAMES: [&str; 5] = [
    "a frame held back by bits of its own block",
    "a frame held back by bits of an earlier block",
    "one of a lower priority placed past that",
    "every frame held back by bits of an earlier block",
    "a frame placed that the bits before held back",
];
/// Why a system packet of other bits than those in force was refused.
const REFUSED: [&str; 8] = [
    "5",
    "11",
    "12",
    "13 by its bits",
    "13 by its code",
    "13 by its information",
    "14",
    "255",
];
/// Offers beside bits that do not enable all.
const OFFERS: [&str; 2] = ["accepted", "refused"];
/// The number of circuits in records that are out of range by their bits alone, and such bits.
const CIRCUITS: [&str; 5] = ["0", "1", "2", "3", "4"];
const ABOVE: [&str; 3] = ["16", "17 to 254", "255"];
/// Bits of the longest frame with its flag.
const LONGEST: u64 = 209;
/// So many blocks in a row, of which none has a system packet, must have held a frame back.
const MANY: u64 = 20;

#[derive(Default)]
pub struct Enabling {
    bits: [u64; 16],
    made: [u64; 6],
    frames: [u64; 5],
    /// The most blocks in a row in which the same bits held a frame back.
    most: u64,
    refused: [u64; 8],
    offers: [u64; 2],
    /// Records out of range by their bits alone: in block calls, in offers, and by the bits.
    blocks_out: [u64; 5],
    offers_out: [u64; 5],
    above: [u64; 3],
}

fn waits(slot: &SenderSlot) -> bool {
    slot.place < packet_count(slot.length)
}

fn enabled(enable: u8, slot: &SenderSlot) -> bool {
    enable >> slot.priority & 1 == 1
}

/// The number of circuits of a record that is out of range by its bits alone.
fn out_by_bits(lent: &Lent<'_>) -> Option<usize> {
    let mut other = lent.record.to_vec();
    other[ENABLE] = ALL_ENABLED;
    let other = SenderRecord::unpack(&other, lent.given())?;
    (lent.record[ENABLE] > ALL_ENABLED).then_some(other.circuits.len())
}

impl Enabling {
    /// Counts a block call by what it was lent, its record after it, and the answer.
    pub fn block(&mut self, lent: &Lent<'_>, call: BlockCall<'_>, after: &[u8], answer: &[u8]) {
        let (answered, before) = (lent.answered, lent.record);
        if before.len() < SENDER_RECORD {
            return;
        }
        if let Some(system) = call.wanted() {
            self.add_refused(answered, before[ENABLE], system);
        }
        if answered == 14 {
            add_out(&mut self.blocks_out, &mut self.above, lent);
        }
        if answered != 0 {
            return;
        }
        let unpack = |record| SenderRecord::unpack(record, lent.given());
        let records = (unpack(before), unpack(after));
        if let (Some(before), Some(after)) = records {
            let used = u64::from(answer[4]) + 256 * u64::from(answer[5]);
            self.bits[usize::from(after.enable)] += 1;
            self.add_made(&before, call, &after);
            self.add_frames(&before, call, &after, used);
        }
    }

    /// Counts an offer by what it was lent.
    pub fn offer(&mut self, lent: &Lent<'_>) {
        let (answered, before) = (lent.answered, lent.record);
        if answered == 14 {
            add_out(&mut self.offers_out, &mut self.above, lent);
        } else if before.len() >= SENDER_RECORD {
            let barred = before[ENABLE] != ALL_ENABLED;
            let seen = [barred && answered == 0, barred && answered != 0];
            add(&mut self.offers, seen);
        }
    }

    fn add_refused(&mut self, answered: u32, before: u8, system: System<'_>) {
        let other = system.enable != u64::from(before);
        let bits = system.enable > 15;
        let (code, long) = (system.code > 8, system.information.len() > 15);
        let seen = [
            answered == 5,
            answered == 11,
            answered == 12,
            answered == 13 && !code && !long,
            answered == 13 && !bits && code && !long,
            answered == 13 && !bits && !code && long,
            answered == 14,
            answered == 255,
        ];
        add(&mut self.refused, seen.map(|seen| seen && other));
    }

    fn add_made(&mut self, before: &SenderRecord, call: BlockCall<'_>, after: &SenderRecord) {
        let system = call.system != 0;
        let none = before.circuits.is_empty();
        let same = before.enable == after.enable;
        let other = call.enable != u64::from(before.enable);
        let seen = [
            system && !same,
            system && same,
            !system && other && call.enable <= 15,
            !system && call.enable > 15,
            none && system && !same,
            none && !system && before.enable != ALL_ENABLED,
        ];
        add(&mut self.made, seen);
    }

    /// Counts frames that were held back: their priority is not enabled, and the bits left would have held the longest.
    fn add_frames(
        &mut self,
        before: &SenderRecord,
        call: BlockCall<'_>,
        after: &SenderRecord,
        used: u64,
    ) {
        let system = call.system != 0;
        let waiting = || after.slots.iter().filter(|slot| waits(slot));
        let barred = waiting().filter(|slot| !enabled(after.enable, slot));
        let highest = barred.map(|slot| slot.priority).max();
        let both = before.slots.iter().zip(&after.slots);
        let placed: Vec<&SenderSlot> = both
            .filter(|(old, new)| old != new)
            .map(|(old, _)| old)
            .collect();
        let held = highest.is_some() && used + LONGEST <= call.u;
        let lower = placed.iter().any(|slot| Some(slot.priority) < highest);
        let seen = [
            system && held,
            !system && held,
            !system && held && lower,
            !system && held && placed.is_empty(),
            placed.iter().any(|slot| !enabled(before.enable, slot)),
        ];
        add(&mut self.frames, seen);
    }

    /// How many blocks were seen in which bits of an earlier one held a frame back.
    pub fn held_over(&self) -> u64 {
        self.frames[1]
    }

    /// Counts so many of them in a row.
    pub fn in_a_row(&mut self, blocks: u64) {
        self.most = self.most.max(blocks);
    }

    /// What a comparison that covers everything has seen, and this one has not.
    pub fn missing(&self) -> impl Iterator<Item = String> + '_ {
        let never = |what: &'static str, names, counts| {
            unseen(names, counts).map(move |never| format!("{what}{never}"))
        };
        let few = (self.most < MANY).then(|| {
            let most = self.most;
            format!("a frame was held back in {most} blocks in a row, fewer than {MANY}")
        });
        let (block, offer) = (
            "bits above 15 in a block call, circuits ",
            "bits above 15 in an offer, circuits ",
        );
        never("a block under the enable bits ", &BITS, &self.bits)
            .chain(never("enable bits ", &MADE, &self.made))
            .chain(never("enable bits: ", &FRAMES, &self.frames))
            .chain(never("other bits refused by ", &REFUSED, &self.refused))
            .chain(never("not all enabled, an offer ", &OFFERS, &self.offers))
            .chain(never("bits above 15: ", &ABOVE, &self.above))
            .chain(never(block, &CIRCUITS, &self.blocks_out))
            .chain(never(offer, &CIRCUITS, &self.offers_out))
            .chain(few)
    }
}

/// Counts a record that was refused by 14, if that is by its bits alone.
fn add_out(circuits: &mut [u64; 5], above: &mut [u64; 3], lent: &Lent<'_>) {
    let Some(count) = out_by_bits(lent) else {
        return;
    };
    circuits[count] += 1;
    let bits = lent.record[ENABLE];
    add(above, [bits == 16, (17..=254).contains(&bits), bits == 255]);
}

impl fmt::Display for Enabling {
    fn fmt(&self, out: &mut fmt::Formatter<'_>) -> fmt::Result {
        let (bits, made) = (line(&BITS, &self.bits), line(&MADE, &self.made));
        writeln!(
            out,
            "blocks by the enable bits in force: {bits}; bits {made}"
        )?;
        let frames = line(&FRAMES, &self.frames);
        writeln!(out, "{frames}; in {} blocks in a row", self.most)?;
        let (refused, offers) = (line(&REFUSED, &self.refused), line(&OFFERS, &self.offers));
        writeln!(
            out,
            "other bits refused by: {refused}; offers while not all are enabled: {offers}"
        )?;
        let blocks = line(&CIRCUITS, &self.blocks_out);
        let offers = line(&CIRCUITS, &self.offers_out);
        let above = line(&ABOVE, &self.above);
        write!(
            out,
            "bits above 15: {above}; in block calls, by circuits: {blocks}; in offers: {offers}"
        )
    }
}
