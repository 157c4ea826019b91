//! What was seen of long messages (02, ask 7) in the calls: the buffers given, the refusals and their order, and what senders took and placed.

use super::heard::Heard;
use super::{add, line, unseen, Lent};
use aes18_reference::calls::{BlockCall, LongOfferCall, OfferCall, ReadCall};
use aes18_reference::lent::is_long;
use aes18_reference::records::{
    ReceiverRecord, SenderRecord, SenderSlot, RECEIVER_RECORD, RECEIVER_SLOT, SENDER_RECORD,
    SENDER_SLOT, SLOTS,
};
use aes18_reference::{LONGEST_MESSAGE, LONG_BUFFER, RECEIVER_STORE, SENDER_STORE};
use std::fmt;

/// The calls that may be given a long buffer.
const CALLS: [&str; 4] = ["an offer", "a long offer", "a block", "a read"];
const OFFER: usize = 0;
const LONG: usize = 1;
const BLOCK: usize = 2;
const READ: usize = 3;
/// The bytes of the buffers that were refused by 19, and of those in accepted calls.
const SHORT: [&str; 3] = ["none", "fewer than 65,534", "65,534"];
const ENOUGH: [&str; 2] = ["65,535", "more"];
/// Where two refusals apply that stand one behind the other in a call's order, the number that is given before the other.
const ORDERS: [&[&str]; 4] = [
    &[
        "14 before 5",
        "5 before 19",
        "19 before 6",
        "6 before 7",
        "7 before 8",
        "8 before 9",
        "9 before 10",
    ],
    &[
        "14 before 5",
        "5 before 19",
        "19 before 6",
        "6 before 7",
        "7 before 8",
        "8 before 18",
        "18 before 10",
    ],
    &[
        "14 before 5",
        "5 before 19",
        "19 before 11",
        "11 before 12",
        "12 before 13",
    ],
    &["14 before 5", "5 before 19", "19 before 15"],
];
/// Refusals of a long message at circuit 0: 14 without the buffer, 19 beside a short one.
const PENDING: [&str; 7] = [
    "an offer while it waits",
    "an offer when it is placed",
    "a long offer while it waits",
    "a long offer when it is placed",
    "a block while it waits",
    "a block when it is placed",
    "a read while it is open",
];
/// 14 by a long message at another circuit alone, in calls that are given a buffer.
const NUMBERS: [&str; 3] = ["1", "2", "3"];
/// The lengths of long messages that were taken, and of those that 18 refused, and 9 beside the buffer.
const TAKEN: [&str; 6] = [
    "4,095",
    "4,096",
    "4,097 to 65,533",
    "65,534",
    "65,535",
    "with copies",
];
const OUTSIDE: [&str; 5] = [
    "below 4,094",
    "4,094",
    "65,536",
    "more",
    "in range modulo 65,536",
];
const ABOVE: [&str; 2] = ["4,095", "more"];
/// What a block had of a long message that waited.
const PLACED: [&str; 6] = [
    "its first packet",
    "packets behind the first, not the last",
    "its last packet",
    "a packet with copies still to place",
    "packets beside another circuit's",
    "none",
];

#[derive(Default)]
pub struct Long {
    short: [[u64; 3]; 4],
    enough: [[u64; 2]; 4],
    orders: [[u64; 7]; 4],
    without: [u64; 7],
    beside_short: [u64; 7],
    elsewhere: [[u64; 3]; 4],
    taken: [u64; 6],
    outside: [u64; 5],
    above: [u64; 2],
    placed: [u64; 6],
    heard: Heard,
}

/// The record of a sender, if it is long enough and in range in a call that is given a buffer, or is not.
fn sender(record: &[u8], given: bool) -> Option<SenderRecord> {
    let bytes = record.get(..SENDER_RECORD)?;
    SenderRecord::unpack(bytes, given)
}

fn receiver(record: &[u8], given: bool) -> Option<ReceiverRecord> {
    let bytes = record.get(..RECEIVER_RECORD)?;
    ReceiverRecord::unpack(bytes, given)
}

/// The slot of circuit 0 in a sender's record that is in range beside a buffer, if its message is a long one.
fn long_slot(record: &[u8]) -> Option<SenderSlot> {
    let slot = *sender(record, true)?.slots.first()?;
    is_long(slot.length).then_some(slot)
}

/// Whether circuit 0 has a long message open in a receiver's record that is in range beside a buffer.
fn long_is_open(record: &[u8]) -> bool {
    let slot = receiver(record, true).and_then(|told| told.slots.first().copied());
    slot.is_some_and(|slot| is_long(slot.length))
}

/// Whether a refusal is one by the record or by the long buffer.
fn is_first(answered: u32) -> bool {
    matches!(answered, 14 | 19)
}

/// The record with the slots of circuit 0 and another number changed round.
fn turned(record: &[u8], slot: usize, number: usize) -> Vec<u8> {
    let mut turned = record.to_vec();
    for at in SLOTS..SLOTS + slot {
        turned.swap(at, at + slot * number);
    }
    turned
}

impl Long {
    pub fn offer(&mut self, lent: &Lent<'_>, call: OfferCall<'_>) {
        let long = call.message.len() > LONGEST_MESSAGE;
        self.of_sender(OFFER, lent);
        if lent.given() {
            let applies = offer_refusals(lent, call.circuit, call.priority, call.repetition, long);
            self.ordered(OFFER, &applies);
            let above = lent.answered == 9;
            let least = call.message.len() == LONGEST_MESSAGE + 1;
            add(&mut self.above, [above && least, above && !least]);
        }
    }

    pub fn offer_long(&mut self, lent: &Lent<'_>, call: LongOfferCall<'_>) {
        let length = call.message.len();
        let outside = !(4095..=65_535).contains(&length);
        self.of_sender(LONG, lent);
        let applies = offer_refusals(lent, 0, call.priority, call.repetition, outside);
        self.ordered(LONG, &applies);
        let seen = [
            length == 4095,
            length == 4096,
            (4097..=65_533).contains(&length),
            length == 65_534,
            length == 65_535,
            call.repetition > 0,
        ];
        add(&mut self.taken, seen.map(|seen| seen && lent.answered == 0));
        let seen = [
            length < 4094,
            length == 4094,
            length == 65_536,
            length > 65_536,
            length > 65_536 && length % 65_536 >= 4095,
        ];
        add(
            &mut self.outside,
            seen.map(|seen| seen && lent.answered == 18),
        );
    }

    pub fn block(&mut self, lent: &Lent<'_>, call: BlockCall<'_>, block: usize, after: &[u8]) {
        self.of_sender(BLOCK, lent);
        if !lent.given() {
            return;
        }
        let [record, store, long] = first_refusals(lent, SENDER_STORE);
        let sizes = !(256..=27_000).contains(&call.n) || !(256..=call.n).contains(&call.u);
        let buffer = (block as u64) < call.n.div_ceil(8);
        let system = call.wanted().is_some_and(|system| !system.in_range());
        self.ordered(BLOCK, &[record, store, long, sizes, buffer, system]);
        if lent.answered == 0 {
            self.add_placed(lent.record, after);
        }
    }

    pub fn read(&mut self, lent: &Lent<'_>, call: ReadCall<'_>, after: &[u8], answer: &[u8]) {
        self.buffer(READ, lent);
        if is_first(lent.answered) && long_is_open(lent.record) {
            self.add_pending(lent, 6);
        }
        if lent.given() {
            let in_range = |record: &[u8]| receiver(record, true).is_some();
            self.add_elsewhere(READ, lent, RECEIVER_SLOT, in_range);
            let [record, store, long] = first_refusals(lent, RECEIVER_STORE);
            let bits = call.from > call.to || call.to > 8 * call.bits.len() as u64;
            self.ordered(READ, &[record, store, long, bits]);
        }
        if lent.answered == 0 {
            self.heard.read(lent, call, after, answer);
        }
    }

    /// Counts what a sender's call was given and is refused by.
    fn of_sender(&mut self, call: usize, lent: &Lent<'_>) {
        self.buffer(call, lent);
        let slot = long_slot(lent.record).filter(|_| is_first(lent.answered));
        if let Some(slot) = slot {
            self.add_pending(lent, 2 * call + usize::from(slot.left == 0));
        }
        if lent.given() {
            let in_range = |record: &[u8]| sender(record, true).is_some();
            self.add_elsewhere(call, lent, SENDER_SLOT, in_range);
        }
    }

    /// Counts a call at an end whose circuit 0 has a long message.
    fn add_pending(&mut self, lent: &Lent<'_>, at: usize) {
        self.without[at] += u64::from(lent.answered == 14 && !lent.given());
        self.beside_short[at] += u64::from(lent.answered == 19);
    }

    fn buffer(&mut self, call: usize, lent: &Lent<'_>) {
        let Some(bytes) = lent.long else {
            return;
        };
        let short = lent.answered == 19;
        let seen = [
            bytes == 0,
            bytes < LONG_BUFFER - 1,
            bytes == LONG_BUFFER - 1,
        ];
        add(&mut self.short[call], seen.map(|seen| seen && short));
        let accepted = lent.answered == 0;
        let seen = [bytes == LONG_BUFFER, bytes > LONG_BUFFER];
        add(&mut self.enough[call], seen.map(|seen| seen && accepted));
    }

    /// Counts a record that 14 refuses for nothing but a long message at another circuit than 0.
    fn add_elsewhere(
        &mut self,
        call: usize,
        lent: &Lent<'_>,
        slot: usize,
        in_range: impl Fn(&[u8]) -> bool,
    ) {
        if lent.answered != 14 {
            return;
        }
        let listed = lent
            .record
            .first()
            .map_or(0, |circuits| usize::from(*circuits).min(4));
        let alone = |number: &usize| in_range(&turned(lent.record, slot, *number));
        for number in (1..listed).filter(alone) {
            self.elsewhere[call][number - 1] += 1;
        }
    }

    /// Counts the first refusal that applies, if the one behind it in the order applies too.
    fn ordered(&mut self, call: usize, applies: &[bool]) {
        let first = applies.iter().position(|applies| *applies);
        if let Some(first) = first.filter(|first| applies.get(first + 1) == Some(&true)) {
            self.orders[call][first] += 1;
        }
    }

    fn add_placed(&mut self, before: &[u8], after: &[u8]) {
        let Some(old) = long_slot(before).filter(|slot| slot.left > 0) else {
            return;
        };
        let (Some(was), Some(is)) = (sender(before, true), sender(after, true)) else {
            return;
        };
        let new = is.slots[0];
        let some = old != new;
        let seen = [
            some && (old.place, old.copy) == (0, 0),
            some && old.place > 0 && new.left > 0,
            new.left == 0,
            some && new.copy > 0,
            some && was.slots[1..] != is.slots[1..],
            !some,
        ];
        add(&mut self.placed, seen);
    }

    /// What a comparison that covers everything has seen, and this one has not.
    pub fn missing(&self) -> Vec<String> {
        let mut counted: Vec<(String, &[&str], &[u64])> = vec![
            ("lengths taken".into(), &TAKEN, &self.taken),
            ("lengths refused by 18".into(), &OUTSIDE, &self.outside),
            ("lengths refused by 9".into(), &ABOVE, &self.above),
            ("in a block".into(), &PLACED, &self.placed),
            ("19 in".into(), &PENDING, &self.beside_short),
        ];
        // A long offer is always given a buffer.
        for part in [0..2, 4..7] {
            counted.push(("14 in".into(), &PENDING[part.clone()], &self.without[part]));
        }
        for (number, call) in CALLS.iter().enumerate() {
            let order = ORDERS[number];
            let told = |what: &str| format!("{what} in {call}:");
            counted.push((told("buffers too short"), &SHORT, &self.short[number]));
            counted.push((told("buffers"), &ENOUGH, &self.enough[number]));
            counted.push((told("refusals"), order, &self.orders[number][..order.len()]));
            counted.push((told("14 by circuit"), &NUMBERS, &self.elsewhere[number]));
        }
        let never = |(what, names, counts): (String, _, _)| {
            unseen(names, counts).map(move |never| format!("long messages: {what} {never}"))
        };
        let calls: Vec<String> = counted.into_iter().flat_map(never).collect();
        [calls, self.heard.missing()].concat()
    }
}

/// Whether refusals 14, 5 and 19 apply to a call, each by itself; `least` is what the store must have.
fn first_refusals(lent: &Lent<'_>, least: usize) -> [bool; 3] {
    let in_range = match least {
        SENDER_STORE => sender(lent.record, lent.given()).is_some(),
        _ => receiver(lent.record, lent.given()).is_some(),
    };
    let short = lent.long.is_some_and(|bytes| bytes < LONG_BUFFER);
    [!in_range, lent.store < least, short]
}

/// The same for all of an offering call; `outside` is whether its message's length is.
fn offer_refusals(
    lent: &Lent<'_>,
    circuit: u64,
    priority: u64,
    repetition: u64,
    outside: bool,
) -> [bool; 8] {
    let [record, store, long] = first_refusals(lent, SENDER_STORE);
    let slots = sender(lent.record, lent.given()).map_or(vec![], |told| told.slots);
    let slot = slots.get(circuit as usize);
    [
        record,
        store,
        long,
        slot.is_none(),
        priority > 3,
        repetition > 5,
        outside,
        slot.is_some_and(|slot| slot.left > 0),
    ]
}

impl fmt::Display for Long {
    fn fmt(&self, out: &mut fmt::Formatter<'_>) -> fmt::Result {
        for (number, call) in CALLS.iter().enumerate() {
            writeln!(
                out,
                "long buffers in {call}: {}; too short: {}; 14 by a long message at circuit {}; {}",
                line(&ENOUGH, &self.enough[number]),
                line(&SHORT, &self.short[number]),
                line(&NUMBERS, &self.elsewhere[number]),
                line(ORDERS[number], &self.orders[number])
            )?;
        }
        let (without, short) = (
            line(&PENDING, &self.without),
            line(&PENDING, &self.beside_short),
        );
        writeln!(
            out,
            "long messages without the buffer: {without}; beside a short one: {short}"
        )?;
        let (taken, outside) = (line(&TAKEN, &self.taken), line(&OUTSIDE, &self.outside));
        let (above, placed) = (line(&ABOVE, &self.above), line(&PLACED, &self.placed));
        writeln!(
            out,
            "long messages taken: {taken}; refused by 18: {outside}; by 9: {above}; in a block: {placed}"
        )?;
        write!(out, "{}", self.heard)
    }
}
