//! Long messages (02, ask 7): every call at its edges, messages of the lengths at the edges sent and read back, and both ends with a buffer that some
//! calls are not given.

use super::lengths;
use crate::both::{differ, Both, Compared};
use crate::ends::{Reading, Sending};
use crate::inputs;
use crate::random::Random;
use crate::stream::stream;
use aes18_reference::bits::bytes_of;
use aes18_reference::calls::{BlockCall, LongOfferCall, OfferCall, ReadCall, BLOCK_ANSWER};
use aes18_reference::hdlc::{frame, FLAG};
use aes18_reference::lent::is_long;
use aes18_reference::packet::packets;
use aes18_reference::receiver::{Fate, Notice};
use aes18_reference::records::{LAST_SERVED, SENDER_RECORD, SENDER_SLOT, SLOTS};
use aes18_reference::{LONG_BUFFER, SENDER_STORE};

const LIST: [u8; 12] = [0x01, 0, 0, 0x7E, 1, 0xFF, 0x02, 0, 0, 0x1F, 1, 0];
/// Bytes of buffers.
const BUFFERS: [usize; 6] = [0, 4095, 65_534, 65_535, 65_536, 65_551];
/// A block call without a system packet.
const PLAIN: BlockCall = BlockCall {
    n: 900,
    u: 880,
    system: 0,
    enable: 15,
    code: 0,
    information: &[],
};

pub fn all(both: &mut Both, random: &mut Random) -> Compared<()> {
    for sender in senders(both, random)? {
        long_offers(both, random, &sender)?;
        offers(both, random, &sender)?;
        blocks(both, &sender)?;
    }
    sent_and_read(both, random)?;
    not_taken(both, random)?;
    lost(both, random)
}

/// A sender's record with what is lent beside it.
struct Sender {
    record: Vec<u8>,
    store: Vec<u8>,
    long: Vec<u8>,
}

impl Sender {
    fn fresh(both: &mut Both, random: &mut Random) -> Compared<Sender> {
        let mut record = random.bytes(SENDER_RECORD);
        both.sender_list(&mut record, &LIST)?;
        Ok(Sender {
            record,
            store: random.bytes(SENDER_STORE),
            long: random.bytes(65_551),
        })
    }

    fn offer_long(&mut self, both: &mut Both, repetition: u64, message: &[u8]) -> Compared<()> {
        let call = LongOfferCall {
            priority: 1,
            repetition,
            message,
        };
        both.sender_offer_long(&mut self.record, &self.store, &mut self.long, call)?;
        Ok(())
    }

    /// The bits of a block are used up to so many.
    fn block(&mut self, both: &mut Both, u: u64) -> Compared<()> {
        let call = BlockCall {
            n: 27_000,
            u,
            ..PLAIN
        };
        let (block, answer) = (&mut [0; 3375], &mut [0; BLOCK_ANSWER]);
        let long = Some(&self.long[..]);
        both.block(&mut self.record, &self.store, long, call, block, answer)?;
        Ok(())
    }

    /// The slots of circuit 0 and of another number changed round.
    fn turned(&self, number: usize) -> Sender {
        let mut record = self.record.clone();
        for at in SLOTS..SLOTS + SENDER_SLOT {
            record.swap(at, at + SENDER_SLOT * number);
        }
        Sender {
            record,
            store: self.store.clone(),
            long: self.long.clone(),
        }
    }
}

/// Records with a long message that waits, is placed in part, or is placed; at other circuits too; with none; of no circuits; and out of range.
fn senders(both: &mut Both, random: &mut Random) -> Compared<Vec<Sender>> {
    let mut senders = vec![];
    for (length, repetition, used) in [
        (4095, 0, vec![]),
        (4096, 1, vec![256]),
        (4095, 2, vec![27_000]),
        (4095, 0, vec![27_000; 3]),
        (65_535, 0, vec![27_000; 2]),
    ] {
        let mut sender = Sender::fresh(both, random)?;
        sender.offer_long(both, repetition, &random.bytes(length))?;
        for u in used {
            sender.block(both, u)?;
        }
        senders.push(sender);
    }
    for number in 1..4 {
        senders.push(senders[0].turned(number));
        senders.push(senders[3].turned(number));
    }
    let mut none = Sender::fresh(both, random)?;
    both.sender_list(&mut none.record, &[])?;
    let mut out = Sender::fresh(both, random)?;
    out.record[LAST_SERVED] = 4;
    senders.extend([Sender::fresh(both, random)?, none, out]);
    Ok(senders)
}

/// Store, buffer and record of each length at the edges: what is lent, in the order in which it is looked at.
fn lent(sender: &Sender) -> impl Iterator<Item = (Vec<u8>, Vec<u8>, Vec<u8>)> + '_ {
    let short = [(SENDER_RECORD - 1, SENDER_STORE, LONG_BUFFER)];
    let stores = [SENDER_STORE - 1, SENDER_STORE];
    let each = |store| BUFFERS.map(|long| (SENDER_RECORD, store, long));
    let lengths = short.into_iter().chain(stores.into_iter().flat_map(each));
    lengths.map(|(record, store, long)| {
        (
            sender.record[..record].to_vec(),
            sender.store[..store].to_vec(),
            sender.long[..long].to_vec(),
        )
    })
}

/// Priority and repetition, right and wrong.
const VALUES: [(u64, u64); 5] = [(3, 0), (0, 5), (4, 0), (3, 6), (u64::MAX, 1 << 32)];

fn long_offers(both: &mut Both, random: &mut Random, sender: &Sender) -> Compared<()> {
    let messages = [0, 4094, 4095, 65_535, 65_536, 69_631].map(|length| random.bytes(length));
    for (record, store, long) in lent(sender) {
        for ((priority, repetition), message) in each_with(&VALUES, &messages) {
            let call = LongOfferCall {
                priority,
                repetition,
                message,
            };
            both.sender_offer_long(&mut record.clone(), &store, &mut long.clone(), call)?;
        }
    }
    Ok(())
}

/// Each of some with each of others.
fn each_with<'a, A: Copy, B>(some: &'a [A], others: &'a [B]) -> impl Iterator<Item = (A, &'a B)> {
    let with_each = |one: &'a A| others.iter().map(|other| (*one, other));
    some.iter().flat_map(with_each)
}

fn offers(both: &mut Both, random: &mut Random, sender: &Sender) -> Compared<()> {
    let messages = [0, 4094, 4095, 65_535].map(|length| random.bytes(length));
    for (record, store, long) in lent(sender) {
        for ((priority, repetition), message) in each_with(&VALUES, &messages) {
            for circuit in [0, 1, 4] {
                let call = OfferCall {
                    circuit,
                    priority,
                    repetition,
                    message,
                };
                let long = Some(&long[..]);
                both.offer(&mut record.clone(), &mut store.clone(), long, call)?;
            }
        }
    }
    let call = OfferCall {
        circuit: 0,
        priority: 0,
        repetition: 0,
        message: &[],
    };
    both.sender_offer(&mut sender.record.clone(), &mut sender.store.clone(), call)?;
    Ok(())
}

fn blocks(both: &mut Both, sender: &Sender) -> Compared<()> {
    let wrong = BlockCall {
        system: 1,
        enable: 16,
        ..PLAIN
    };
    let calls = [
        PLAIN,
        BlockCall { n: 255, ..PLAIN },
        BlockCall { n: 255, ..wrong },
        wrong,
    ];
    for (record, store, long) in lent(sender) {
        for (call, bytes) in each_with(&calls, &[112, 113]) {
            for answer in [BLOCK_ANSWER - 1, BLOCK_ANSWER] {
                let (block, answer) = (&mut vec![0x5A; *bytes], &mut vec![0x5A; answer]);
                both.block(
                    &mut record.clone(),
                    &store,
                    Some(&long),
                    call,
                    block,
                    answer,
                )?;
            }
        }
    }
    let (block, answer) = (&mut [0x5A; 113], &mut [0x5A; BLOCK_ANSWER]);
    both.sender_block(
        &mut sender.record.clone(),
        &sender.store,
        PLAIN,
        block,
        answer,
    )?;
    Ok(())
}

/// The offer of a message at circuit 0, by the call that its length asks for.
fn offer(both: &mut Both, sending: &mut Sending, message: &[u8]) -> Compared<u32> {
    let (circuit, priority, repetition) = (0, 2, 0);
    if is_long(message.len()) {
        let call = LongOfferCall {
            priority,
            repetition,
            message,
        };
        return sending.offer_long(both, call);
    }
    let call = OfferCall {
        circuit,
        priority,
        repetition,
        message,
    };
    sending.offer(both, call)
}

/// Messages of lengths at the edges, long and short on one circuit: exactly the message sent is handed over.
fn sent_and_read(both: &mut Both, random: &mut Random) -> Compared<()> {
    let mut sending = Sending::list(both, random, &LIST)?.with_long(random);
    let mut reading = Reading::list(both, random, &LIST)?.with_long(random);
    for length in [4095, 15, 65_535, 4094, 4096, 4110, 0, 4111, 65_534] {
        let message = inputs::message(random, length);
        offer(both, &mut sending, &message)?;
        let handed_over = lengths::handed_over(both, &mut sending, &mut reading)?;
        if handed_over != [(0, message)] {
            let call = format!("a message of {length} bytes at circuit 0");
            let told = format!("{handed_over:02x?}");
            return differ(
                call,
                "what is handed over",
                told,
                "that message".to_string(),
            );
        }
    }
    Ok(())
}

/// A long message at a receiver without the buffer, and at those that have another number for the address: it is not handed over, and a short one
/// behind it is.
fn not_taken(both: &mut Both, random: &mut Random) -> Compared<()> {
    for number in 0..4 {
        let mut list = LIST.to_vec();
        list.rotate_right(3 * number);
        let mut sending = Sending::list(both, random, &LIST)?.with_long(random);
        let mut reading = Reading::list(both, random, &list)?;
        if number > 0 {
            reading = reading.with_long(random);
        }
        offer(both, &mut sending, &random.bytes(4100))?;
        let long = lengths::handed_over(both, &mut sending, &mut reading)?;
        offer(both, &mut sending, b"a short one")?;
        let short = lengths::handed_over(both, &mut sending, &mut reading)?;
        if (long.len(), &short[..]) != (0, &[(number, b"a short one".to_vec())][..]) {
            let call = format!("a long message at circuit number {number}");
            let told = format!("{long:02x?}, then {short:02x?}");
            return differ(
                call,
                "what is handed over",
                told,
                "the short one".to_string(),
            );
        }
    }
    Ok(())
}

/// Long and short messages of which some packets are lost: the losses told, and the messages handed over.
fn lost(both: &mut Both, random: &mut Random) -> Compared<()> {
    let messages = [4095, 30, 4112, 4110].map(|length| random.bytes(length));
    let circuit = inputs::circuits(&LIST)[0];
    let (mut sent, mut firsts) = (vec![], vec![]);
    for message in &messages {
        firsts.push(sent.len());
        sent.extend(packets(circuit, message, (sent.len() % 8) as u8, 0));
    }
    let [_, second, third, fourth] = firsts[..] else {
        unreachable!("there are four messages")
    };
    let ends = [second, third, fourth, sent.len()];
    for lost in [
        vec![],
        vec![second - 1],
        vec![second - 1, second],
        vec![second],
        vec![second - 2, second - 1, second, second + 1],
        vec![fourth - 1],
        vec![fourth - 1, fourth],
        vec![fourth],
        vec![third + 100],
        (third + 100..third + 106).collect(),
        (third - 3..third + 3).collect(),
        vec![1, second + 1, third + 1, fourth + 1],
    ] {
        let came = |at: &usize| !lost.contains(at);
        let mut reading = Reading::list(both, random, &LIST)?.with_long(random);
        let packets = (0..sent.len()).filter(came).map(|at| &sent[at][..]);
        let told = told(both, random, &mut reading, packets)?;
        let numbered = firsts.iter().zip(ends).zip(&messages);
        let whole = numbered.filter(|((first, end), _)| (**first..*end).all(|at| came(&at)));
        let expected: Vec<&Vec<u8>> = whole.map(|(_, message)| message).collect();
        if (told.0, told.1.iter().collect()) != (lost.len(), expected) {
            let call = format!("long messages without the packets {lost:?}");
            let lengths: Vec<usize> = told.1.iter().map(Vec::len).collect();
            let told = format!("{} lost, messages of {lengths:?} bytes", told.0);
            return differ(call, "losses and messages", told, "others".to_string());
        }
    }
    Ok(())
}

/// The losses told of circuit number 0 and the messages handed over there, when these packets are read between flags.
fn told<'a>(
    both: &mut Both,
    random: &mut Random,
    reading: &mut Reading,
    packets: impl Iterator<Item = &'a [u8]>,
) -> Compared<(usize, Vec<Vec<u8>>)> {
    let framed = packets.flat_map(|packet| [&frame(packet)[..], &FLAG].concat());
    let bits = [&FLAG[..], &framed.collect::<Vec<bool>>()].concat();
    let (mut losses, mut messages) = (0, vec![]);
    reading.read_pieces(both, random, &bits, 20_000, &mut |notice, message| {
        if let Notice::Circuit { loss, fate, .. } = notice {
            losses += usize::from(loss);
            if let Fate::Whole(_) = fate {
                messages.push(message.to_vec());
            }
        }
    })?;
    Ok((losses, messages))
}

/// A sender with a long buffer: offers of all kinds and blocks, in which some calls are given less of the buffer, or none.
pub fn sending(both: &mut Both, random: &mut Random) -> Compared<()> {
    let list = inputs::list(random);
    let mut sending = Sending::list(both, random, &list)?.with_long(random);
    let whole = sending.given;
    for _ in 0..30 {
        sending.given = inputs::given(random, whole);
        match random.below(4) {
            0 => offer_any_long(both, random, &mut sending)?,
            1 => {
                let length = inputs::length(random) + random.pick(&[0, 0, 0, 4095]);
                let message = inputs::message(random, length);
                sending.offer_anywhere(both, random, &message)?;
            }
            _ => block(both, random, &mut sending)?,
        }
    }
    Ok(())
}

fn offer_any_long(both: &mut Both, random: &mut Random, sending: &mut Sending) -> Compared<()> {
    let length = inputs::long_length(random);
    let message = inputs::message(random, length);
    let call = LongOfferCall {
        priority: random.argument(3),
        repetition: random.pick(&[0, 0, 0, 0, 1, 2, 5, 6]),
        message: &message,
    };
    sending.offer_long(both, call)?;
    Ok(())
}

/// A block, mostly of many bits.
fn block(both: &mut Both, random: &mut Random, sending: &mut Sending) -> Compared<()> {
    let information = inputs::information(random);
    let mut call = inputs::block_call(random, &information);
    if random.once_in(2) {
        (call.n, call.u) = (27_000, 27_000 - random.below(300) as u64);
    }
    let mut buffer = inputs::buffer(random, call.n);
    sending.block(both, call, &mut buffer)?;
    Ok(())
}

/// A receiver with a long buffer: streams of every kind in pieces, in which some calls are given less of the buffer, or none.
pub fn reading(both: &mut Both, random: &mut Random) -> Compared<()> {
    let list = inputs::list(random);
    let mut reading = Reading::list(both, random, &list)?.with_long(random);
    let whole = reading.given;
    for _ in 0..20 {
        let bits = stream(random, &inputs::circuits(&list));
        let bits = bytes_of(&bits);
        let (mut from, to) = (0, 8 * bits.len() as u64);
        while from < to {
            reading.given = inputs::given(random, whole);
            let bits = &bits[..];
            let read = reading.read(both, ReadCall { bits, from, to })?;
            from += read.map_or(0, |read| read.bits);
        }
    }
    Ok(())
}
