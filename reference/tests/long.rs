//! Long messages (02, ask 7), by the words of the request and of 01: those of 4,095 to 65,535 bytes, at circuit 0, in a buffer beside the store.

use aes18_reference::bits::bytes_of;
use aes18_reference::calls::{self, number, read_answer, BlockCall, LongOfferCall};
use aes18_reference::calls::{OfferCall, ReadCall, BLOCK_ANSWER, READ_ANSWER, TOO_SHORT};
use aes18_reference::hdlc::{frame, FLAG};
use aes18_reference::packet::{control, header, packet_count, packets, Circuit, Link};
use aes18_reference::receiver::{Fate, Notice, Receiver};
use aes18_reference::records::{RECEIVER_RECORD, SENDER_RECORD};
use aes18_reference::sender::Sender;
use aes18_reference::{LONG_BUFFER, RECEIVER_STORE, REGION, SENDER_STORE};
use Link::{Between, First, Last};

/// Lengths of long messages and their numbers of packets: two bytes of header and the message in segments of 16 bytes.
const PACKETS: [(usize, usize); 5] = [
    (4095, 257),
    (4110, 257),
    (4111, 258),
    (65_534, 4096),
    (65_535, 4097),
];
const LIST: [u8; 12] = [1, 0, 0, 2, 1, 7, 3, 0, 0, 0x7E, 1, 0];
const ONE: Circuit = Circuit {
    address: 1,
    extension: None,
};
/// A block call with room for 27,000 bits.
const PLAIN: BlockCall = BlockCall {
    n: 27_000,
    u: 27_000,
    system: 0,
    enable: 0,
    code: 0,
    information: &[],
};

/// The long buffer that a call is given: none, one that is long enough, or one that is not.
#[derive(Clone, Copy, Debug, PartialEq, Eq)]
enum Given {
    Nothing,
    Buffer,
    Short,
}
use Given::{Buffer, Nothing, Short};

/// So much of the buffer as is given.
fn given(long: &[u8], given: Given) -> Option<&[u8]> {
    match given {
        Nothing => None,
        Buffer => Some(long),
        Short => Some(&long[..LONG_BUFFER - 1]),
    }
}

fn given_mut(long: &mut [u8], given: Given) -> Option<&mut [u8]> {
    match given {
        Nothing => None,
        Buffer => Some(long),
        Short => Some(&mut long[..LONG_BUFFER - 1]),
    }
}

fn message(length: usize) -> Vec<u8> {
    (0..length).map(|at| (at * 7 + at / 256) as u8).collect()
}

/// A sender that keeps its queues, and beside it the record that goes from call to call.
struct Sending {
    sender: Sender,
    record: [u8; SENDER_RECORD],
    store: Vec<u8>,
    long: Vec<u8>,
}

impl Sending {
    fn fresh() -> Sending {
        let mut record = [0x5A; SENDER_RECORD];
        assert_eq!(calls::sender_list(&mut record, &LIST), 0);
        Sending {
            sender: Sender::list(&LIST).unwrap(),
            record,
            store: vec![0x11; SENDER_STORE],
            long: vec![0x22; LONG_BUFFER + 9],
        }
    }

    /// An ordinary offer without copies.
    fn offer(&mut self, lent: Given, circuit: u64, message: &[u8]) -> u32 {
        let call = OfferCall {
            circuit,
            priority: 0,
            repetition: 0,
            message,
        };
        let long = given(&self.long, lent);
        let (record, store) = (&mut self.record, &mut self.store);
        let answered = match long {
            None => calls::sender_offer(record, store, call),
            Some(long) => calls::sender_offer_beside(record, store, long, call),
        };
        let offered = self
            .sender
            .offer_beside(store, long, circuit, 0, 0, message);
        assert_eq!(answered, number(&offered));
        assert_eq!(self.record, self.sender.record());
        answered
    }

    fn offer_long(&mut self, lent: Given, message: &[u8]) -> u32 {
        let call = LongOfferCall {
            priority: 1,
            repetition: 0,
            message,
        };
        let long = given_mut(&mut self.long, lent).expect("the call is given a buffer");
        let (record, store) = (&mut self.record, &self.store);
        let answered = calls::sender_offer_long(record, store, long, call);
        let offered = self.sender.offer_long(store, long, 1, 0, message);
        assert_eq!(answered, number(&offered));
        assert_eq!(self.record, self.sender.record());
        answered
    }

    /// The bits of a block and how many frames it has, or the refusal's number.
    fn block(&mut self, lent: Given) -> Result<(Vec<u8>, usize), u32> {
        let (mut block, mut again) = (vec![0; 3375], vec![0; 3375]);
        let (record, store, long) = (&mut self.record, &self.store, given(&self.long, lent));
        let answer = &mut [0; BLOCK_ANSWER];
        let answered = match long {
            None => calls::sender_block(record, store, PLAIN, &mut block, answer),
            Some(long) => {
                calls::sender_block_beside(record, store, long, PLAIN, &mut block, answer)
            }
        };
        let made = self
            .sender
            .block_beside(store, long, 27_000, 27_000, None, &mut again);
        assert_eq!((answered, &block), (number(&made), &again));
        assert_eq!(self.record, self.sender.record());
        made.map(|made| (block, made.placed()))
    }

    /// The blocks in which all that waits is placed.
    fn blocks(&mut self) -> Vec<Vec<u8>> {
        let made = std::iter::from_fn(|| {
            let (block, placed) = self.block(Buffer).unwrap();
            (placed > 0).then_some(block)
        });
        made.collect()
    }

    /// The length and the packets still to go that the record has at circuit 0.
    fn slot(&self) -> [usize; 2] {
        [17, 21].map(|at| usize::from(self.record[at]) + 256 * usize::from(self.record[at + 1]))
    }
}

/// A receiver that keeps its bits and messages, and beside it the record that goes from call to call.
struct Reading {
    receiver: Receiver,
    record: [u8; RECEIVER_RECORD],
    store: Vec<u8>,
    long: Vec<u8>,
}

impl Reading {
    fn list(list: &[u8]) -> Reading {
        let mut record = [0x5A; RECEIVER_RECORD];
        assert_eq!(calls::receiver_list(&mut record, list), 0);
        Reading {
            receiver: Receiver::list(list).unwrap(),
            record,
            store: vec![0x33; RECEIVER_STORE],
            long: vec![0x44; LONG_BUFFER + 9],
        }
    }

    /// One with a message open at circuit 0, as its record tells: the last index is 0.
    fn open(length: usize, place: usize) -> Reading {
        let mut reading = Reading::list(&[1, 0, 0]);
        reading.record[13] = 1;
        reading.record[15..17].copy_from_slice(&(length as u16).to_le_bytes());
        reading.record[17..19].copy_from_slice(&(place as u16).to_le_bytes());
        let long = Some(&reading.long[..]);
        let resumed = Receiver::resume_beside(&reading.record, &reading.store, long);
        reading.receiver = resumed.unwrap();
        reading
    }

    /// A read up to the first notice, and the bits read, or the refusal's number.
    fn read(&mut self, lent: Given, bits: &[u8], from: u64) -> Result<(Notice, u64), u32> {
        let to = 8 * bits.len() as u64;
        let call = ReadCall { bits, from, to };
        let (mut store, mut long) = (self.store.clone(), self.long.clone());
        let mut answer = [0; READ_ANSWER];
        let (record, lent_long) = (&mut self.record, given_mut(&mut long, lent));
        let answered = match lent_long {
            None => calls::receiver_read(record, &mut store, call, &mut answer),
            Some(long) => calls::receiver_read_beside(record, &mut store, long, call, &mut answer),
        };
        let long_again = given_mut(&mut self.long, lent);
        let read = self
            .receiver
            .read_beside(&mut self.store, long_again, bits, from, to);
        assert_eq!(answered, number(&read));
        assert!(self.record == self.receiver.record());
        assert!(self.store == store && self.long == long);
        let read = read?;
        assert_eq!(answer, read_answer(&read));
        Ok((read.notice, read.bits))
    }

    /// All that is read of circuit number 0 or another one: numbers, losses and fates.
    fn told(&mut self, lent: Given, bits: &[u8]) -> Vec<(usize, u8, Fate)> {
        let (mut from, mut told) = (0, vec![]);
        loop {
            let (notice, read) = self.read(lent, bits, from).unwrap();
            from += read;
            match notice {
                Notice::Circuit { number, loss, fate } => told.push((number, loss, fate)),
                Notice::End => return told,
                _ => {}
            }
        }
    }

    /// What becomes of a packet of address 01: the next one by its index.
    fn next(&mut self, link: Link, segment: &[u8]) -> Fate {
        let index = (self.record[14] + self.record[13]) % 8;
        let bits = bits_between(&[packet(link, index, segment)]);
        match self.told(Buffer, &bits)[..] {
            [(0, 0, fate)] => fate,
            ref other => panic!("{other:?}"),
        }
    }
}

/// A packet of address 01.
fn packet(link: Link, index: u8, segment: &[u8]) -> Vec<u8> {
    [&[1, control(link, index, 0)], segment].concat()
}

/// The packets' frames between flags, in bytes.
fn bits_between(packets: &[Vec<u8>]) -> Vec<u8> {
    let framed = packets
        .iter()
        .flat_map(|packet| [&frame(packet)[..], &FLAG].concat());
    bytes_of(&[&FLAG[..], &framed.collect::<Vec<bool>>()].concat())
}

/// A first segment with this header.
fn first(header: [u8; 2], length: usize) -> Vec<u8> {
    [&header[..], &vec![0x0E; length - 2]].concat()
}

#[test]
fn packets_and_headers() {
    for (length, count) in PACKETS {
        assert_eq!(
            (packet_count(length), header(length)),
            (count, vec![0x1F, 0xFF])
        );
        let sent = packets(ONE, &message(length), 6, 3);
        assert_eq!(sent.len(), count);
        let behind: Vec<u8> = sent
            .iter()
            .flat_map(|packet| packet[2..].to_vec())
            .collect();
        assert_eq!(behind, [&[0x1F, 0xFF][..], &message(length)].concat());
        assert_eq!(
            sent.last().unwrap().len(),
            2 + (length + 2 - 16 * (count - 1))
        );
        assert_eq!((sent[0][1], sent[1][1], sent[2][1]), (0x9B, 0x1F, 0x03));
        let last = 0x43 | ((6 + count as u8 - 1) % 8) << 2;
        assert_eq!(sent[count - 1][1], last);
        assert!(sent[1..count - 1].iter().all(|packet| packet[1] >> 6 == 0));
    }
    for length in [4096, 8190, 61_439, 61_440, 65_280] {
        assert_eq!(header(length), [0x1F, 0xFF], "{length} bytes");
    }
    assert_eq!(header(4094), [0x1F, 0xFE]);
}

#[test]
fn lengths_that_are_taken() {
    for (length, answered) in [(0, 18), (15, 18), (4094, 18), (65_536, 18), (131_071, 18)] {
        assert_eq!(
            Sending::fresh().offer_long(Buffer, &message(length)),
            answered
        );
    }
    for (length, count) in PACKETS {
        let mut end = Sending::fresh();
        assert_eq!(end.offer_long(Buffer, &message(length)), 0);
        assert_eq!(end.slot(), [length, count]);
    }
    for lent in [Nothing, Buffer] {
        for (length, answered) in [(4094, 0), (4095, 9), (65_535, 9), (65_536, 9)] {
            for circuit in 0..4 {
                let mut end = Sending::fresh();
                assert_eq!(end.offer(lent, circuit, &message(length)), answered);
            }
        }
    }
}

#[test]
fn an_offer_writes_one_place() {
    let mut end = Sending::fresh();
    let (store, long) = (end.store.clone(), end.long.clone());
    for length in [4094, 65_536] {
        assert_eq!(end.offer_long(Buffer, &message(length)), 18);
    }
    assert_eq!(end.offer_long(Short, &message(5000)), 19);
    assert!(end.store == store && end.long == long);
    assert_eq!(end.offer_long(Buffer, &message(5000)), 0);
    assert_eq!(end.offer_long(Buffer, &[9; 5000]), 10);
    assert!(end.store == store && end.long == [&message(5000), &long[5000..]].concat());
    end.blocks();
    let long = end.long.clone();
    assert_eq!(end.offer(Buffer, 0, &[9; 4094]), 0);
    assert!(end.long == long && end.store == [&[9; 4094], &store[4094..]].concat());
}

/// A call in which all that a number names is wrong, and then one after the other is put right: the numbers come in their order.
fn in_order(order: &[u32], mut call: impl FnMut(&dyn Fn(u32) -> bool) -> u32) {
    for (at, expected) in order.iter().chain(&[0]).enumerate() {
        let wrong = |number: u32| order[at..].contains(&number);
        assert_eq!(call(&wrong), *expected);
    }
}

/// The record of a sender: fresh, or with a message waiting at circuit 0; with no circuits; or out of range.
fn sender_record(wrong: &dyn Fn(u32) -> bool) -> [u8; SENDER_RECORD] {
    let mut end = Sending::fresh();
    if wrong(10) {
        assert_eq!(end.offer_long(Buffer, &message(4095)), 0);
    }
    if wrong(6) {
        end.record[0] = 0;
    }
    if wrong(14) {
        end.record[53] = 4;
    }
    end.record
}

/// The right number, or where it is to be wrong another one.
fn either<T>(wrong: bool, is_wrong: T, is_right: T) -> T {
    if wrong {
        is_wrong
    } else {
        is_right
    }
}

#[test]
fn refusals_of_the_offers() {
    let lent = |wrong: &dyn Fn(u32) -> bool| {
        let store = either(wrong(5), SENDER_STORE - 1, SENDER_STORE);
        let long = either(wrong(19), LONG_BUFFER - 1, LONG_BUFFER);
        (vec![0; store], vec![0; long])
    };
    in_order(&[TOO_SHORT, 14, 5, 19, 6, 7, 8, 18, 10], |wrong| {
        let (store, mut long) = lent(wrong);
        let call = LongOfferCall {
            priority: either(wrong(7), 4, 3),
            repetition: either(wrong(8), 6, 5),
            message: &message(either(wrong(18), 4094, 65_535)),
        };
        let room = either(wrong(TOO_SHORT), SENDER_RECORD - 1, SENDER_RECORD);
        calls::sender_offer_long(&mut sender_record(wrong)[..room], &store, &mut long, call)
    });
    in_order(&[TOO_SHORT, 14, 5, 19, 6, 7, 8, 9, 10], |wrong| {
        let (mut store, long) = lent(wrong);
        let call = OfferCall {
            circuit: 0,
            priority: either(wrong(7), 4, 3),
            repetition: either(wrong(8), 6, 5),
            message: &message(either(wrong(9), 4095, 4094)),
        };
        let room = either(wrong(TOO_SHORT), SENDER_RECORD - 1, SENDER_RECORD);
        calls::sender_offer_beside(&mut sender_record(wrong)[..room], &mut store, &long, call)
    });
    let mut none_listed = sender_record(&|number| number == 6);
    let call = OfferCall {
        circuit: 0,
        priority: 0,
        repetition: 0,
        message: b"",
    };
    let (store, long) = (&mut vec![0; SENDER_STORE], &vec![0; LONG_BUFFER]);
    assert_eq!(
        calls::sender_offer_beside(&mut none_listed, store, long, call),
        6
    );
}

#[test]
fn refusals_of_the_block_and_the_read() {
    in_order(&[TOO_SHORT, 14, 5, 19, 11, 12, 13], |wrong| {
        let call = BlockCall {
            n: either(wrong(11), 255, 256),
            u: 256,
            system: 1,
            enable: either(wrong(13), 16, 15),
            ..PLAIN
        };
        let store = vec![0; either(wrong(5), SENDER_STORE - 1, SENDER_STORE)];
        let long = vec![0; either(wrong(19), LONG_BUFFER - 1, LONG_BUFFER)];
        let block = &mut vec![0; either(wrong(12), 31, 32)];
        let answer = &mut vec![0; either(wrong(TOO_SHORT), BLOCK_ANSWER - 1, BLOCK_ANSWER)];
        calls::sender_block_beside(
            &mut sender_record(wrong),
            &store,
            &long,
            call,
            block,
            answer,
        )
    });
    in_order(&[TOO_SHORT, 14, 5, 19, 15], |wrong| {
        let call = ReadCall {
            bits: &[0x7E; 3],
            from: 0,
            to: either(wrong(15), 25, 24),
        };
        let mut record = Reading::open(65_535, 30).record;
        record[14] = either(wrong(14), 8, 7);
        let store = &mut vec![0; either(wrong(5), RECEIVER_STORE - 1, RECEIVER_STORE)];
        let long = &mut vec![0; either(wrong(19), LONG_BUFFER - 1, LONG_BUFFER)];
        let answer = &mut vec![0; either(wrong(TOO_SHORT), READ_ANSWER - 1, READ_ANSWER)];
        calls::receiver_read_beside(&mut record, store, long, call, answer)
    });
}

/// Without the buffer the length that circuit 0 has is out of range, pending or placed; with a short one the buffer is refused.
#[test]
fn a_long_message_needs_the_buffer_in_every_call() {
    let mut end = Sending::fresh();
    for lent in [Buffer, Nothing, Buffer] {
        assert_eq!(end.offer(lent, 1, b"a short one"), 0);
        assert!(end.block(lent).is_ok());
    }
    assert_eq!(end.offer_long(Buffer, &message(4095)), 0);
    for _ in 0..2 {
        for (lent, refusal) in [(Nothing, 14), (Short, 19)] {
            assert_eq!(end.offer(lent, 2, b"a short one"), refusal);
            assert_eq!(end.block(lent), Err(refusal));
        }
        assert_eq!(end.offer_long(Short, &message(4095)), 19);
        end.blocks();
    }
    assert_eq!(end.slot(), [4095, 0]);
    assert_eq!(end.offer(Buffer, 0, b"a short one"), 0);
    assert_eq!(end.block(Short), Err(19));
    assert!(end.block(Nothing).is_ok());
}

/// Circuit 0 may have any length where a buffer is given; the others never more than 4,094 bytes.
#[test]
fn ranges_of_a_senders_record() {
    let fresh = Sending::fresh();
    let at_each = |length| (0..4).map(move |circuit| (length, circuit));
    for (length, circuit) in [4094, 4095, 65_535].into_iter().flat_map(at_each) {
        let count = packet_count(length) as u16;
        for (place, left) in [(0, count), (count, 0), (count + 1, 0), (0, count + 1)] {
            let mut record = fresh.record;
            let slot = &mut record[13 + 10 * circuit..][..10];
            slot[4..6].copy_from_slice(&(length as u16).to_le_bytes());
            slot[6..8].copy_from_slice(&place.to_le_bytes());
            slot[8..].copy_from_slice(&left.to_le_bytes());
            let answers = [Nothing, Short, Buffer].map(|lent| {
                let resumed =
                    Sender::resume_beside(&record, &fresh.store, given(&fresh.long, lent));
                number(&resumed)
            });
            let expected = match (length, circuit) {
                _ if place + left != count => [14, 14, 14],
                (4094, _) => [0, 19, 0],
                (_, 0) => [14, 19, 0],
                _ => [14, 14, 14],
            };
            assert_eq!(answers, expected, "{length} bytes at circuit {circuit}");
        }
    }
}

#[test]
fn ranges_of_a_receivers_record() {
    let mut fresh = Reading::list(&LIST);
    for (length, place) in [
        (4094, 4094),
        (4095, 0),
        (4095, 4095),
        (65_535, 65_535),
        (5000, 5001),
    ] {
        for circuit in 0..4 {
            let mut record = fresh.record;
            let slot = &mut record[13 + 6 * circuit..][..6];
            slot[2..4].copy_from_slice(&(length as u16).to_le_bytes());
            slot[4..].copy_from_slice(&(place as u16).to_le_bytes());
            let answers = [Nothing, Short, Buffer].map(|lent| {
                let long = given_mut(&mut fresh.long, lent);
                number(&Receiver::resume_beside(
                    &record,
                    &fresh.store,
                    long.as_deref(),
                ))
            });
            let expected = match (length, circuit) {
                _ if place > length => [14, 14, 14],
                (4094, _) => [0, 19, 0],
                (_, 0) => [14, 19, 0],
                _ => [14, 14, 14],
            };
            assert_eq!(answers, expected, "{length} bytes at circuit {circuit}");
        }
    }
}

#[test]
fn a_header_needs_the_buffer_and_number_0() {
    let begun = bits_between(&[
        packet(First, 0, &first([0x1F, 0xFF], 16)),
        packet(Between, 1, &[0; 16]),
    ]);
    let told = |list: &[u8], lent| Reading::list(list).told(lent, &begun);
    assert_eq!(
        told(&[1, 0, 0], Buffer),
        [(0, 0, Fate::Begun), (0, 0, Fate::Held)]
    );
    assert_eq!(
        told(&[1, 0, 0], Nothing),
        [(0, 0, Fate::Wrong), (0, 0, Fate::Orphan)]
    );
    for number in 1..4 {
        let list = [&[5, 0, 0, 6, 0, 0, 7, 0, 0][..3 * number], &[1, 0, 0]].concat();
        for lent in [Nothing, Buffer] {
            assert_eq!(
                told(&list, lent),
                [(number, 0, Fate::Wrong), (number, 0, Fate::Orphan)]
            );
        }
    }
}

#[test]
fn first_packets_of_long_messages() {
    let begin = |segment: &[u8]| Reading::list(&[1, 0, 0]).next(First, segment);
    assert_eq!(begin(&first([0x1F, 0xFF], 16)), Fate::Begun);
    assert_eq!(begin(&first([0xFF, 0xFF], 16)), Fate::Begun);
    for length in [2, 3, 15] {
        assert_eq!(begin(&first([0x1F, 0xFF], length)), Fate::Wrong);
    }
    assert_eq!(begin(&[0x1F]), Fate::Wrong);
    assert_eq!(begin(&first([0x1F, 0xFE], 16)), Fate::Begun);
    assert_eq!(begin(&first([0x10, 15], 16)), Fate::Wrong);
    let mut reading = Reading::list(&[1, 0, 0]);
    reading.next(First, &first([0x1F, 0xFF], 16));
    assert_eq!(reading.record[13..19], [1, 0, 0xFF, 0xFF, 14, 0]);
    assert_eq!(reading.long[..15], [&[0x0E; 14][..], &[0x44]].concat());
    assert!(reading.store == [0x33; RECEIVER_STORE]);
}

/// Whole exactly from 4,095 bytes to the most that the slot tells, 65,535 behind the header.
#[test]
fn ends_of_long_messages() {
    let end = |length, place, bytes| {
        let mut reading = Reading::open(length, place);
        let fate = reading.next(Last, &vec![0x77; bytes]);
        assert_eq!(reading.record[15..19], [0; 4]);
        let written = if fate == Fate::Wrong { 0 } else { bytes };
        assert!(reading.long[place..place + written]
            .iter()
            .all(|byte| *byte == 0x77));
        assert_eq!(
            reading.long.iter().filter(|byte| **byte == 0x77).count(),
            written
        );
        assert!(reading.store == [0x33; RECEIVER_STORE]);
        fate
    };
    for length in [4095, 4096, 5000, 65_534, 65_535] {
        for (place, bytes) in [(0, 1), (14, 16), (4078, 16), (4093, 1), (4080, 14)] {
            assert_eq!(end(length, place, bytes), Fate::Wrong, "{place} + {bytes}");
        }
        for (place, bytes) in [(4094, 1), (4079, 16), (length - 1, 1), (length - 16, 16)] {
            assert_eq!(end(length, place, bytes), Fate::Whole(place + bytes));
        }
        for (place, bytes) in [(length - 1, 2), (length - 15, 16), (length - 1, 16)] {
            assert_eq!(end(length, place, bytes), Fate::Wrong, "{place} + {bytes}");
        }
    }
    assert_eq!(end(65_535, 4094, 16), Fate::Whole(4110));
    assert_eq!(end(65_535, 65_518, 16), Fate::Whole(65_534));
    assert_eq!(end(65_535, 65_534, 1), Fate::Whole(65_535));
    assert_eq!(end(65_535, 65_534, 2), Fate::Wrong);
}

#[test]
fn packets_between() {
    let between =
        |length, place, bytes| Reading::open(length, place).next(Between, &vec![0; bytes]);
    for length in [4095, 4096, 5000, 65_534, 65_535] {
        assert_eq!(between(length, 0, 16), Fate::Held);
        assert_eq!(between(length, length - 17, 16), Fate::Held);
        assert_eq!(between(length, length - 16, 16), Fate::Wrong);
        assert_eq!(between(length, length - 1, 16), Fate::Wrong);
        assert_eq!(between(length, 0, 15), Fate::Wrong);
        assert_eq!(between(length, length, 16), Fate::Orphan);
        assert_eq!(Reading::open(length, length).next(Last, &[0]), Fate::Orphan);
    }
    let mut reading = Reading::open(65_535, 65_518);
    assert_eq!(reading.next(Between, &[0; 16]), Fate::Held);
    assert_eq!(reading.record[15..19], [0xFF, 0xFF, 0xFE, 0xFF]);
    assert_eq!(reading.next(Between, &[0; 16]), Fate::Wrong);
    assert_eq!(reading.next(Last, &[0; 1]), Fate::Orphan);
}

/// A short buffer with a long message open gives 19, none gives 14; the bits are read once it is lent again.
#[test]
fn an_open_long_message_needs_the_buffer() {
    let mut reading = Reading::open(65_535, 4094);
    let bits = bits_between(&[packet(Last, 1, &[5])]);
    for (lent, refusal) in [(Nothing, 14), (Short, 19)] {
        assert_eq!(reading.read(lent, &bits, 0), Err(refusal));
    }
    assert_eq!(reading.told(Buffer, &bits), [(0, 0, Fate::Whole(4095))]);
    assert_eq!(reading.read(Short, &bits, 0), Err(19));
    assert_eq!(reading.told(Nothing, &bits), [(0, 0, Fate::Copy)]);
}

/// Long and short on one circuit, and short on another: each is handed over where it belongs, and the other place stays as it was.
#[test]
fn long_and_short_mixed() {
    let (mut sending, mut reading) = (Sending::fresh(), Reading::list(&LIST));
    for length in [4095, 15, 65_535, 4094, 4111, 4110, 0] {
        let sent = message(length);
        let is_long = length > 4094;
        if is_long {
            assert_eq!(sending.offer_long(Buffer, &sent), 0);
        } else {
            assert_eq!(sending.offer(Buffer, 0, &sent), 0);
        }
        assert_eq!(sending.offer(Buffer, 2, b"beside"), 0);
        let (store, long) = (reading.store.clone(), reading.long.clone());
        let mut whole = vec![];
        for block in sending.blocks() {
            for (number, loss, fate) in reading.told(Buffer, &block) {
                assert_eq!(loss, 0);
                if let Fate::Whole(length) = fate {
                    whole.push((number, length));
                }
            }
        }
        whole.sort();
        assert_eq!(whole, [(0, length), (2, 6)]);
        if is_long {
            assert!(reading.long == [&sent, &long[length..]].concat());
            assert!(reading.store[..REGION] == store[..REGION]);
        } else {
            assert!(reading.long == long && reading.store[..length] == sent);
        }
    }
}

/// What is lost of a long message is told, and only that message is not handed over.
#[test]
fn losses_in_long_messages() {
    let (long, next) = (message(4200), b"the next");
    let mut sent = packets(ONE, &long, 0, 0);
    let count = sent.len();
    sent.extend(packets(ONE, next, (count % 8) as u8, 0));
    sent.extend(packets(ONE, &long, ((count + 1) % 8) as u8, 0));
    let told = |lost: &[usize]| {
        let came = (0..sent.len()).filter(|at| !lost.contains(at));
        let came: Vec<Vec<u8>> = came.map(|at| sent[at].clone()).collect();
        let mut reading = Reading::list(&[1, 0, 0]);
        let told = reading.told(Buffer, &bits_between(&came));
        let losses: usize = told.iter().map(|(_, loss, _)| usize::from(*loss)).sum();
        let whole = told.iter().filter_map(|(_, _, fate)| match fate {
            Fate::Whole(length) => Some(*length),
            _ => None,
        });
        (losses, whole.collect::<Vec<_>>())
    };
    assert_eq!(told(&[]), (0, vec![4200, 8, 4200]));
    assert_eq!(told(&[100, 101, 102]), (3, vec![8, 4200]));
    assert_eq!(told(&[count - 1]), (1, vec![8, 4200]));
    assert_eq!(told(&[count - 1, count]), (2, vec![4200]));
    assert_eq!(told(&[0, count]), (1, vec![4200]));
    assert_eq!(told(&[count + 1]), (1, vec![4200, 8]));
}

/// A long message at other circuits, or read without the buffer, is Wrong and Orphans to its end.
#[test]
fn without_the_buffer_01_holds() {
    let sent = packets(ONE, &message(4095), 0, 0);
    let mut reading = Reading::list(&[1, 0, 0]);
    let told = reading.told(Nothing, &bits_between(&sent));
    let fates: Vec<Fate> = told.iter().map(|(_, _, fate)| *fate).collect();
    assert_eq!(fates, [vec![Fate::Wrong], vec![Fate::Orphan; 256]].concat());
    assert!(reading.store == [0x33; RECEIVER_STORE]);
    assert!(reading.long.iter().all(|byte| *byte == 0x44));
}
