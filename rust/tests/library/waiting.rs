//! The packets still to go: behind every offer and block, and in records where the number is another.

use std::collections::VecDeque;
use std::iter::repeat_n;

use aes18::{Notice, Receiver, Refusal, Sender, SystemPacket};
use aes18::{RECEIVER_STORE, SENDER_RECORD, SENDER_STORE};

use super::frames::plain;

/// Where the record has those of circuit 0, lowest byte first, and how many bytes on it has those of the next number.
const LEFT: usize = 21;
const SLOT: usize = 10;

/// Lengths of messages, and their packets: a header of one byte, or of two from 16 on, and the message are cut into segments of 16 bytes.
const MESSAGES: [(usize, usize); 8] = [
    (0, 1),
    (1, 1),
    (15, 1),
    (16, 2),
    (17, 2),
    (30, 2),
    (31, 3),
    (4094, 256),
];

/// A sender, a receiver of its blocks, and the copies that wait at each circuit number by the papers, each as the number of its packet.
struct Ends {
    sender: Sender,
    store: Vec<u8>,
    receiver: Receiver,
    heard: Vec<u8>,
    queues: [VecDeque<usize>; 4],
}

impl Ends {
    fn new(circuits: usize) -> Ends {
        let list = &[0x10, 0x11, 0x12, 0x13].map(plain)[..circuits];
        let ends = Ends {
            sender: Sender::list(list).unwrap(),
            store: vec![0; SENDER_STORE],
            receiver: Receiver::list(list).unwrap(),
            heard: vec![0; RECEIVER_STORE],
            queues: Default::default(),
        };
        ends.compare();
        ends
    }

    /// Offers a message at a circuit, which takes it if no copy waits there; whether it does.
    fn offer(&mut self, circuit: usize, repetition: usize, message: (usize, usize)) -> bool {
        let (length, packets) = message;
        let queue = &mut self.queues[circuit];
        let priority = (length % 4) as u64;
        let offered = self.sender.offer(
            &mut self.store,
            circuit as u64,
            priority,
            repetition as u64,
            &vec![0x55; length],
        );
        let taken = queue.is_empty();
        if taken {
            assert_eq!(offered, Ok(()));
            queue.extend((0..packets).flat_map(|packet| repeat_n(packet, repetition + 1)));
        } else {
            assert_eq!(offered, Err(Refusal::MessagePending));
        }
        self.compare();
        taken
    }

    /// Makes a block. Each of its frames, as the receiver names their circuits, is the first copy that waits there. How many they are.
    fn block(&mut self, n: u64, system: Option<SystemPacket<'_>>) -> usize {
        let mut bits = [0; 3375];
        let made = self.sender.block(&self.store, n, n, system, &mut bits);
        let circuits = self.read(&bits, n);
        for circuit in &circuits {
            let copy = self.queues[*circuit].pop_front();
            assert!(copy.is_some(), "no copy waits at circuit {circuit}");
        }
        assert_eq!(made.unwrap().placed as usize, circuits.len());
        self.compare();
        circuits.len()
    }

    /// The circuits of a block's frames.
    fn read(&mut self, bits: &[u8], n: u64) -> Vec<usize> {
        let mut circuits = Vec::new();
        let mut from = 0;
        loop {
            let read = self.receiver.read(&mut self.heard, bits, from, n).unwrap();
            from += read.bits;
            match read.notice {
                Notice::End => return circuits,
                Notice::Circuit { number, .. } => circuits.push(number),
                _ => {}
            }
        }
    }

    /// The packets still to go at every number, listed or not, are those of which a copy is in the queue.
    fn compare(&self) {
        for (circuit, queue) in self.queues.iter().enumerate() {
            let mut packets: Vec<usize> = queue.iter().copied().collect();
            packets.dedup();
            assert_eq!(self.sender.waiting(circuit), packets.len());
            assert_eq!(left(self.sender.as_bytes(), circuit), packets.len());
        }
    }
}

/// The packets still to go that a record has at a circuit number.
fn left(record: &[u8; SENDER_RECORD], circuit: usize) -> usize {
    let at = LEFT + SLOT * circuit;
    usize::from(record[at]) + 256 * usize::from(record[at + 1])
}

/// The sender with another number of packets still to go at a circuit number.
fn with_left(sender: &Sender, circuit: usize, left: u16) -> Sender {
    let at = LEFT + SLOT * circuit;
    let mut record = *sender.as_bytes();
    record[at..at + 2].copy_from_slice(&left.to_le_bytes());
    Sender::from_bytes(record)
}

/// Sends all messages with this repetition, each at the next of so many circuits that takes it, in blocks mostly of one or a few frames.
fn send_all(circuits: usize, repetition: usize) {
    let mut ends = Ends::new(circuits);
    let mut messages = MESSAGES.into_iter().peekable();
    for n in [256, 256, 256, 1000].into_iter().cycle() {
        for circuit in 0..circuits {
            messages.next_if(|message| ends.offer(circuit, repetition, *message));
        }
        if ends.block(n, None) == 0 {
            break;
        }
    }
    assert_eq!(messages.next(), None);
}

#[test]
fn they_are_counted_behind_every_offer_and_block() {
    for repetition in 0..=5 {
        for circuits in 1..=4 {
            send_all(circuits, repetition);
        }
    }
}

/// One copy in each block: the system packet leaves room for no more.
#[test]
fn a_packet_counts_until_its_last_copy_is_placed() {
    let system = SystemPacket {
        information: &[0; 15],
        ..SystemPacket::default()
    };
    for repetition in 0..=5 {
        let mut ends = Ends::new(1);
        assert!(ends.offer(0, repetition, (0, 1)));
        for _ in 0..=repetition {
            assert_eq!(ends.sender.waiting(0), 1);
            assert_eq!(ends.block(256, Some(system)), 1);
        }
        assert_eq!(ends.sender.waiting(0), 0);
    }
}

/// Senders of so many circuits, and the packets still to go at one of them: nothing offered, a message of one packet, one of 256 packets with none
/// placed, with a copy of two placed and with a packet placed, and all placed of one.
fn senders(circuits: usize, circuit: usize) -> Vec<(Sender, u16)> {
    let offered = |message, repetition, blocks| {
        let mut ends = Ends::new(circuits);
        assert!(ends.offer(circuit, repetition, message));
        for _ in 0..blocks {
            assert_eq!(ends.block(256, None), 1);
        }
        ends.sender
    };
    vec![
        (Ends::new(circuits).sender, 0),
        (offered((0, 1), 0, 0), 1),
        (offered((4094, 256), 0, 0), 256),
        (offered((4094, 256), 1, 1), 256),
        (offered((4094, 256), 0, 1), 255),
        (offered((15, 1), 0, 1), 0),
    ]
}

/// An offer at circuit 0 and a block refuse a sender by 14 and leave every byte.
fn is_refused(sender: Sender) {
    let (mut store, mut bits) = ([0xAA; SENDER_STORE], [0xAA; 32]);
    let mut given = sender;
    let offered = given.offer(&mut store, 0, 0, 0, b"message");
    assert_eq!(offered, Err(Refusal::RecordOutOfRange));
    let made = given.block(&store, 256, 256, None, &mut bits);
    assert_eq!(made, Err(Refusal::RecordOutOfRange));
    assert_eq!(given, sender);
    assert!(store == [0xAA; SENDER_STORE], "the store is written");
    assert_eq!(bits, [0xAA; 32]);
}

/// A block is made of a sender, and an offer at circuit 0 taken behind that where nothing is pending there.
fn is_accepted(mut sender: Sender) {
    let mut store = [0xAA; SENDER_STORE];
    let made = sender.block(&store, 256, 256, None, &mut [0; 32]);
    assert!(made.is_ok());
    let pending = sender.waiting(0) > 0;
    let offered = sender.offer(&mut store, 0, 0, 0, b"message");
    assert_eq!(offered.err(), pending.then_some(Refusal::MessagePending));
}

#[test]
fn another_number_is_out_of_range_at_a_listed_circuit() {
    for (circuits, circuit) in (1..=4).flat_map(|count| (0..count).map(move |c| (count, c))) {
        for (sender, right) in senders(circuits, circuit) {
            assert_eq!(sender.waiting(circuit), right.into());
            let (more, less) = (right + 1, right.wrapping_sub(1));
            let others = [more, less, u16::from(right == 0), 65535, right + 256];
            for other in others {
                is_refused(with_left(&sender, circuit, other));
            }
            is_accepted(sender);
        }
    }
}

#[test]
fn one_number_of_all_is_in_range() {
    let (sender, right) = senders(2, 1)[4];
    for number in 0..=u16::MAX {
        let given = with_left(&sender, 1, number);
        if number == right {
            is_accepted(given);
        } else {
            is_refused(given);
        }
    }
}

/// They are not judged there and stay as they are, and none of them waits.
#[test]
fn any_number_is_in_range_at_a_circuit_that_is_not_listed() {
    for (circuits, circuit) in [(1, 1), (1, 2), (1, 3), (2, 2), (2, 3), (3, 3)] {
        for number in [1, 255, 256, 65535] {
            let mut sender = with_left(&Ends::new(circuits).sender, circuit, number);
            is_accepted(sender);
            let made = sender.block(&[0; SENDER_STORE], 256, 256, None, &mut [0; 32]);
            assert!(made.is_ok());
            assert_eq!(left(sender.as_bytes(), circuit), number.into());
            assert_eq!(sender.waiting(circuit), 0);
        }
    }
}

#[test]
fn nothing_waits_beyond_four_circuits() {
    for byte in [0x00, 0x04, 0xFF] {
        let sender = Sender::from_bytes([byte; SENDER_RECORD]);
        assert_eq!([4, 5, usize::MAX].map(|c| sender.waiting(c)), [0; 3]);
    }
}
