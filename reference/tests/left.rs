//! Packets still to go, in the record (02, ask 5).

mod end;

use aes18_reference::calls::{self, BlockCall, OfferCall, BLOCK_ANSWER};
use aes18_reference::records::{NO_SENDER, SENDER_RECORD};
use aes18_reference::sender::Sender;
use aes18_reference::{LONGEST_MESSAGE, SENDER_STORE};
use end::{End, LIST, PLAIN};

/// A block call with room for one frame of a whole segment, and not for two.
const ONE_FRAME: BlockCall = BlockCall {
    n: 256,
    u: 256,
    ..PLAIN
};
/// Where the record has the field of each circuit number, low byte first.
const FIELDS: [usize; 4] = [21, 31, 41, 51];
/// Lengths of messages and their numbers of packets: header and message in segments of 16 bytes.
const PACKETS: [(usize, usize); 11] = [
    (0, 1),
    (1, 1),
    (15, 1),
    (16, 2),
    (30, 2),
    (31, 3),
    (46, 3),
    (47, 4),
    (4078, 255),
    (4079, 256),
    (4094, 256),
];

/// The packets still to go at each circuit number, as the record tells.
fn left(record: &[u8; SENDER_RECORD]) -> [usize; 4] {
    FIELDS.map(|at| usize::from(record[at]) + 256 * usize::from(record[at + 1]))
}

fn put(record: &mut [u8], circuit: usize, left: usize) {
    let at = FIELDS[circuit];
    record[at..at + 2].copy_from_slice(&(left as u16).to_le_bytes());
}

impl End {
    fn left(&self) -> [usize; 4] {
        left(&self.record)
    }

    /// Makes blocks until nothing waits; some frame is placed in each but the last.
    fn place_all(&mut self) {
        while self.block(PLAIN) != Ok(vec![]) {}
    }
}

/// The record's last bytes, behind the slots, are the circuit last served and the enable bits.
#[test]
fn nothing_is_pending_in_a_fresh_sender() {
    let end = End::fresh();
    assert_eq!(end.left(), [0; 4]);
    assert_eq!(end.record[..13], [&[4][..], &LIST].concat());
    assert_eq!(end.record[13..53], [0, 0, 0, 0, 0, 0, 1, 0, 0, 0].repeat(4));
    assert_eq!(end.record[53..], [3, 15]);
}

#[test]
fn nothing_is_pending_after_a_refused_listing() {
    let mut record = [0x5A; SENDER_RECORD];
    assert_eq!(calls::sender_list(&mut record, &[0xFF, 0, 0]), 2);
    assert_eq!(record[..13], [0; 13]);
    assert_eq!(record[13..53], [0, 0, 0, 0, 0, 0, 1, 0, 0, 0].repeat(4));
    assert_eq!(record[53..], [3, 15]);
}

#[test]
fn an_offer_leaves_all_packets_to_go() {
    for (circuit, repetition) in (0..4).flat_map(|c| (0..=5).map(move |r| (c, r))) {
        for (length, packets) in PACKETS {
            let mut end = End::fresh();
            assert_eq!(end.offer(circuit, 2, repetition, &vec![7; length]), 0);
            let mut expected = [0; 4];
            expected[circuit as usize] = packets;
            assert_eq!(end.left(), expected, "{length} bytes");
        }
    }
}

#[test]
fn the_field_has_its_low_byte_first() {
    let mut end = End::fresh();
    assert_eq!(end.offer(1, 0, 0, &[7; LONGEST_MESSAGE]), 0);
    assert_eq!(end.offer(2, 0, 0, &[7; 4078]), 0);
    assert_eq!(end.record[31..33], [0, 1]);
    assert_eq!(end.record[41..43], [255, 0]);
}

/// Three packets, a copy in each block: a packet counts as long as one copy is left, and no copy but the last takes one away.
#[test]
fn a_packet_counts_until_its_last_copy_is_placed() {
    for repetition in 0..=5 {
        let mut end = End::fresh();
        assert_eq!(end.offer(3, 1, repetition, &[0; 46]), 0);
        for left in [3, 2, 1] {
            for _ in 0..=repetition {
                assert_eq!(end.left(), [0, 0, 0, left]);
                assert_eq!(end.block(ONE_FRAME), Ok(vec![3]));
            }
        }
        assert_eq!(end.left(), [0; 4]);
        assert_eq!(end.block(ONE_FRAME), Ok(vec![]));
        assert_eq!(end.left(), [0; 4]);
    }
}

#[test]
fn one_of_six_copies_left_counts() {
    let mut end = End::fresh();
    assert_eq!(end.offer(0, 0, 5, &[0; 15]), 0);
    for _ in 0..5 {
        assert_eq!(end.block(ONE_FRAME), Ok(vec![0]));
    }
    assert_eq!(end.left(), [1, 0, 0, 0]);
    assert_eq!(end.offer(0, 0, 0, b""), 10);
    assert_eq!(end.block(ONE_FRAME), Ok(vec![0]));
    assert_eq!(end.left(), [0; 4]);
    assert_eq!(end.offer(0, 0, 0, b""), 0);
}

/// The longest message down from 256: the frames placed tell how many packets have gone.
#[test]
fn all_256_packets_go() {
    let mut end = End::fresh();
    assert_eq!(end.offer(2, 0, 1, &[0x55; LONGEST_MESSAGE]), 0);
    let mut frames = 0;
    while frames < 512 {
        assert_eq!(end.left(), [0, 0, 256 - frames / 2, 0]);
        frames += end.block(PLAIN).unwrap().len();
    }
    assert_eq!((frames, end.left()), (512, [0; 4]));
}

/// Several circuits, of which one after the other is served: each has its own count, by the frames that it has placed.
#[test]
fn each_circuit_has_its_own() {
    let mut end = End::fresh();
    let (packets, repetition) = ([1, 3, 2, 4], [5, 0, 3, 1]);
    for (circuit, length) in [15, 31, 30, 47].into_iter().enumerate() {
        let (number, repetition) = (circuit as u64, repetition[circuit] as u64);
        assert_eq!(end.offer(number, 1, repetition, &vec![0; length]), 0);
    }
    let mut frames = [0; 4];
    for u in [256, 700, 430, 1500, 256, 900, 1200, 1500] {
        let expected = [0, 1, 2, 3].map(|c| packets[c] - frames[c] / (repetition[c] + 1));
        assert_eq!(end.left(), expected);
        for circuit in end.block(BlockCall { u, ..PLAIN }).unwrap() {
            frames[circuit] += 1;
        }
    }
    assert_eq!((frames, end.left()), ([6, 3, 8, 8], [0; 4]));
}

#[test]
fn a_new_message_has_its_own_count() {
    let mut end = End::fresh();
    for (length, packets) in [(200, 13), (0, 1), (46, 3), (15, 1)] {
        assert_eq!(end.offer(1, 3, 2, &vec![9; length]), 0);
        assert_eq!(end.left(), [0, packets, 0, 0]);
        end.place_all();
        assert_eq!(end.left(), [0; 4]);
    }
}

#[test]
fn nothing_else_changes_the_count() {
    let mut end = End::fresh();
    assert_eq!(end.offer(0, 1, 2, &[0; 46]), 0);
    assert_eq!(end.block(ONE_FRAME), Ok(vec![0]));
    let barring = BlockCall { system: 1, ..PLAIN };
    for made in [end.block(barring), end.block(PLAIN)] {
        assert_eq!(made, Ok(vec![]));
    }
    let refused = [
        end.offer(0, 0, 0, b""),
        end.offer(1, 4, 0, &[0; 100]),
        end.offer(1, 0, 6, &[0; 100]),
        end.offer(1, 0, 0, &[0; LONGEST_MESSAGE + 1]),
        end.offer(4, 0, 0, b""),
    ];
    assert_eq!(refused, [10, 7, 8, 9, 6]);
    assert_eq!(end.block(BlockCall { n: 255, ..PLAIN }), Err(11));
    assert_eq!(end.left(), [3, 0, 0, 0]);
}

/// Records made by calls, with the packets still to go: fresh, offered, with some copies or packets placed, and all.
fn made_by_calls() -> Vec<([u8; SENDER_RECORD], [usize; 4])> {
    let mut end = End::fresh();
    let mut made = vec![(end.record, [0; 4])];
    for (circuit, length) in [15, 31, 4094, 0].into_iter().enumerate() {
        let (number, message) = (circuit as u64, vec![0; length]);
        assert_eq!(end.offer(number, 3 - number, 2, &message), 0);
    }
    made.push((end.record, [1, 3, 256, 1]));
    for first in [1, 1, 0, 0] {
        assert_eq!(end.block(ONE_FRAME).unwrap().len(), 1);
        made.push((end.record, [first, 3, 256, 1]));
    }
    while end.left()[1] > 0 {
        assert!(!end.block(ONE_FRAME).unwrap().is_empty());
    }
    made.push((end.record, [0, 0, 256, 1]));
    assert_eq!(end.block(PLAIN).unwrap().len(), 8);
    made.push((end.record, [0, 0, 254, 1]));
    end.place_all();
    made.push((end.record, [0; 4]));
    made
}

/// The numbers that this record is refused by, or 0: in an offer and in a block, each with a store, and with none. Refused, it is left as it was.
fn answers(record: [u8; SENDER_RECORD]) -> [u32; 4] {
    let offer = OfferCall {
        circuit: 0,
        priority: 0,
        repetition: 0,
        message: b"",
    };
    let answered = |store: usize| {
        let (mut offered, mut made) = (record, record);
        let mut block = [0x5A; 188];
        let answers = [
            calls::sender_offer(&mut offered, &mut vec![0; store], offer),
            calls::sender_block(
                &mut made,
                &vec![0; store],
                PLAIN,
                &mut block,
                &mut [0; BLOCK_ANSWER],
            ),
        ];
        assert!(answers[0] == 0 || offered == record);
        assert!(answers[1] == 0 || (made, block) == (record, [0x5A; 188]));
        answers
    };
    let ([offer, block], [offer_short, block_short]) = (answered(SENDER_STORE), answered(0));
    [offer, block, offer_short, block_short]
}

/// At any number of circuits: a wrong field of a listed circuit is refused by 14, which comes before the store's length; any other is not looked at.
#[test]
fn only_listed_circuits_are_judged() {
    for (record, left) in made_by_calls() {
        for (circuits, circuit) in (0..=4).flat_map(|count| (0..4).map(move |c| (count, c))) {
            let mut record = record;
            record[0] = circuits as u8;
            let right = answers(record);
            assert!(!right.contains(&14));
            for wrong in [left[circuit] + 1, left[circuit].wrapping_sub(1), 0xFF00] {
                put(&mut record, circuit, wrong);
                let expected = if circuit < circuits { [14; 4] } else { right };
                assert_eq!(answers(record), expected, "{circuits} circuits, {circuit}");
            }
        }
    }
}

/// Of all values of the field one is in range; the store's length is looked at behind it.
#[test]
fn one_value_is_in_range() {
    let (record, left) = made_by_calls()[5];
    for (circuit, right) in left.into_iter().enumerate() {
        let mut record = record;
        let in_range = (0..=0xFFFF).filter(|&value| {
            put(&mut record, circuit, value);
            Sender::resume(&record, &[]).err() == Some(5)
        });
        assert_eq!(in_range.collect::<Vec<_>>(), [right]);
    }
}

#[test]
fn what_is_not_listed_is_kept() {
    let mut record = NO_SENDER;
    assert_eq!(calls::sender_list(&mut record, &LIST[..6]), 0);
    put(&mut record, 2, 1);
    put(&mut record, 3, 0xBEEF);
    let mut store = vec![0; SENDER_STORE];
    let offer = OfferCall {
        circuit: 1,
        priority: 0,
        repetition: 0,
        message: &[0; 16],
    };
    assert_eq!(calls::sender_offer(&mut record, &mut store, offer), 0);
    assert_eq!(left(&record), [0, 2, 1, 0xBEEF]);
    let (block, answer) = (&mut [0; 188], &mut [0; BLOCK_ANSWER]);
    let made = calls::sender_block(&mut record, &store, PLAIN, block, answer);
    assert_eq!((made, left(&record)), (0, [0, 0, 1, 0xBEEF]));
}
