//! The enable bits in force hold over from block to block (02, ask 4).

mod end;

use aes18_reference::calls::{self, BlockCall, OfferCall, BLOCK_ANSWER};
use aes18_reference::records::{ENABLE, NO_SENDER, SENDER_RECORD};
use aes18_reference::{LONGEST_MESSAGE, SENDER_STORE};
use end::{End, LIST, PLAIN};

/// A block call with a system packet of these bits.
fn system(enable: u64) -> BlockCall<'static> {
    BlockCall {
        system: 1,
        enable,
        ..PLAIN
    }
}

/// The same in a block that has no room for a frame behind the system packet's.
fn alone(enable: u64) -> BlockCall<'static> {
    BlockCall {
        n: 256,
        u: 256,
        information: &[0; 15],
        ..system(enable)
    }
}

impl End {
    /// A fresh one with a message of one packet at each circuit, its priority the circuit's number.
    fn waiting() -> End {
        let mut end = End::fresh();
        end.offer_all();
        end
    }

    fn offer_all(&mut self) {
        for circuit in 0..4 {
            assert_eq!(self.offer(circuit, circuit, 0, b"a message"), 0);
        }
    }
}

/// The circuits of `End::waiting` whose priority is enabled, highest first.
fn enabled(enable: u64) -> Vec<usize> {
    (0..4).rev().filter(|p| enable >> p & 1 == 1).collect()
}

#[test]
fn a_fresh_sender_has_all_enabled() {
    let mut end = End::waiting();
    assert_eq!(end.record[ENABLE], 15);
    assert_eq!(end.block(PLAIN), Ok(vec![3, 2, 1, 0]));
}

#[test]
fn a_refused_listing_has_all_enabled() {
    for list in [&[][..], &[0xFF, 0, 0], &[1, 2, 0], &[1, 0, 0, 1, 0, 0]] {
        let mut record = [0x5A; SENDER_RECORD];
        assert_ne!(calls::sender_list(&mut record, list), 0);
        assert_eq!((record, record[ENABLE]), (NO_SENDER, 15));
    }
}

#[test]
fn the_bits_rule_their_own_block() {
    for enable in 0..=15 {
        let mut end = End::waiting();
        assert_eq!(end.block(system(enable)), Ok(enabled(enable)));
        assert_eq!(u64::from(end.record[ENABLE]), enable);
    }
}

#[test]
fn the_bits_rule_all_later_blocks() {
    for enable in 0..=15 {
        let mut end = End::waiting();
        assert_eq!(end.block(alone(enable)), Ok(vec![]));
        assert_eq!(end.block(PLAIN), Ok(enabled(enable)));
        assert_eq!(end.block(PLAIN), Ok(vec![]));
        assert_eq!(u64::from(end.record[ENABLE]), enable);
        assert_eq!(end.block(alone(15)), Ok(vec![]));
        assert_eq!(end.block(PLAIN), Ok(enabled(15 - enable)));
    }
}

#[test]
fn the_last_system_packet_rules() {
    let mut end = End::waiting();
    for enable in [3, 12, 1, 8] {
        assert_eq!(end.block(alone(enable)), Ok(vec![]));
    }
    assert_eq!(end.block(PLAIN), Ok(vec![3]));
}

#[test]
fn without_a_system_packet_the_argument_is_not_looked_at() {
    let mut end = End::waiting();
    assert_eq!(end.block(alone(2)), Ok(vec![]));
    for enable in [0, 1, 13, 15, 16, 255, 256 + 13, u64::MAX] {
        let call = BlockCall { enable, ..PLAIN };
        end.block(call).unwrap();
        assert_eq!(end.record[ENABLE], 2, "{enable}");
    }
    assert_eq!(end.block(alone(15)), Ok(vec![]));
    assert_eq!(end.block(PLAIN), Ok(vec![3, 2, 0]));
}

#[test]
fn a_refused_block_stores_nothing() {
    let small = BlockCall {
        n: 255,
        ..system(15)
    };
    let code = BlockCall {
        code: 9,
        ..system(15)
    };
    let information = BlockCall {
        information: &[0; 16],
        ..system(15)
    };
    let mut end = End::waiting();
    assert_eq!(end.block(system(0)), Ok(vec![]));
    let before = end.record;
    for (call, store, room, refusal) in [
        (system(15), SENDER_STORE - 1, 188, 5),
        (small, SENDER_STORE, 188, 11),
        (system(15), SENDER_STORE, 187, 12),
        (system(16), SENDER_STORE, 188, 13),
        (system(256 + 15), SENDER_STORE, 188, 13),
        (code, SENDER_STORE, 188, 13),
        (information, SENDER_STORE, 188, 13),
    ] {
        assert_eq!(end.block_in(call, store, room), Err(refusal));
        assert_eq!(end.record, before);
        assert_eq!(end.block(PLAIN), Ok(vec![]));
    }
    assert_eq!(end.block(system(15)), Ok(vec![3, 2, 1, 0]));
}

#[test]
fn offers_leave_the_bits() {
    let mut end = End::fresh();
    assert_eq!(end.block(system(6)), Ok(vec![]));
    end.offer_all();
    assert_eq!(end.record[ENABLE], 6);
    assert_eq!(end.offer(4, 0, 0, b""), 6);
    assert_eq!(end.offer(0, 4, 0, b""), 7);
    assert_eq!(end.offer(0, 0, 6, b""), 8);
    assert_eq!(end.offer(0, 0, 0, &[0; LONGEST_MESSAGE + 1]), 9);
    assert_eq!(end.offer(0, 0, 0, b""), 10);
    assert_eq!(end.block(PLAIN), Ok(vec![2, 1]));
}

/// The record of so many circuits, with these bits.
fn record_of(circuits: usize, enable: u8) -> [u8; SENDER_RECORD] {
    let mut record = NO_SENDER;
    calls::sender_list(&mut record, &LIST[..3 * circuits]);
    assert_eq!(usize::from(record[0]), circuits);
    record[ENABLE] = enable;
    record
}

/// What this record and a store of so many bytes answer to a block call; if that is refused, everything is left as it was.
fn block_answered(record: [u8; SENDER_RECORD], store: usize, call: BlockCall<'_>) -> u32 {
    let given = (record, [0x5A; 188], [0x5A; BLOCK_ANSWER]);
    let mut left = given;
    let (record, block, answer) = (&mut left.0, &mut left.1, &mut left.2);
    let answered = calls::sender_block(record, &vec![0; store], call, block, answer);
    assert_eq!(left == given, answered != 0);
    answered
}

/// The same of an offer.
fn offer_answered(record: [u8; SENDER_RECORD], store: usize) -> u32 {
    let call = OfferCall {
        circuit: 0,
        priority: 0,
        repetition: 0,
        message: b"a message",
    };
    let given = (record, vec![0; store]);
    let mut left = given.clone();
    let answered = calls::sender_offer(&mut left.0, &mut left.1, call);
    assert_eq!(left == given, answered != 0);
    assert_eq!(left.0[ENABLE], record[ENABLE]);
    answered
}

/// At any number of circuits a record is out of range by its bits exactly if they are above 15, and that is looked at before the store's length.
#[test]
fn bits_above_15_are_out_of_range() {
    for (circuits, enable) in (0..=4).flat_map(|count| (0..=255).map(move |bits| (count, bits))) {
        let record = record_of(circuits, enable);
        let answered = |store| {
            [
                block_answered(record, store, PLAIN),
                block_answered(record, store, system(15)),
                offer_answered(record, store),
            ]
        };
        let answers = [answered(SENDER_STORE), answered(0)];
        let expected = match (enable, circuits) {
            (16.., _) => [[14; 3], [14; 3]],
            (_, 0) => [[0, 0, 6], [5; 3]],
            _ => [[0; 3], [5; 3]],
        };
        assert_eq!(answers, expected, "{circuits} circuits, {enable}");
    }
}

#[test]
fn none_may_be_enabled_for_ever() {
    let mut end = End::waiting();
    assert_eq!(end.block(system(0)), Ok(vec![]));
    let before = end.record;
    for _ in 0..1000 {
        assert_eq!(end.block(PLAIN), Ok(vec![]));
        assert_eq!(end.record, before);
    }
    assert_eq!(end.block(system(15)), Ok(vec![3, 2, 1, 0]));
}
