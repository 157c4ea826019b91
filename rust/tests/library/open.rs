//! The message that is open at a circuit, as packets come.

use aes18::{Circuit, Notice, Open, Receiver, RECEIVER_RECORD, RECEIVER_STORE};

use super::frames::{bytes_of, framed, plain};

/// A receiver that lists 01 and 02:07, and its store.
struct End {
    receiver: Receiver,
    store: Vec<u8>,
}

impl End {
    fn new() -> End {
        let extended = Circuit {
            address: 0x02,
            extension: Some(0x07),
        };
        End {
            receiver: Receiver::list(&[plain(0x01), extended]).unwrap(),
            store: vec![0; RECEIVER_STORE],
        }
    }

    /// Reads a packet in its frame, and answers what is open at the two circuits.
    fn hear(&mut self, packet: &[u8]) -> [Option<Open>; 2] {
        let bits = framed(&[packet]);
        let (bytes, to) = (bytes_of(&bits), bits.len() as u64);
        let read = self.receiver.read(&mut self.store, &bytes, 0, to).unwrap();
        assert_ne!(read.notice, Notice::End);
        [0, 1].map(|number| self.receiver.open(number))
    }
}

/// A packet of circuit 01 with this control byte.
fn packet(control: u8, segment: &[u8]) -> Vec<u8> {
    [&[0x01, control], segment].concat()
}

/// The first packet of a message of 46 bytes, with this index; then one between and the last.
fn first(index: u8) -> Vec<u8> {
    packet(0x80 | index << 2, &[&[0x10, 46], &[0x33; 14][..]].concat())
}

fn between(index: u8) -> Vec<u8> {
    packet(index << 2, &[0x33; 16])
}

fn last(index: u8) -> Vec<u8> {
    packet(0x40 | index << 2, &[0x33; 16])
}

fn open(received: usize) -> [Option<Open>; 2] {
    let length = 46;
    [Some(Open { length, received }), None]
}

#[test]
fn begun_held_and_whole() {
    let mut end = End::new();
    assert_eq!(end.receiver.open(0), None);
    assert_eq!(end.hear(&first(0)), open(14));
    assert_eq!(end.hear(&first(0)), open(14), "a copy");
    assert_eq!(end.hear(&between(1)), open(30));
    assert_eq!(end.hear(&between(1)), open(30), "a copy");
    assert_eq!(end.hear(&last(2)), [None; 2]);
    assert_eq!(end.hear(&packet(0x8C, b"\x02on")), [None; 2]);
}

/// A loss, a first packet of another message and a wrong packet close the open one; packets of other circuits do not.
#[test]
fn what_closes_a_message() {
    let mut end = End::new();
    assert_eq!(end.hear(&first(0)), open(14));
    assert_eq!(end.hear(&between(2)), [None; 2], "a packet lost");
    assert_eq!(end.hear(&first(3)), open(14));
    assert_eq!(end.hear(&between(4)), open(30));
    assert_eq!(end.hear(&first(5)), open(14), "another message");
    assert_eq!(end.hear(&packet(0x18, b"short")), [None; 2], "wrong");
    assert_eq!(end.hear(&first(7)), open(14));
    assert_eq!(end.hear(b"\x05\x80\x00"), open(14), "elsewhere");
    assert_eq!(end.hear(b"\xFF\xCF\x00"), open(14), "a system packet");
    assert_eq!(end.hear(&packet(0x80, b"\x00")), [None; 2], "whole");
    assert_eq!(end.hear(&last(1)), [None; 2], "an orphan");
}

/// Each circuit has its own, and what came is at the start of its region.
#[test]
fn two_circuits() {
    let mut end = End::new();
    let extended = [&[0x02, 0xA0, 0x07, 0x1F, 0xFE], &[0x44; 14][..]].concat();
    let both = [
        None,
        Some(Open {
            length: 4094,
            received: 14,
        }),
    ];
    assert_eq!(end.hear(&extended), both);
    assert_eq!(end.hear(&first(0)), [open(14)[0], both[1]]);
    assert_eq!(end.store[..15], [&[0x33; 14][..], &[0]].concat());
    assert_eq!(end.store[4096..4111], [&[0x44; 14][..], &[0]].concat());
}

/// Nothing is open at a number that is not listed, whatever the record's bytes are.
#[test]
fn numbers_not_listed() {
    let mut end = End::new();
    end.hear(&first(0));
    for number in [2, 3, 4, usize::MAX] {
        assert_eq!(end.receiver.open(number), None);
    }
    let mut record = *end.receiver.as_bytes();
    record[13 + 2 * 6 + 2] = 9;
    assert_eq!(Receiver::from_bytes(record).open(2), None);
    record[0] = 0;
    assert_eq!(Receiver::from_bytes(record).open(0), None);
    record[0] = 255;
    assert_eq!(Receiver::from_bytes(record).open(4), None);
    assert_eq!(Receiver::from_bytes([0xFF; RECEIVER_RECORD]).open(3), None);
}
