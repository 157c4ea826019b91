//! Each refusal through the safe types. Refusal 3 is the one that they cannot meet: a circuit's extension is there or not.

use aes18::{ffi, Circuit, Receiver, Refusal, Sender, SystemPacket};
use aes18::{LONGEST_MESSAGE, RECEIVER_RECORD, RECEIVER_STORE, SENDER_RECORD, SENDER_STORE};

use super::frames::plain;

fn sender() -> Sender {
    Sender::list(&[plain(0x01), plain(0x02)]).unwrap()
}

fn receiver() -> Receiver {
    Receiver::list(&[plain(0x01), plain(0x02)]).unwrap()
}

#[test]
fn listing() {
    let extended = |extension| Circuit {
        address: 0x05,
        extension: Some(extension),
    };
    let cases: [(&[Circuit], Refusal); 6] = [
        (&[], Refusal::ListLength),
        (&[1, 2, 3, 4, 5].map(plain), Refusal::ListLength),
        (&[1, 2, 3, 4, 5, 6].map(plain), Refusal::ListLength),
        (&[1, 0xFF].map(plain), Refusal::AddressReserved),
        (&[1, 2, 1].map(plain), Refusal::CircuitsAlike),
        (&[extended(9), extended(9)], Refusal::CircuitsAlike),
    ];
    for (circuits, refusal) in cases {
        assert_eq!(Sender::list(circuits), Err(refusal));
        assert_eq!(Receiver::list(circuits), Err(refusal));
    }
    let unlike = [plain(5), extended(0), extended(1), plain(0xFE)];
    assert!(Sender::list(&unlike).is_ok());
    assert!(Receiver::list(&unlike).is_ok());
}

#[test]
fn offering() {
    let message = [0x55; LONGEST_MESSAGE + 1];
    let cases = [
        (
            SENDER_STORE - 1,
            9,
            9,
            9,
            message.len(),
            Refusal::StoreTooShort,
        ),
        (
            SENDER_STORE,
            2,
            9,
            9,
            message.len(),
            Refusal::CircuitNotListed,
        ),
        (
            SENDER_STORE,
            u64::MAX,
            9,
            9,
            message.len(),
            Refusal::CircuitNotListed,
        ),
        (
            SENDER_STORE,
            1,
            4,
            9,
            message.len(),
            Refusal::PriorityAbove3,
        ),
        (
            SENDER_STORE,
            1,
            3,
            6,
            message.len(),
            Refusal::RepetitionAbove5,
        ),
        (
            SENDER_STORE,
            1,
            3,
            5,
            message.len(),
            Refusal::MessageTooLong,
        ),
        (SENDER_STORE, 1, 3, 5, 0, Refusal::MessagePending),
    ];
    let mut store = [0xAA; SENDER_STORE];
    let mut sender = sender();
    sender.offer(&mut store, 1, 0, 0, b"pending").unwrap();
    let (sender_before, store_before) = (sender, store);
    for (room, circuit, priority, repetition, length, refusal) in cases {
        let offered = sender.offer(
            &mut store[..room],
            circuit,
            priority,
            repetition,
            &message[..length],
        );
        assert_eq!(offered, Err(refusal));
        assert_eq!(sender, sender_before);
        assert!(store == store_before, "{refusal} wrote to the store");
    }
    assert_eq!(sender.offer(&mut store, 0, 3, 5, &message[1..]), Ok(()));
}

#[test]
fn block_making() {
    let system = |enable, code, length| {
        Some(SystemPacket {
            enable,
            code,
            information: &[0x55; 16][..length],
        })
    };
    let wrong = system(16, 9, 16);
    let cases = [
        (SENDER_STORE - 1, 255, 9, 0, wrong, Refusal::StoreTooShort),
        (SENDER_STORE, 255, 255, 0, wrong, Refusal::BlockBits),
        (SENDER_STORE, 27_001, 256, 0, wrong, Refusal::BlockBits),
        (SENDER_STORE, 256, 255, 0, wrong, Refusal::BlockBits),
        (SENDER_STORE, 256, 257, 0, wrong, Refusal::BlockBits),
        (SENDER_STORE, 257, 256, 32, wrong, Refusal::BufferTooShort),
        (
            SENDER_STORE,
            256,
            256,
            32,
            system(16, 8, 15),
            Refusal::SystemPacket,
        ),
        (
            SENDER_STORE,
            256,
            256,
            32,
            system(15, 9, 15),
            Refusal::SystemPacket,
        ),
        (
            SENDER_STORE,
            256,
            256,
            32,
            system(15, 8, 16),
            Refusal::SystemPacket,
        ),
    ];
    let mut store = [0; SENDER_STORE];
    let mut sender = sender();
    sender.offer(&mut store, 0, 0, 0, b"waits").unwrap();
    let before = sender;
    let mut bits = [0xAA; 40];
    for (room, n, u, buffer, system, refusal) in cases {
        let made = sender.block(&store[..room], n, u, system, &mut bits[..buffer]);
        assert_eq!(made, Err(refusal));
        assert_eq!(sender, before);
        assert_eq!(bits, [0xAA; 40]);
    }
    let made = sender.block(&store, 256, 256, system(15, 8, 15), &mut bits);
    assert!(made.is_ok());
    assert_eq!(bits[32..], [0xAA; 8]);
}

#[test]
fn reading() {
    let cases = [
        (RECEIVER_STORE - 1, 1, 0, Refusal::StoreTooShort),
        (RECEIVER_STORE, 1, 0, Refusal::BitRange),
        (RECEIVER_STORE, 0, 17, Refusal::BitRange),
        (RECEIVER_STORE, u64::MAX, u64::MAX, Refusal::BitRange),
    ];
    let mut store = [0xAA; RECEIVER_STORE];
    let mut receiver = receiver();
    let before = receiver;
    for (room, from, to, refusal) in cases {
        let read = receiver.read(&mut store[..room], &[0x7E, 0x7E], from, to);
        assert_eq!(read, Err(refusal));
        assert_eq!(receiver, before);
        assert!(
            store == [0xAA; RECEIVER_STORE],
            "{refusal} wrote to the store"
        );
    }
    assert!(receiver.read(&mut store, &[0x7E, 0x7E], 16, 16).is_ok());
    assert!(receiver.read(&mut store, &[], 0, 0).is_ok());
}

#[test]
fn records_out_of_range() {
    let refusal = Err(Refusal::RecordOutOfRange);
    let mut sender = Sender::from_bytes([0xFF; SENDER_RECORD]);
    assert_eq!(sender.offer(&mut [], 9, 9, 9, &[]), refusal);
    let made = sender.block(&[], 0, 0, None, &mut []);
    assert_eq!(made.err(), refusal.err());
    assert_eq!(sender.as_bytes(), &[0xFF; SENDER_RECORD]);

    let mut receiver = Receiver::from_bytes([0xFF; RECEIVER_RECORD]);
    let read = receiver.read(&mut [], &[], 1, 0);
    assert_eq!(read.err(), refusal.err());
    assert_eq!(receiver.as_bytes(), &[0xFF; RECEIVER_RECORD]);
}

#[test]
fn records_go_through_bytes() {
    assert_eq!(Sender::from_bytes(*sender().as_bytes()), sender());
    assert_eq!(Receiver::from_bytes(*receiver().as_bytes()), receiver());
}

#[test]
fn words_and_numbers() {
    let words = [
        (Refusal::ListLength, "refusal 1: length not 3, 6, 9 or 12"),
        (Refusal::AddressReserved, "refusal 2: an address FF hex"),
        (
            Refusal::ExtensionByte,
            "refusal 3: a middle byte above 1, or 0 with an extension byte other than 0",
        ),
        (Refusal::CircuitsAlike, "refusal 4: two circuits alike"),
        (Refusal::StoreTooShort, "refusal 5: store too short"),
        (
            Refusal::CircuitNotListed,
            "refusal 6: circuit number not listed",
        ),
        (Refusal::PriorityAbove3, "refusal 7: priority above 3"),
        (Refusal::RepetitionAbove5, "refusal 8: repetition above 5"),
        (
            Refusal::MessageTooLong,
            "refusal 9: message above 4,094 bytes",
        ),
        (
            Refusal::MessagePending,
            "refusal 10: an earlier message there still has a copy to place",
        ),
        (
            Refusal::BlockBits,
            "refusal 11: N outside 256 to 27,000 or U outside 256 to N",
        ),
        (Refusal::BufferTooShort, "refusal 12: buffer under N bits"),
        (
            Refusal::SystemPacket,
            "refusal 13: enable bits above 15, code above 8 or information above 15 bytes",
        ),
        (
            Refusal::RecordOutOfRange,
            "refusal 14: a record out of range",
        ),
        (
            Refusal::BitRange,
            "refusal 15: from above to, or to past the bytes lent",
        ),
        (
            Refusal::LineTooShort,
            "refusal 16: output below the worst case: 2 bytes for each packet and FCS byte plus 2 flags",
        ),
        (
            Refusal::PacketLength,
            "refusal 17: a packet outside 2 to 19 bytes",
        ),
        (
            Refusal::LongMessageLength,
            "refusal 18: length outside 4,095 to 65,535 bytes",
        ),
        (
            Refusal::LongBufferTooShort,
            "refusal 19: long buffer too short",
        ),
    ];
    for (number, (refusal, words)) in (1..).zip(words) {
        assert_eq!(refusal.number(), number);
        assert_eq!(refusal.to_string(), words);
    }
}

/// What the safe types cannot pass: refusal 3, and a record shorter than it has to be.
#[test]
fn raw_calls() {
    let mut record = [0xAA; SENDER_RECORD];
    let mut list = |bytes: &[u8], room: usize| {
        // SAFETY: both slices are valid for their lengths, and `room` is not above the record's.
        unsafe { ffi::aes18_sender_list(record.as_mut_ptr(), room, bytes.as_ptr(), bytes.len()) }
    };
    assert_eq!(list(&[1, 0, 0], SENDER_RECORD - 1), 255);
    assert_eq!(list(&[1, 2, 0], SENDER_RECORD), 3);
    assert_eq!(list(&[1, 0, 7], SENDER_RECORD), 3);
    assert_eq!(list(&[1, 0, 0], SENDER_RECORD), 0);
}
