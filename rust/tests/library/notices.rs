//! Every notice and every fate, from frames made by hand.

use aes18::{Circuit, Fate, Notice, Receiver, RECEIVER_STORE, REGION, SYSTEM_PLACE};

use super::frames::{bytes_of, framed, plain};

/// Links of a packet's control byte.
const FIRST: u8 = 0b1000_0000;
const LAST: u8 = 0b0100_0000;
const BETWEEN: u8 = 0;
const SYSTEM: u8 = 0b1100_0000;
const EXTENDED: u8 = 0b0010_0000;

/// A packet of address 01: its control byte with link and index, and its segment.
fn packet(link: u8, index: u8, segment: &[u8]) -> Vec<u8> {
    [&[0x01, link | index << 2], segment].concat()
}

/// The notices of packets, read from a fresh receiver, and its store.
fn notices(packets: &[Vec<u8>]) -> (Vec<Notice>, Vec<u8>) {
    let packets: Vec<&[u8]> = packets.iter().map(Vec::as_slice).collect();
    read(&framed(&packets))
}

/// The notices of bits before End, read from a fresh receiver that lists 01 and 02:07, and its store.
fn read(bits: &[bool]) -> (Vec<Notice>, Vec<u8>) {
    let extended = Circuit {
        address: 0x02,
        extension: Some(0x07),
    };
    let mut receiver = Receiver::list(&[plain(0x01), extended]).unwrap();
    let mut store = vec![0xAA; RECEIVER_STORE];
    let mut notices = Vec::new();
    let bytes = bytes_of(bits);
    let mut from = 0;
    loop {
        let to = bits.len() as u64;
        let read = receiver.read(&mut store, &bytes, from, to).unwrap();
        from += read.bits;
        if read.notice == Notice::End {
            assert_eq!(from, to);
            return (notices, store);
        }
        notices.push(read.notice);
    }
}

/// A notice of circuit 0.
fn told(loss: u8, fate: Fate) -> Notice {
    Notice::Circuit {
        number: 0,
        loss,
        fate,
    }
}

#[test]
fn a_message_in_one_packet() {
    let (notices, store) = notices(&[packet(FIRST, 5, b"\x03abc")]);
    assert_eq!(notices, [told(0, Fate::Whole(3))]);
    assert_eq!(notices[0].message(&store), Some(&b"abc"[..]));
    assert_eq!(notices[0].information(&store), None);
    assert!(store[3..].iter().all(|byte| *byte == 0xAA));
}

#[test]
fn a_message_in_three_packets_with_a_copy() {
    let message: Vec<u8> = (1..=40).collect();
    let segments = [&[0x10, 40], &message[..]].concat();
    let (notices, store) = notices(&[
        packet(FIRST, 6, &segments[..16]),
        packet(BETWEEN, 7, &segments[16..32]),
        packet(BETWEEN, 7, &segments[16..32]),
        packet(LAST, 0, &segments[32..]),
    ]);
    let fates = [Fate::Begun, Fate::Held, Fate::Copy, Fate::Whole(40)];
    assert_eq!(notices, fates.map(|fate| told(0, fate)));
    assert_eq!(notices[3].message(&store), Some(&message[..]));
    assert_eq!(notices[1].message(&store), None);
}

#[test]
fn losses_and_an_orphan() {
    let (notices, _) = notices(&[
        packet(
            FIRST,
            6,
            &[0x10, 40, 1, 2, 3, 4, 5, 6, 7, 8, 9, 10, 11, 12, 13, 14],
        ),
        packet(LAST, 0, &[1; 10]),
        packet(FIRST, 7, b"\x00"),
    ]);
    let fates = [
        told(0, Fate::Begun),
        told(1, Fate::Orphan),
        told(6, Fate::Whole(0)),
    ];
    assert_eq!(notices, fates);
}

#[test]
fn wrong_lengths() {
    let (notices, _) = notices(&[
        packet(FIRST, 0, b"\x03ab"),
        packet(FIRST, 1, b"\x10"),
        packet(FIRST, 2, &[0x10, 15]),
        packet(FIRST, 3, &[0x1F, 0xFF]),
    ]);
    assert_eq!(notices, [told(0, Fate::Wrong); 4]);
}

#[test]
fn other_circuits() {
    let (notices, store) = notices(&[
        b"\x03\x80\x00".to_vec(),
        b"\x02\x80\x00".to_vec(),
        [&[0x02, FIRST | EXTENDED, 0x07], &b"\x02on"[..]].concat(),
    ]);
    let whole = Notice::Circuit {
        number: 1,
        loss: 0,
        fate: Fate::Whole(2),
    };
    assert_eq!(notices, [Notice::Elsewhere, Notice::Elsewhere, whole]);
    assert_eq!(whole.message(&store), Some(&b"on"[..]));
    assert_eq!(store[REGION..REGION + 3], *b"on\xAA");
}

#[test]
fn a_system_packet() {
    let packet = [&[0xFF, SYSTEM | 0b0101, 0x86], &b"sunlit"[..]].concat();
    let (notices, store) = notices(&[packet]);
    let system = Notice::System {
        enable: 0b0101,
        code: 8,
        length: 6,
    };
    assert_eq!(notices, [system]);
    assert_eq!(system.information(&store), Some(&b"sunlit"[..]));
    assert_eq!(system.message(&store), None);
    assert_eq!(store[SYSTEM_PLACE..SYSTEM_PLACE + 7], *b"sunlit\xAA");
}

#[test]
fn malformed_packets() {
    let (notices, _) = notices(&[
        packet(FIRST, 0, &[]),
        packet(FIRST, 0, &[0; 17]),
        packet(SYSTEM, 0, &[0]),
        vec![0xFF, FIRST, 0],
        vec![0xFF, SYSTEM, 0x90],
        vec![0xFF, SYSTEM, 0x01],
    ]);
    assert_eq!(notices, [Notice::Malformed; 6]);
}

#[test]
fn a_torn_bit() {
    let mut bits = framed(&[b"\x01\x80\x03abc"]);
    bits[30] = !bits[30];
    assert_eq!(read(&bits).0, [Notice::Spoilt]);
}

/// Seven ones void a body, and one that unstuffs to fewer than 32 bits tells nothing.
#[test]
fn bodies_without_a_notice() {
    let mut void = framed(&[b"\x01\x80\x03abc"]);
    void.splice(30..30, [true; 7]);
    assert_eq!(read(&void).0, []);
    let mut short = framed(&[b"\x01\x80\x03abc"]);
    short.drain(30..64);
    assert_eq!(read(&short).0, []);
}

/// Where the store is shorter than the notice asks for, there is no message and no information.
#[test]
fn a_store_too_short_for_the_notice() {
    let whole = told(0, Fate::Whole(3));
    assert_eq!(whole.message(&[1, 2]), None);
    assert_eq!(whole.message(&[1, 2, 3]), Some(&[1, 2, 3][..]));
    let system = Notice::System {
        enable: 0,
        code: 0,
        length: 1,
    };
    assert_eq!(system.information(&[0; SYSTEM_PLACE]), None);
}
