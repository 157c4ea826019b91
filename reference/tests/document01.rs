//! The cases that 01 marks [P], the mistakes it names, and values published elsewhere.

use aes18_reference::bits::{bits_of, bytes_of};
use aes18_reference::hdlc::{bodies, fcs, frame, judge, stuff, unstuff, Judged, FLAG};
use aes18_reference::history::History;
use aes18_reference::packet::{
    control, header, listed, packet_count, packets, parse, segments, Circuit, Link, Packet,
};
use aes18_reference::receiver::{Fate, Notice, Receiver};
use aes18_reference::sender::Sender;
use aes18_reference::{RECEIVER_STORE, REGION, SENDER_STORE};

const ONE: Circuit = Circuit {
    address: 1,
    extension: None,
};

/// Bits written as text.
fn bits(text: &str) -> Vec<bool> {
    text.chars().map(|bit| bit == '1').collect()
}

/// The notices of a receiver that lists circuit 01 and reads these bits.
fn notices(receiver: &mut Receiver, store: &mut [u8], bits: &[bool]) -> Vec<Notice> {
    let bytes = bytes_of(bits);
    let (mut from, to, mut notices) = (0, bits.len() as u64, vec![]);
    loop {
        let read = receiver.read(store, &bytes, from, to).unwrap();
        from += read.bits;
        if read.notice == Notice::End {
            return notices;
        }
        notices.push(read.notice);
    }
}

/// What becomes of these packets of circuit 01, each as links, index and segment, one after the other.
fn fates(sent: &[(Link, u8, Vec<u8>)]) -> Vec<(u8, Fate)> {
    let mut stream = FLAG.to_vec();
    for (link, index, segment) in sent {
        let packet = [&[1, control(*link, *index, 0)], &segment[..]].concat();
        stream.extend([&frame(&packet)[..], &FLAG].concat());
    }
    let told = notices(
        &mut Receiver::list(&[1, 0, 0]).unwrap(),
        &mut [0; RECEIVER_STORE],
        &stream,
    );
    let fate = |notice: &Notice| match *notice {
        Notice::Circuit {
            number: 0,
            loss,
            fate,
        } => (loss, fate),
        other => panic!("{other:?}"),
    };
    told.iter().map(fate).collect()
}

#[test]
fn stuffing() {
    assert_eq!(stuff(&bits_of(&[0xFF])), bits("111110111"));
    assert_eq!(stuff(&bits_of(&[0xF8])), bits("000111110"));
    assert_eq!(stuff(&bits_of(&[0x7E])), bits("011111010"));
    assert_eq!(stuff(&bits_of(&[0xFF; 21])).len(), 201);
    assert_eq!(unstuff(&bits("111110111")), bits_of(&[0xFF]));
    assert_eq!(unstuff(&bits("000111110")), bits_of(&[0xF8]));
}

#[test]
fn flags_and_bodies() {
    assert_eq!(bodies(&bits("011111101111110")), vec![]);
    assert_eq!(bodies(&bits("0111111001111110")), vec![8..8]);
    assert_eq!(bodies(&bits("01111110101111110")), vec![8..9]);
    assert_eq!(bodies(&bits("0111111001111111001111110")), vec![]);
    assert_eq!(bodies(&bits("111111001111110")), vec![]);
}

#[test]
fn seven_bits_at_the_start_are_no_flag() {
    let mut history = History::default();
    for bit in bits("1111110") {
        assert_eq!(history.read(bit), None);
    }
    assert_eq!(history.pack()[..3], [1, 0, 0]);
}

/// CRC-16/X-25 and its check value; the frames SABM and UA of ITU-T X.25 appendix I; ISO/IEC 14443-3 annex B.
#[test]
fn published_check_sequences() {
    assert_eq!(fcs(b"123456789"), [0x6E, 0x90]);
    assert_eq!(fcs(&[0x03, 0x3F]), [0x5B, 0xEC]);
    assert_eq!(fcs(&[0x01, 0x73]), [0x83, 0x57]);
    assert_eq!(fcs(&[0x00, 0x00, 0x00]), [0xCC, 0xC6]);
    assert_eq!(fcs(&[0x0F, 0xAA, 0xFF]), [0xFC, 0xD1]);
    assert_eq!(fcs(&[0x0A, 0x12, 0x34, 0x56]), [0x2C, 0xF6]);
}

#[test]
fn losses() {
    let between = |index| (Link::Between, index, vec![0]);
    assert_eq!(fates(&[between(6), between(0)])[1], (1, Fate::Orphan));
    assert_eq!(fates(&[between(3), between(2)])[1], (6, Fate::Orphan));
    assert_eq!(fates(&[between(3), between(3)])[1], (0, Fate::Copy));
}

#[test]
fn headers_and_packets() {
    let counts = [0, 15, 16, 4094].map(packet_count);
    assert_eq!(counts, [1, 1, 2, 256]);
    assert_eq!(
        [0, 15, 16, 4094].map(|length| segments(&vec![0; length]).len()),
        counts
    );
    assert_eq!(
        [header(15), header(16), header(4094)],
        [vec![0x0F], vec![0x10, 0x10], vec![0x1F, 0xFE]]
    );
    assert_eq!(control(Link::First, 5, 2), 0x96);
    let sent = packets(ONE, &[7; 40], 6, 0);
    let controls: Vec<u8> = sent.iter().map(|packet| packet[1]).collect();
    assert_eq!(controls, [0x98, 0x1C, 0x40]);
    assert_eq!(sent.iter().map(Vec::len).collect::<Vec<_>>(), [18, 18, 12]);
}

#[test]
fn listing() {
    assert_eq!(listed(&[1, 0, 0]), Ok(vec![ONE]));
    assert_eq!(listed(&[]), Err(1));
    assert_eq!(listed(&[1, 0]), Err(1));
    assert_eq!(listed(&[1, 2, 0, 0xFF, 0, 0]), Err(2));
    assert_eq!(listed(&[1, 0, 0, 1, 0, 0, 2, 0, 9]), Err(3));
    assert_eq!(listed(&[1, 1, 0, 2, 0, 0, 1, 1, 0]), Err(4));
    assert!(listed(&[1, 1, 0, 1, 0, 0, 1, 1, 1, 2, 0, 0]).is_ok());
}

#[test]
fn malformed_packets() {
    let malformed: [&[u8]; 9] = [
        &[1, 0x80],
        &[1, 0xA0, 7],
        &[1, 0xC0, 0],
        &[0xFF, 0x80, 0],
        &[0xFF, 0xC0],
        &[0xFF, 0xD0, 0],
        &[0xFF, 0xC0, 0x90],
        &[0xFF, 0xC0, 0x01],
        &[1; 19],
    ];
    for packet in malformed {
        assert_eq!(parse(packet), Packet::Malformed, "{packet:x?}");
    }
    let Packet::System(system) = parse(&[0xFF, 0xE5, 0, 0x82, 0x61, 0x62]) else {
        panic!("an extension in a system packet is skipped");
    };
    assert_eq!(
        (system.enable, system.code, system.information),
        (5, 8, &b"ab"[..])
    );
}

#[test]
fn wrong_headers_and_ends() {
    let first = |segment: &[u8]| fates(&[(Link::First, 0, segment.to_vec())])[0].1;
    assert_eq!(first(&[0]), Fate::Whole(0));
    assert_eq!(first(&[0xE1, 9]), Fate::Whole(1));
    assert_eq!(first(&[1]), Fate::Wrong);
    assert_eq!(first(&[0, 9]), Fate::Wrong);
    assert_eq!(first(&[0x10]), Fate::Wrong);
    assert_eq!(first(&[&[0x10, 15][..], &[0; 14]].concat()), Fate::Wrong);
    assert_eq!(first(&[&[0x1F, 0xFF][..], &[0; 14]].concat()), Fate::Wrong);
    assert_eq!(first(&[&[0x10, 16][..], &[0; 14]].concat()), Fate::Begun);
    assert_eq!(first(&[&[0x10, 16][..], &[0; 13]].concat()), Fate::Wrong);
    let begun = (Link::First, 0, [&[0x10, 40][..], &[0; 14]].concat());
    let next = |link, length| fates(&[begun.clone(), (link, 1, vec![0; length])])[1].1;
    assert_eq!(next(Link::Between, 16), Fate::Held);
    assert_eq!(next(Link::Between, 15), Fate::Wrong);
    assert_eq!(next(Link::Last, 16), Fate::Wrong);
    let held = (Link::Between, 1, vec![0; 16]);
    let end = |link, length| fates(&[begun.clone(), held.clone(), (link, 2, vec![0; length])])[2].1;
    assert_eq!(end(Link::Last, 10), Fate::Whole(40));
    assert_eq!(end(Link::Between, 10), Fate::Wrong);
    assert_eq!(end(Link::Between, 16), Fate::Wrong);
}

#[test]
fn a_message_is_not_joined_after_a_loss() {
    let begun = (Link::First, 0, [&[0x10, 20][..], &[0; 14]].concat());
    assert_eq!(
        fates(&[begun, (Link::Last, 2, vec![0; 6])])[1],
        (1, Fate::Orphan)
    );
}

#[test]
fn bodies_that_do_not_pass() {
    assert_eq!(
        judge(&frame(&[1, 0x80, 0])),
        Judged::Packet(vec![1, 0x80, 0])
    );
    assert_eq!(judge(&[false; 31]), Judged::Nothing);
    assert_eq!(judge(&[false; 32]), Judged::Spoilt);
    assert_eq!(judge(&[false; 400]), Judged::Spoilt);
}

/// The zero after five ones that end a frame: without it the body does not pass.
#[test]
fn five_ones_that_end_a_frame() {
    let ends_in_ones =
        |packet: &Vec<u8>| fcs(packet)[1] >= 0xF8 && frame(packet).ends_with(&bits("111110"));
    let packet = (0..=255)
        .map(|byte| vec![1, 0x80, 1, byte])
        .find(ends_in_ones)
        .unwrap();
    let mut body = frame(&packet);
    assert_eq!(judge(&body), Judged::Packet(packet));
    body.pop();
    assert_eq!(judge(&body), Judged::Spoilt);
}

/// Reading bit by bit, with what it forgets, judges the bodies that a search of all the bits finds.
#[test]
fn history_finds_the_bodies() {
    let mut state = 1u32;
    let mut random = |below: u32| {
        state = state.wrapping_mul(1_664_525).wrapping_add(1_013_904_223);
        (state >> 16) % below
    };
    let mut stream = vec![];
    for _ in 0..1000 {
        let (length, ones) = (random(60) * random(50), 1 + random(7));
        stream.extend((0..length).map(|_| random(9) < ones));
        stream.extend(FLAG);
    }
    let found = bodies(&stream);
    assert!(found.iter().any(|body| body.len() > 2000));
    let found: Vec<Judged> = found.into_iter().map(|body| judge(&stream[body])).collect();
    assert!(found.contains(&Judged::Spoilt) && found.contains(&Judged::Nothing));
    let mut history = History::default();
    let closed = stream.iter().filter_map(|bit| history.read(*bit));
    let read: Vec<Judged> = closed.map(|body| judge(&body)).collect();
    assert_eq!(read, found);
}

/// A record's framing is rebuilt from its bytes wherever reading stops, also in a body too long to pass.
#[test]
fn framing_bytes_tell_the_history() {
    let mut stream = [
        &FLAG[..],
        &frame(&[1, 0x80, 2, 0x7E, 0xFF]),
        &FLAG,
        &[false; 5000],
        &[true; 5],
        &[false],
    ]
    .concat();
    stream.extend(bits("1111101111100111111101111110110111110"));
    let mut history = History::default();
    for bit in stream {
        history.read(bit);
        let again = History::unpack(&history.pack()).expect("bits left it");
        assert_eq!(again.pack(), history.pack());
    }
}

#[test]
fn framings_that_no_bits_leave() {
    let framing = |start: &[u8]| {
        let mut bytes = [0; 24];
        bytes[..start.len()].copy_from_slice(start);
        History::unpack(&bytes).is_some()
    };
    for start in [
        &[0][..],
        &[1, 6],
        &[2, 6],
        &[3, 6, 168],
        &[3, 0, 169],
        &[4, 0, 169],
        &[4, 2, 5, 31],
        &[3, 0, 0],
        &[3, 0, 5, 31],
    ] {
        assert!(framing(start), "{start:?}");
    }
    for start in [
        &[0, 1][..],
        &[0, 0, 1],
        &[1, 7],
        &[1, 0, 1],
        &[2, 0, 1],
        &[3, 7],
        &[3, 0, 170],
        &[3, 0, 169, 1],
        &[3, 0, 2, 4],
    ] {
        assert!(!framing(start), "{start:?}");
    }
    for start in [
        &[4, 0, 0][..],
        &[4, 0, 4, 15],
        &[4, 0, 6, 63],
        &[4, 0, 5, 30],
        &[5],
        &[255, 255, 255, 255],
    ] {
        assert!(!framing(start), "{start:?}");
    }
}

/// The index runs on from message to message; copies are alike; what a receiver gets is what was sent.
#[test]
fn a_pass() {
    let mut sender = Sender::list(&[1, 0, 0, 2, 1, 7]).unwrap();
    let mut receiver = Receiver::list(&[2, 1, 7, 1, 0, 0]).unwrap();
    let (mut sent, mut heard) = ([0; SENDER_STORE], [0; RECEIVER_STORE]);
    let mut wholes = vec![];
    for length in [0usize, 15, 16, 200, 4094] {
        let message: Vec<u8> = (0..length).map(|at| (at * 7) as u8).collect();
        sender.offer(&mut sent, 1, 2, 1, &message).unwrap();
        let mut block = [0; 3375];
        while sender
            .block(&sent, 27_000, 27_000, None, &mut block)
            .unwrap()
            .placed()
            > 0
        {
            for notice in notices(&mut receiver, &mut heard, &bits_of(&block)) {
                let Notice::Circuit {
                    number: 0,
                    loss: 0,
                    fate,
                } = notice
                else {
                    panic!("{notice:?}");
                };
                if let Fate::Whole(length) = fate {
                    assert_eq!(heard[..length], message);
                    wholes.push(length);
                }
            }
        }
    }
    assert_eq!(wholes, [0, 15, 16, 200, 4094]);
    assert_eq!(heard[REGION..], [0; RECEIVER_STORE - REGION]);
}
