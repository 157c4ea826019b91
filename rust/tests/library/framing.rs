//! The framing alone: bodies of every kind, bits cut anywhere, refusals, the packet behind a receiver's notice, and records of any bytes.

use aes18::{ffi, Framing, Notice, Receiver, Refusal, Stop};
use aes18::{FRAMING_RECORD, LONGEST_PACKET, RECEIVER_STORE, SHORTEST_PACKET};

use super::frames::{bits_of, bytes_of, framed, plain};

/// The bits of a flag.
fn flag() -> Vec<bool> {
    bits_of(&[0x7E])
}

/// Packets of every length, of bytes that stuff much and bytes that do not.
fn packets() -> Vec<Vec<u8>> {
    let values = [0xFF, 0x00, 0x7E, 0xF8, 0xFF, 0xFF, 0x1F, 0x3F, 0x80, 0x55];
    let mut values = values.into_iter().cycle();
    let mut packet = |length| values.by_ref().take(length).collect();
    (SHORTEST_PACKET..=LONGEST_PACKET)
        .map(&mut packet)
        .collect()
}

/// Frames of all these packets, sharing flags.
fn all_framed(packets: &[Vec<u8>]) -> Vec<bool> {
    let packets: Vec<&[u8]> = packets.iter().map(Vec::as_slice).collect();
    framed(&packets)
}

/// What a framing stops at in bits read up to each of these ends, with the place behind each.
fn read_on(framing: &mut Framing, bits: &[bool], ends: &[u64]) -> Vec<(u64, Stop)> {
    let bytes = bytes_of(bits);
    let mut told = Vec::new();
    let mut from = 0;
    for to in ends {
        loop {
            let read = framing.read(&bytes, from, *to).unwrap();
            from += read.bits;
            match read.stop {
                Stop::End => break,
                stop => told.push((from, stop)),
            }
        }
        assert_eq!(from, *to);
    }
    told
}

/// What a fresh framing stops at in bits given at once.
fn read(bits: &[bool]) -> Vec<Stop> {
    let told = read_on(&mut Framing::new(), bits, &[bits.len() as u64]);
    told.into_iter().map(|(_, stop)| stop).collect()
}

/// The bytes of the packets among what a framing stopped at.
fn packets_of(stops: &[Stop]) -> Vec<Vec<u8>> {
    let packet = |stop: &Stop| match stop {
        Stop::Packet(packet) => Some(packet.to_vec()),
        _ => None,
    };
    stops.iter().filter_map(packet).collect()
}

/// Packets of every length, and a torn one behind them, come from bits cut in two at any place and in parts of any length, each at the same bit.
#[test]
fn bits_may_be_cut_anywhere() {
    let mut bits = all_framed(&[packets(), vec![b"torn".to_vec()]].concat());
    let torn = bits.len() - 20;
    bits[torn] = !bits[torn];
    let end = bits.len() as u64;
    let whole = read_on(&mut Framing::new(), &bits, &[end]);
    let stops: Vec<Stop> = whole.iter().map(|(_, stop)| *stop).collect();
    assert_eq!(stops.last(), Some(&Stop::Spoilt));
    assert_eq!(packets_of(&stops), packets());
    for step in 1..=end {
        let told = read_on(&mut Framing::new(), &bits, &[step, end]);
        assert_eq!(told, whole, "cut behind {step} bits");
    }
    for step in [1, 2, 7, 8, 9, 63, 64, 65, 131] {
        let ends: Vec<u64> = (1..end).filter(|at| at % step == 0).chain([end]).collect();
        let told = read_on(&mut Framing::new(), &bits, &ends);
        assert_eq!(told, whole, "{step} bits at a time");
    }
}

/// What stands between two flags and is no packet: spoilt from 32 unstuffed bits on, and nothing below or where seven ones void it.
#[test]
fn bodies_that_do_not_pass() {
    let body = |bits: &[bool]| read(&[&flag(), bits, &flag()].concat());
    let zeros = [false; 300];
    for length in [0, 1, 8, 31] {
        assert_eq!(body(&zeros[..length]), [], "{length} bits");
    }
    for length in [32, 33, 40, 168, 169, 176, 300] {
        assert_eq!(body(&zeros[..length]), [Stop::Spoilt], "{length} bits");
    }
    let packet = |length| read(&framed(&[&vec![0x41; length]]));
    assert_eq!([packet(0), packet(1)], [[], []]);
    assert_eq!(packet(LONGEST_PACKET + 1), [Stop::Spoilt]);
    let right = framed(&[b"abc"]);
    let void = [&right[..20], &[true; 7], &right[20..]].concat();
    assert_eq!(read(&void), []);
    assert_eq!(packets_of(&read(&[void, right].concat())), [b"abc"]);
}

/// A body whose last five ones lack the 0 behind them does not pass; with it, it does.
#[test]
fn five_ones_at_the_end() {
    let ends_in_ones = |packet: &Vec<u8>| {
        let bits = framed(&[packet]);
        bits[bits.len() - 14..bits.len() - 8] == [true, true, true, true, true, false]
    };
    let mut packets = (0..=u16::MAX).map(|number| number.to_le_bytes().to_vec());
    let packet = packets.find(ends_in_ones).unwrap();
    let mut bits = framed(&[&packet]);
    assert_eq!(packets_of(&read(&bits)), [&packet[..]]);
    bits.remove(bits.len() - 9);
    assert_eq!(read(&bits), [Stop::Spoilt]);
}

/// Flags may share their 0, stand in a row or stand behind noise; six ones at the start of all bits are no flag.
#[test]
fn flags() {
    let right = framed(&[b"abc"]);
    let shared = [&flag(), &right[1..], &flag()[1..], &right[1..]].concat();
    assert_eq!(packets_of(&read(&shared)), [b"abc", b"abc"]);
    let noise = [&bits_of(&[0x12, 0xFF, 0xFF, 0x01]), &flag()[..], &right].concat();
    assert_eq!(packets_of(&read(&noise)), [b"abc"]);
    assert_eq!(read(&right[1..]), []);
    assert_eq!(
        packets_of(&read(&[&[false], &right[1..]].concat())),
        [b"abc"]
    );
}

#[test]
fn a_fresh_framing() {
    let mut framing = Framing::new();
    assert_eq!(framing, Framing::default());
    assert_eq!(framing.as_bytes(), &[0; FRAMING_RECORD]);
    let read = framing.read(&[], 0, 0).unwrap();
    assert_eq!((read.stop, read.bits), (Stop::End, 0));
    let read = framing.read(&[0xFF; 5], 3, 38).unwrap();
    assert_eq!((read.stop, read.bits), (Stop::End, 35));
    assert_eq!(framing, Framing::new());
}

/// A read tells of one body and stops behind it; the bits behind it are the next call's.
#[test]
fn one_body_for_each_read() {
    let bits = framed(&[b"one", b"two"]);
    let (bytes, end) = (bytes_of(&bits), bits.len() as u64);
    let mut framing = Framing::new();
    let first = framing.read(&bytes, 0, end).unwrap();
    assert_eq!(first.bits, framed(&[b"one"]).len() as u64);
    assert_eq!(packets_of(&[first.stop]), [b"one"]);
    let mut behind_flag = [0; FRAMING_RECORD];
    behind_flag[0] = 2;
    assert_eq!(framing.as_bytes(), &behind_flag);
    let second = framing.read(&bytes, first.bits, end).unwrap();
    assert_eq!(packets_of(&[second.stop]), [b"two"]);
    assert_eq!(first.bits + second.bits, end);
}

/// A copy of a receiver's framing that reads what a call of the receiver read has the packet behind the notice, and stands where the receiver does.
#[test]
fn the_packet_behind_a_notice() {
    let packets = [
        &b"\x01\x80\x01a"[..],
        b"\x07\x80\x01b",
        b"\xFF\xC0\x00",
        b"\x01\x84",
    ];
    let mut bits = framed(&packets);
    bits.extend(&framed(&[b"torn"])[8..]);
    let torn = bits.len() - 20;
    bits[torn] = !bits[torn];
    let (bytes, end) = (bytes_of(&bits), bits.len() as u64);
    for step in [1, 5, 40, end] {
        let mut receiver = Receiver::list(&[plain(0x01)]).unwrap();
        let mut store = vec![0; RECEIVER_STORE];
        let (mut from, mut told, mut notices) = (0, vec![], vec![]);
        while from < end {
            let mut framing = receiver.framing();
            let to = end.min(from + step);
            let read = receiver.read(&mut store, &bytes, from, to).unwrap();
            let again = framing.read(&bytes, from, from + read.bits).unwrap();
            assert_eq!(again.bits, read.bits);
            assert_eq!(framing, receiver.framing());
            assert_eq!(again.stop == Stop::End, read.notice == Notice::End);
            assert_eq!(again.stop == Stop::Spoilt, read.notice == Notice::Spoilt);
            from += read.bits;
            told.push(again.stop);
            notices.push(read.notice);
        }
        assert_eq!(packets_of(&told), packets, "{step} bits at a time");
        assert!(notices.contains(&Notice::Spoilt) && notices.contains(&Notice::Elsewhere));
    }
}

/// The framing with these bytes at its start and 0 behind them.
fn framing(start: &[u8]) -> Framing {
    let mut record = [0; FRAMING_RECORD];
    record[..start.len()].copy_from_slice(start);
    Framing::from_bytes(record)
}

/// Framings at the edge of what bits leave, and beside each one that they do not.
#[test]
fn framings_in_range_and_out_of_it() {
    let inside: [&[u8]; 10] = [
        &[0],
        &[1, 6],
        &[2, 6],
        &[3, 0, 0],
        &[3, 6, 169],
        &[3, 0, 1, 1],
        &[4, 0, 5, 0x1F],
        &[4, 6, 10, 0xFF, 0x03],
        &[4, 0, 6, 0x3E],
        &[4, 6, 169],
    ];
    for start in inside {
        let mut framing = framing(start);
        assert_eq!(framing.read(&[0x55], 0, 8).unwrap().bits, 8, "{start:?}");
    }
    let outside: [&[u8]; 14] = [
        &[5],
        &[255],
        &[0, 1],
        &[0, 0, 1],
        &[1, 7],
        &[1, 0, 1],
        &[2, 0, 1],
        &[2, 0, 0, 1],
        &[3, 0, 170],
        &[3, 0, 0, 1],
        &[3, 0, 169, 1],
        &[4, 0, 0],
        &[4, 0, 6, 0x3F],
        &[4, 0, 5, 0x0F],
    ];
    for start in outside {
        let mut framing = framing(start);
        let before = framing;
        let read = framing.read(&[0x55], 0, 8);
        assert_eq!(read.err(), Some(Refusal::RecordOutOfRange), "{start:?}");
        assert_eq!(framing, before);
    }
}

/// 14 is looked at before 15; a refused read changes nothing.
#[test]
fn refusals() {
    let ranges = [
        (1, 0),
        (0, 17),
        (17, 17),
        (u64::MAX, u64::MAX),
        (9, 8),
        (0, u64::MAX),
    ];
    for (from, to) in ranges {
        for (start, refusal) in [
            (&[1, 3][..], Refusal::BitRange),
            (&[1, 7], Refusal::RecordOutOfRange),
        ] {
            let mut framing = framing(start);
            let before = framing;
            let read = framing.read(&[0x7E, 0x7E], from, to);
            assert_eq!(read.err(), Some(refusal), "{from} to {to}");
            assert_eq!(framing, before);
        }
    }
    let mut framing = framing(&[1, 3]);
    assert_eq!(framing.read(&[0x7E, 0x7E], 16, 16).unwrap().bits, 0);
    assert_eq!(framing.read(&[], 0, 1).err(), Some(Refusal::BitRange));
}

/// What the safe type cannot pass: a framing, a packet's place or an answer that is too short, which comes before all else, or longer than it has
/// to be.
#[test]
fn raw_reads() {
    let bits = bytes_of(&framed(&[b"abc"]));
    let (mut framing, mut packet, mut answer) = ([0; 30], [0xAA; 25], [0xAA; 20]);
    framing[24..].fill(0xAA);
    let mut read = |[framing_len, packet_len, answer_len]: [usize; 3], from: u64| {
        // SAFETY: the bits are a slice; the other arrays are valid for these lengths, which are not above theirs, and overlap nothing.
        unsafe {
            ffi::aes18_framing_read(
                framing.as_mut_ptr(),
                framing_len,
                bits.as_ptr(),
                bits.len(),
                from,
                8 * bits.len() as u64,
                packet.as_mut_ptr(),
                packet_len,
                answer.as_mut_ptr(),
                answer_len,
            )
        }
    };
    for lengths in [[23, 19, 16], [24, 18, 16], [24, 19, 15], [0, 0, 0]] {
        assert_eq!(read(lengths, 0), 255);
        assert_eq!(read(lengths, u64::MAX), 255);
    }
    assert_eq!(read([24, 19, 16], u64::MAX), 15);
    assert_eq!(read([30, 25, 20], 0), 0);
    assert_eq!((framing[0], &framing[24..]), (2, &[0xAA; 6][..]));
    assert_eq!((&packet[..3], &packet[3..]), (&b"abc"[..], &[0xAA; 22][..]));
    assert_eq!(answer[..8], [2, 3, 0, 0, 0, 0, 0, 0]);
    assert_eq!(
        answer[8..16],
        (framed(&[b"abc"]).len() as u64).to_le_bytes()
    );
    assert_eq!(answer[16..], [0xAA; 4]);
}
