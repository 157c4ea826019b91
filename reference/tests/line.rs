//! The serial line of the change requests' "Ask 3", by its words.

use aes18_reference::calls::{line_read, line_write, TOO_SHORT};
use aes18_reference::hdlc::fcs;
use aes18_reference::line::{self, frame, judge, packets, Judged, LINE_RECORD};

const FRESH: [u8; LINE_RECORD] = [0; LINE_RECORD];
/// A packet of which every byte is escaped, and so is its FCS.
const ALL_ESCAPED: [u8; 19] = [
    0x7E, 0x7E, 0x7E, 0x7E, 0x7E, 0x7E, 0x7D, 0x7E, 0x7D, 0x7E, 0x7D, 0x7E, 0x7D, 0x7D, 0x7D, 0x7D,
    0x7D, 0x7D, 0x7E,
];

/// A packet with its FCS, not escaped.
fn with_fcs(packet: &[u8]) -> Vec<u8> {
    [packet, &fcs(packet)].concat()
}

/// The bytes between two flags, as they are.
fn between_flags(bytes: &[u8]) -> Vec<u8> {
    [&[0x7E][..], bytes, &[0x7E]].concat()
}

/// Packets of every length, plain and full of bytes to escape; and some with 7E or 7D in either byte of the FCS.
fn some_packets() -> Vec<Vec<u8>> {
    let fcs_escaped = [
        ([0x01, 0x4D], [0x7E, 0x8F]),
        ([0x00, 0x52], [0xD0, 0x7E]),
        ([0x00, 0x57], [0x7D, 0x29]),
        ([0x00, 0x61], [0xC8, 0x7D]),
        ([0x28, 0x18], [0x7D, 0x7E]),
        ([0x83, 0xF2], [0x7E, 0x7D]),
    ];
    let mut list = vec![ALL_ESCAPED.to_vec()];
    for (packet, sent) in fcs_escaped {
        assert_eq!(fcs(&packet), sent);
        list.push(packet.to_vec());
    }
    for length in 2..=19 {
        list.extend([0x00, 0x11, 0x5D, 0x5E, 0x7D, 0x7E, 0xFF].map(|byte| vec![byte; length]));
        list.push((0..length as u8).collect());
    }
    list
}

/// Reads all of a line in pieces of at most so many bytes: the packets.
fn read_in_pieces(line: &[u8], longest: usize) -> Vec<Vec<u8>> {
    let mut record = FRESH;
    let mut list = vec![];
    for mut piece in line.chunks(longest) {
        while !piece.is_empty() {
            let read = line::read(&mut record, piece);
            list.extend(read.packet);
            piece = &piece[read.bytes..];
        }
    }
    list
}

#[test]
fn frames_by_hand() {
    assert_eq!(frame(b"123456789"), between_flags(b"123456789\x6E\x90"));
    let escaped = [0x7D, 0x5E, 0x7D, 0x5D, 0xF1, 0xCD];
    assert_eq!(frame(&[0x7E, 0x7D]), between_flags(&escaped));
    let fcs_escaped = [0x28, 0x18, 0x7D, 0x5D, 0x7D, 0x5E];
    assert_eq!(frame(&[0x28, 0x18]), between_flags(&fcs_escaped));
    let controls = [0x00, 0x11, 0x13, 0x1F, 0xFF];
    assert_eq!(frame(&controls), between_flags(&with_fcs(&controls)));
}

#[test]
fn the_worst_case() {
    let written = frame(&ALL_ESCAPED);
    assert_eq!(written.len(), 44);
    assert_eq!(written.len(), line::worst_case(ALL_ESCAPED.len()));
    let body = &written[1..43];
    assert!(body.chunks(2).all(|pair| pair[0] == 0x7D));
    for packet in some_packets() {
        assert!(frame(&packet).len() <= line::worst_case(packet.len()));
    }
}

#[test]
fn lists_are_read_back() {
    let list = some_packets();
    let line: Vec<u8> = list.iter().flat_map(|packet| frame(packet)).collect();
    assert_eq!(packets(&line), list);
    for longest in [1, 2, 3, 7, 50, line.len()] {
        assert_eq!(read_in_pieces(&line, longest), list, "{longest}");
    }
    assert_eq!(packets(&[]), [] as [Vec<u8>; 0]);
}

#[test]
fn bytes_before_the_first_flag() {
    let packet = [0x28, 0x18];
    let noises: [&[u8]; 4] = [&[0x7D], &[1, 2, 3], &[0x7D; 3], &with_fcs(&[1, 2])];
    for noise in noises {
        assert_eq!(packets(&[noise, &frame(&packet)].concat()), [packet]);
        let mut record = FRESH;
        let read = line::read(&mut record, noise);
        assert_eq!((read.packet, read.bytes), (None, noise.len()));
        assert_eq!(record, FRESH);
    }
}

/// Every string of up to five of some bytes.
fn short_strings() -> Vec<Vec<u8>> {
    let mut strings = vec![vec![]];
    for length in 0..5 {
        let longest = strings.iter().filter(|string| string.len() == length);
        let longer = longest.flat_map(|string| {
            [0x7E, 0x7D, 0x00, 0x41].map(|byte| [&string[..], &[byte]].concat())
        });
        strings.extend(longer.collect::<Vec<_>>());
    }
    strings
}

/// After any bytes, what follows the next flag is read as behind a first one.
#[test]
fn every_flag_starts_anew() {
    let right = frame(&[0x41, 0x7E, 0x7D]);
    let unclosed = &right[..right.len() - 1];
    let starts = short_strings().into_iter();
    for start in starts.flat_map(|end| [[unclosed, &end].concat(), end]) {
        let behind = [&start[..], &[0x7E]].concat();
        let whole = [packets(&behind), vec![vec![0x41, 0x7E, 0x7D]]].concat();
        let line = [&start[..], &right].concat();
        assert_eq!(packets(&line), whole, "{start:02x?}");
        assert_eq!(read_in_pieces(&line, 1), whole, "{start:02x?}");
    }
}

/// The opening flag of a line may close a frame that stood before it.
#[test]
fn an_opening_flag_closes() {
    let first = frame(&[1, 2, 3]);
    let line = [&first[..first.len() - 1], &frame(&[4, 5])].concat();
    assert_eq!(packets(&line), [vec![1, 2, 3], vec![4, 5]]);
}

#[test]
fn a_flag_behind_an_escape() {
    let packet = [0x10, 0x5E];
    let sent = fcs(&packet);
    let taken_for_5e = [0x10, 0x7D, 0x7E, sent[0], sent[1]];
    assert_eq!(packets(&between_flags(&taken_for_5e)), [] as [Vec<u8>; 0]);
    let right = with_fcs(&packet);
    let escape_behind = [&right[..], &[0x7D]].concat();
    assert_eq!(judge(&right), Judged::Packet(packet.to_vec()));
    assert_eq!(judge(&escape_behind), Judged::Escape);
    let line = [between_flags(&escape_behind), right, vec![0x7E]].concat();
    assert_eq!(packets(&line), [packet]);
}

/// 7D 7D 7E is 5D and a flag, and any other byte behind an escape is exclusive-ored with 20 hex too.
#[test]
fn escaped_bytes() {
    let packet = [0x30, 0xD3];
    assert_eq!(fcs(&packet), [0xF3, 0x5D]);
    let escaped = [0x30, 0xD3, 0xF3, 0x7D, 0x7D];
    assert_eq!(packets(&between_flags(&escaped)), [packet]);
    assert_eq!(judge(&[&escaped[..], &[0x7D]].concat()), Judged::Escape);
    for byte in (0..=255).filter(|byte| *byte != 0x7E) {
        let turned = [0x41, byte ^ 0x20, 0x42];
        assert_eq!(line::unescaped(&[0x41, 0x7D, byte, 0x42]), turned);
    }
}

#[test]
fn flags_in_a_row() {
    assert_eq!(judge(&[]), Judged::Nothing);
    let line = [vec![0x7E; 5], frame(&[1, 2]), vec![0x7E; 3], frame(&[3, 4])].concat();
    assert_eq!(packets(&line), [[1, 2], [3, 4]]);
}

#[test]
fn shared_flags() {
    let line = [
        &frame(&[1, 2])[..],
        &frame(&[3, 4])[1..],
        &frame(&[5, 6])[1..],
    ]
    .concat();
    assert_eq!(packets(&line), [[1, 2], [3, 4], [5, 6]]);
}

#[test]
fn dropped_for_their_length() {
    assert_eq!(judge(&[0x00, 0x00]), Judged::Length);
    for length in [0, 1, 20, 21, 100] {
        let bytes = with_fcs(&vec![0x41; length]);
        assert_eq!(judge(&bytes), Judged::Length, "{length}");
        assert_eq!(
            read_in_pieces(&between_flags(&bytes), 9),
            [] as [Vec<u8>; 0]
        );
    }
    for length in [2, 19] {
        let packet = vec![0x41; length];
        assert_eq!(judge(&with_fcs(&packet)), Judged::Packet(packet));
    }
}

#[test]
fn dropped_for_their_fcs() {
    assert_eq!(judge(&[0x41]), Judged::Fcs);
    let right = with_fcs(b"a packet");
    for at in 0..8 * right.len() {
        let mut wrong = right.clone();
        wrong[at / 8] ^= 1 << (at % 8);
        assert!(!matches!(judge(&wrong), Judged::Packet(_)), "bit {at}");
    }
    let mut swapped = right;
    swapped.swap(8, 9);
    assert_eq!(judge(&swapped), Judged::Fcs);
}

#[test]
fn cut_at_every_byte() {
    let packet = [0x7E, 0x00, 0x7D, 0x5D];
    let line = [
        &[0x7D, 9][..],
        &frame(&packet),
        &frame(&ALL_ESCAPED)[1..],
        &[0x41, 0x7D],
        &frame(&packet),
        &[0x41; 40],
        &frame(&[0x28, 0x18]),
    ]
    .concat();
    let list = packets(&line);
    assert_eq!(list, [&packet[..], &ALL_ESCAPED, &packet, &[0x28, 0x18]]);
    for cut in 0..=line.len() {
        let (mut record, mut told) = (FRESH, vec![]);
        for mut part in [&line[..cut], &line[cut..]] {
            while !part.is_empty() {
                let read = line::read(&mut record, part);
                told.extend(read.packet);
                part = &part[read.bytes..];
            }
        }
        assert_eq!(told, list, "{cut}");
    }
}

/// The record behind some bytes, read from a record.
fn left(mut record: [u8; LINE_RECORD], line: &[u8]) -> [u8; LINE_RECORD] {
    line::read(&mut record, line);
    record
}

/// A record with these bytes at its start, and this one behind them.
fn record(start: &[u8], behind: u8) -> [u8; LINE_RECORD] {
    std::array::from_fn(|at| start.get(at).copied().unwrap_or(behind))
}

#[test]
fn records_behind_a_fresh_one() {
    assert_eq!(left(FRESH, &[]), FRESH);
    assert_eq!(left(FRESH, &[0x41, 0x7D]), FRESH);
    assert_eq!(left(FRESH, &[0x7E]), record(&[1], 0));
    let kept = [0x7E, 0x41, 0x7D, 0x5E, 0x7D];
    assert_eq!(left(FRESH, &kept), record(&[1, 1, 2, 0x41, 0x7E], 0));
    let many = |count| [vec![0x7E], vec![0x41; count]].concat();
    assert_eq!(left(FRESH, &many(21)), record(&[1, 0, 21], 0x41));
    assert_eq!(left(FRESH, &many(22)), record(&[1, 0, 22], 0));
    assert_eq!(left(FRESH, &many(300)), record(&[1, 0, 22], 0));
    assert_eq!(left(FRESH, &frame(&[1, 2])), record(&[1], 0));
}

#[test]
fn records_of_any_bytes() {
    let outside = record(&[0, 7, 9], 0xEE);
    assert_eq!(left(outside, &[0x41, 0x7D]), record(&[0, 1, 9], 0xEE));
    assert_eq!(left(outside, &[0x7E]), record(&[1], 0));
    let inside = record(&[5, 0, 1, 0x41], 0xEE);
    assert_eq!(left(inside, &[]), record(&[1, 0, 1, 0x41], 0xEE));
    assert_eq!(left(inside, &[0x42]), record(&[1, 0, 2, 0x41, 0x42], 0xEE));
    assert_eq!(left(inside, &[0x42; 21]), record(&[1, 0, 22], 0));
    assert_eq!(left(inside, &[0x7E, 0x42]), record(&[1, 0, 1, 0x42], 0));
    let many = record(&[1, 200, 99], 0xEE);
    assert_eq!(left(many, &[]), record(&[1, 1, 99], 0xEE));
    assert_eq!(left(many, &[0x41]), record(&[1, 0, 22], 0));
    assert_eq!(
        left(record(&[1, 0, 99], 0xEE), &[0x7D]),
        record(&[1, 1, 99], 0xEE)
    );
    assert_eq!(left(many, &[0x7E]), record(&[1], 0));
}

/// Bytes that a record holds make a packet with those read; 22 of them or more make none, and neither do those of no flag.
#[test]
fn packets_out_of_records() {
    let held = |start: [u8; 3]| record(&[&start[..], &with_fcs(&[0x7E, 0x7D])].concat(), 0);
    let packet = |mut record| line::read(&mut record, &[0x7E]).packet;
    assert_eq!(packet(held([1, 0, 4])), Some(vec![0x7E, 0x7D]));
    assert_eq!(packet(held([9, 0, 4])), Some(vec![0x7E, 0x7D]));
    for other in [
        [0, 0, 4],
        [1, 1, 4],
        [1, 0, 3],
        [1, 0, 5],
        [1, 0, 22],
        [1, 0, 255],
    ] {
        assert_eq!(packet(held(other)), None, "{other:?}");
    }
}

#[test]
fn the_writing_call() {
    let packet = [0x7E, 0x41, 0x42];
    let mut answer = [0xAA; 9];
    for length in [0, 1, 20, 25] {
        for room in [0, 60] {
            let mut line = vec![0xBB; room];
            assert_eq!(line_write(&vec![7; length], &mut line, &mut answer), 17);
            assert_eq!(line, vec![0xBB; room]);
        }
    }
    let mut line = [0xBB; 13];
    assert!(frame(&packet).len() < 11);
    assert_eq!(line_write(&packet, &mut line[..11], &mut answer), 16);
    assert_eq!(line_write(&packet, &mut line, &mut answer[..7]), TOO_SHORT);
    assert_eq!(line_write(&[7], &mut [], &mut answer[..7]), TOO_SHORT);
    assert_eq!((line, answer), ([0xBB; 13], [0xAA; 9]));
    assert_eq!(line_write(&packet, &mut line[..12], &mut answer), 0);
    assert_eq!(answer, [8, 0, 0, 0, 0, 0, 0, 0, 0xAA]);
    assert_eq!(line[..8], frame(&packet));
    assert_eq!(line[8..], [0xBB; 5]);
}

#[test]
fn the_reading_call() {
    let line = [frame(&[0x41, 0x42]), vec![0x43]].concat();
    let (mut record, mut packet, mut answer) = ([0; 25], [0xBB; 20], [0xAA; 17]);
    record[24] = 0xCC;
    let before = (record, packet, answer);
    for (of_record, of_packet, of_answer) in [(23, 19, 16), (24, 18, 16), (24, 19, 15), (0, 0, 0)] {
        let (record, packet) = (&mut record[..of_record], &mut packet[..of_packet]);
        let answered = line_read(record, &line, packet, &mut answer[..of_answer]);
        assert_eq!(answered, TOO_SHORT);
    }
    assert_eq!((record, packet, answer), before);
    assert_eq!(line_read(&mut record, &line, &mut packet, &mut answer), 0);
    assert_eq!((record[0], record[24]), (1, 0xCC));
    assert_eq!(record[1..24], [0; 23]);
    assert_eq!(packet[..2], [0x41, 0x42]);
    assert_eq!(packet[2..], [0xBB; 18]);
    assert_eq!(
        answer,
        [2, 0, 0, 0, 0, 0, 0, 0, 6, 0, 0, 0, 0, 0, 0, 0, 0xAA]
    );
    let rest = &line[6..];
    assert_eq!(line_read(&mut record, rest, &mut packet, &mut answer), 0);
    assert_eq!(
        answer,
        [0, 0, 0, 0, 0, 0, 0, 0, 1, 0, 0, 0, 0, 0, 0, 0, 0xAA]
    );
    assert_eq!(packet[..3], [0x41, 0x42, 0xBB]);
}
