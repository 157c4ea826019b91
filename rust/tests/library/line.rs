//! The serial line: frames byte by byte, refusals, what a reader drops, lines cut anywhere, and records of any bytes.

use aes18::{
    ffi, write_line, LineReader, Refusal, LINE_RECORD, LONGEST_LINE_FRAME, LONGEST_PACKET,
};

use super::frames::fcs;

/// A packet of 19 bytes in which, as in its FCS (7E 7D), each byte is escaped.
const WORST: [u8; LONGEST_PACKET] = [
    0x7D, 0x7D, 0x7E, 0x7E, 0x7D, 0x7E, 0x7E, 0x7D, 0x7E, 0x7E, 0x7D, 0x7D, 0x7E, 0x7D, 0x7D, 0x7D,
    0x7D, 0x7D, 0x7D,
];

/// A packet's bytes and FCS, not escaped.
fn checked(packet: &[u8]) -> Vec<u8> {
    [packet, &fcs(packet).to_le_bytes()].concat()
}

/// Bytes with 7E and 7D escaped.
fn escaped(bytes: &[u8]) -> Vec<u8> {
    let escape = |byte: &u8| match byte {
        0x7E | 0x7D => vec![0x7D, byte ^ 0x20],
        _ => vec![*byte],
    };
    bytes.iter().flat_map(escape).collect()
}

/// A packet's frame between two flags.
fn frame(packet: &[u8]) -> Vec<u8> {
    [vec![0x7E], escaped(&checked(packet)), vec![0x7E]].concat()
}

/// The line of packets, as calls write it.
fn written(packets: &[Vec<u8>]) -> Vec<u8> {
    let mut line = vec![0; packets.len() * LONGEST_LINE_FRAME];
    let mut end = 0;
    for packet in packets {
        end += write_line(packet, &mut line[end..]).unwrap();
    }
    line.truncate(end);
    line
}

/// The packets that a reader reads in bytes given in parts, each with the place in the line behind it.
fn read_on(reader: &mut LineReader, parts: &[&[u8]]) -> Vec<(usize, Vec<u8>)> {
    let mut packets = Vec::new();
    let mut place = 0;
    for part in parts {
        let mut rest = *part;
        loop {
            let read = reader.read(rest);
            rest = &rest[read.bytes..];
            place += read.bytes;
            match read.packet {
                Some(packet) => packets.push((place, packet.to_vec())),
                None => break,
            }
        }
        assert!(rest.is_empty());
    }
    packets
}

/// The packets that a fresh reader reads in bytes given at once.
fn read(line: &[u8]) -> Vec<Vec<u8>> {
    let packets = read_on(&mut LineReader::new(), &[line]);
    packets.into_iter().map(|(_, packet)| packet).collect()
}

/// Packets of every length, with bytes that are escaped and bytes that are not.
fn packets() -> Vec<Vec<u8>> {
    let values = [
        0x00, 0x7E, 0x11, 0x7D, 0x7D, 0x20, 0xFF, 0x5E, 0x5D, 0x7E, 0x7E, 0x13,
    ];
    let mut values = values.into_iter().cycle();
    let mut packet = |length| values.by_ref().take(length).collect();
    let mut packets: Vec<Vec<u8>> = (2..=LONGEST_PACKET).map(&mut packet).collect();
    packets.extend([WORST.to_vec(), vec![0x1B, 0x00], vec![0x83, 0xF2]]);
    packets
}

#[test]
fn frames_byte_by_byte() {
    let cases: [(&[u8], &[u8]); 4] = [
        (&[0x00, 0x00], &[0x7E, 0x00, 0x00, 0x47, 0x0F, 0x7E]),
        (&[0xFF, 0xFF], &[0x7E, 0xFF, 0xFF, 0xFF, 0xFF, 0x7E]),
        (
            &[0x7D, 0x7E],
            &[0x7E, 0x7D, 0x5D, 0x7D, 0x5E, 0x02, 0xD5, 0x7E],
        ),
        (
            &[0x83, 0xF2],
            &[0x7E, 0x83, 0xF2, 0x7D, 0x5E, 0x7D, 0x5D, 0x7E],
        ),
    ];
    for (packet, frame) in cases {
        let mut line = [0xAA; 12];
        assert_eq!(write_line(packet, &mut line), Ok(frame.len()));
        assert_eq!(line[..frame.len()], *frame);
        assert!(line[frame.len()..].iter().all(|byte| *byte == 0xAA));
    }
}

/// Every length of packet and of output: 17 is looked at before 16, and 16 is by the worst case and not by the frame.
#[test]
fn refusals() {
    let packet = [0x55; 300];
    for length in (0..24).chain([258, 300]) {
        for room in 0..50 {
            let mut line = [0xAA; 50];
            let wrote = write_line(&packet[..length], &mut line[..room]);
            let wanted = match length {
                2..=19 if room < 2 * (length + 2) + 2 => Err(Refusal::LineTooShort),
                2..=19 => Ok(length + 4),
                _ => Err(Refusal::PacketLength),
            };
            assert_eq!(wrote, wanted, "{length} bytes into {room}");
            let behind = wrote.unwrap_or(0);
            assert_eq!(line[..behind], frame(&packet[..length])[..behind]);
            assert!(line[behind..].iter().all(|byte| *byte == 0xAA));
        }
    }
}

#[test]
fn the_longest_frame() {
    let mut line = [0; LONGEST_LINE_FRAME];
    assert_eq!(write_line(&WORST, &mut line), Ok(LONGEST_LINE_FRAME));
    assert_eq!(line.to_vec(), frame(&WORST));
    assert_eq!(read(&line), [WORST.to_vec()]);
}

/// The packets come back from a line cut into parts of any length, and from two parts cut at any place, each at the same byte.
#[test]
fn a_line_may_be_cut_anywhere() {
    let line = written(&packets());
    let frames: Vec<Vec<u8>> = packets().iter().map(|packet| frame(packet)).collect();
    assert_eq!(line, frames.concat());
    assert_eq!(read(&line), packets());
    let whole = read_on(&mut LineReader::new(), &[&line]);
    for step in 1..=line.len() {
        let parts: Vec<&[u8]> = line.chunks(step).collect();
        let told = read_on(&mut LineReader::new(), &parts);
        assert_eq!(told, whole, "{step} bytes at a time");
        let told = read_on(&mut LineReader::new(), &[&line[..step], &line[step..]]);
        assert_eq!(told, whole, "cut behind {step} bytes");
    }
}

/// What stands between two flags and holds no packet: it is dropped, and the frames before and behind it are read.
#[test]
fn dropped_frames() {
    let mut wrong = checked(b"abc");
    wrong[1] ^= 1;
    let dropped = [
        vec![],
        vec![0x00, 0x00],
        vec![0x7D],
        checked(b"a"),
        checked(&[0x55; 20]),
        checked(&[0x55; 300]),
        wrong,
        [checked(b"abc"), vec![0x7D]].concat(),
        [vec![0x7D, 0x7D], vec![0x7D]].concat(),
    ];
    for body in dropped {
        let line = [frame(b"before"), body.clone(), frame(b"behind")].concat();
        assert_eq!(read(&line), [b"before", b"behind"], "{body:02X?}");
    }
}

/// Frames with flags or escapes that no call writes are read all the same.
#[test]
fn frames_that_no_call_writes() {
    let shared = [frame(b"one"), frame(b"two")[1..].to_vec()].concat();
    assert_eq!(read(&shared), [b"one", b"two"]);
    let skipped = [vec![0x00, 0x7D, 0x41, 0x7D], frame(b"first")].concat();
    assert_eq!(read(&skipped), [b"first"]);
    // each byte escaped, the letters too
    let all: Vec<u8> = checked(b"abc")
        .iter()
        .flat_map(|b| [0x7D, b ^ 0x20])
        .collect();
    assert!(!all.contains(&0x7E));
    assert_eq!(read(&[vec![0x7E], all, vec![0x7E]].concat()), [b"abc"]);
    // 7D 7D is 5D and no pending escape: the flag behind it ends the frame
    let ends_in_5d = (0..=255)
        .map(|byte| [0x41, byte, 0x42])
        .find(|packet| fcs(packet) >> 8 == 0x5D);
    let packet = ends_in_5d.unwrap();
    let mut body = escaped(&checked(&packet));
    body.pop();
    assert_eq!(
        read(&[vec![0x7E], body, vec![0x7D, 0x7D, 0x7E]].concat()),
        [packet]
    );
}

#[test]
fn a_fresh_reader() {
    let mut reader = LineReader::new();
    assert_eq!(reader, LineReader::default());
    assert_eq!(reader.as_bytes(), &[0; LINE_RECORD]);
    let read = reader.read(&[]);
    assert_eq!((read.packet, read.bytes), (None, 0));
    assert_eq!(reader.read(b"no flag").bytes, 7);
    assert_eq!(reader, LineReader::new());
}

/// A read stops behind the first packet, and the bytes behind it are the next call's.
#[test]
fn one_packet_for_each_read() {
    let line = [frame(b"one"), frame(b"two")].concat();
    let mut reader = LineReader::new();
    let first = reader.read(&line);
    assert_eq!(first.bytes, frame(b"one").len());
    let packet = first.packet.unwrap();
    assert_eq!(packet.as_bytes(), b"one");
    assert_eq!(packet.as_ref(), b"one");
    assert_eq!(packet.len(), 3);
    let second = reader.read(&line[first.bytes..]);
    assert_eq!(second.packet.unwrap().as_bytes(), b"two");
    assert_eq!(second.bytes, frame(b"two").len());
}

/// The record behind some bytes: a flag read, an escape pending, the count and the bytes.
#[test]
fn records() {
    let behind = |line: &[u8]| {
        let mut reader = LineReader::new();
        assert_eq!(reader.read(line).packet, None);
        *reader.as_bytes()
    };
    let record = |start: &[u8]| {
        let mut record = [0; LINE_RECORD];
        record[..start.len()].copy_from_slice(start);
        record
    };
    assert_eq!(behind(b"ab"), record(&[]));
    assert_eq!(behind(&[0x7E]), record(&[1]));
    assert_eq!(behind(&[0x7E, 0x7D]), record(&[1, 1]));
    assert_eq!(behind(&[0x7E, 9, 0x7D]), record(&[1, 1, 1, 9]));
    assert_eq!(behind(&[0x7E, 9, 0x7D, 0x7D]), record(&[1, 0, 2, 9, 0x5D]));
    assert_eq!(behind(&[0x7E, 9, 0x7D, 0x7E]), record(&[1]));
    let flag_and = |count| [vec![0x7E], vec![9; count]].concat();
    assert_eq!(
        behind(&flag_and(21)),
        record(&[&[1, 0, 21][..], &[9; 21]].concat())
    );
    assert_eq!(behind(&flag_and(22)), record(&[1, 0, 22]));
    assert_eq!(behind(&flag_and(500)), record(&[1, 0, 22]));
}

/// Any bytes are some reader: behind the next flag it reads like any other.
#[test]
fn readers_of_any_bytes() {
    let line = written(&packets());
    for seed in 0..=255u8 {
        let bytes = core::array::from_fn(|at| seed.wrapping_mul(at as u8 + 1) ^ seed >> 3);
        for record in [[seed; LINE_RECORD], bytes] {
            let mut reader = LineReader::from_bytes(record);
            assert_eq!(reader.as_bytes(), &record);
            reader.read(&[]);
            let [inside, escape, ..] = *reader.as_bytes();
            assert_eq!(inside, u8::from(record[0] > 0));
            assert_eq!(escape, u8::from(record[1] > 0));
            read_on(&mut reader, &[&[0x7E]]);
            let told = read_on(&mut reader, &[&line]);
            assert_eq!(told, read_on(&mut LineReader::new(), &[&line]));
        }
    }
}

/// A count above 21 in a record is that of a frame too long, whatever the bytes are; 21 is not.
#[test]
fn counts_in_records() {
    let packet = [0x33; LONGEST_PACKET];
    let mut record = [1; LINE_RECORD];
    record[1] = 0;
    record[3..].copy_from_slice(&checked(&packet));
    for count in 0..=255 {
        record[2] = count;
        let told = LineReader::from_bytes(record).read(&[0x7E]).packet;
        assert_eq!(told.is_some(), count == 21, "count {count}");
        record[1] = 255;
        let told = LineReader::from_bytes(record).read(&[0x7E]).packet;
        assert_eq!(told, None, "count {count} behind an escape");
        record[1] = 0;
    }
}

/// What the safe types cannot pass to a read: a record, a packet's place or an answer that is too short or longer than it has to be.
#[test]
fn raw_reads() {
    let line = frame(b"abc");
    let (mut record, mut packet, mut answer) = ([0; 30], [0xAA; 25], [0xAA; 20]);
    record[24..].fill(0xAA);
    let mut read = |[record_len, packet_len, answer_len]: [usize; 3]| {
        // SAFETY: the line is a slice; the other arrays are valid for these lengths, which are not above theirs, and overlap nothing.
        unsafe {
            ffi::aes18_line_read(
                record.as_mut_ptr(),
                record_len,
                line.as_ptr(),
                line.len(),
                packet.as_mut_ptr(),
                packet_len,
                answer.as_mut_ptr(),
                answer_len,
            )
        }
    };
    for lengths in [[23, 19, 16], [24, 18, 16], [24, 19, 15], [0, 0, 0]] {
        assert_eq!(read(lengths), 255);
    }
    assert_eq!(read([30, 25, 20]), 0);
    assert_eq!(record[24..], [0xAA; 6]);
    assert_eq!((&packet[..3], &packet[3..]), (&b"abc"[..], &[0xAA; 22][..]));
    assert_eq!(answer[..8], [3, 0, 0, 0, 0, 0, 0, 0]);
    assert_eq!(answer[8..16], (line.len() as u64).to_le_bytes());
    assert_eq!(answer[16..], [0xAA; 4]);
}

/// What the safe types cannot pass to a write: an answer that is too short, which comes before all else.
#[test]
fn raw_writes() {
    let (mut line, mut answer) = ([0xAA; 5], [0xAA; 7]);
    let (line, answer) = (&mut line[..], &mut answer[..]);
    // SAFETY: the packet has no bytes, line and answer are slices, and nothing overlaps.
    let number = unsafe {
        ffi::aes18_line_write(
            core::ptr::null(),
            0,
            line.as_mut_ptr(),
            line.len(),
            answer.as_mut_ptr(),
            answer.len(),
        )
    };
    assert_eq!(
        (number, &*line, &*answer),
        (255, &[0xAA; 5][..], &[0xAA; 7][..])
    );
}
