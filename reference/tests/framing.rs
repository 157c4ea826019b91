//! The framing alone: bodies by hand, bits cut at every place, its record and its call.

use aes18_reference::bits::{bits_of, bytes_of};
use aes18_reference::calls::{framing_read, ReadCall, TOO_SHORT};
use aes18_reference::framing::Framing;
use aes18_reference::hdlc::{frame, Judged, FLAG};
use aes18_reference::history::FRAMING;

/// Bits written as text.
fn bits(text: &str) -> Vec<bool> {
    text.chars().map(|bit| bit == '1').collect()
}

/// What a framing tells in bits read up to each of these ends, with the place behind it.
fn read_on(framing: &mut Framing, bits: &[bool], ends: &[usize]) -> Vec<(usize, Judged)> {
    let bytes = bytes_of(bits);
    let (mut from, mut told) = (0, vec![]);
    for &to in ends {
        loop {
            let read = framing.read(&bytes, from as u64, to as u64).unwrap();
            from += read.bits as usize;
            match read.body {
                Judged::Nothing => break,
                body => told.push((from, body)),
            }
        }
        assert_eq!(from, to);
    }
    told
}

/// What a fresh framing tells in bits read at once.
fn read(bits: &[bool]) -> Vec<Judged> {
    let told = read_on(&mut Framing::default(), bits, &[bits.len()]);
    told.into_iter().map(|(_, body)| body).collect()
}

/// Bodies with a flag before and behind each.
fn flagged(bodies: &[Vec<bool>]) -> Vec<bool> {
    let closed = |body: &Vec<bool>| [&body[..], &FLAG].concat();
    [FLAG.to_vec(), bodies.iter().flat_map(closed).collect()].concat()
}

fn packet(bytes: &[u8]) -> Judged {
    Judged::Packet(bytes.to_vec())
}

#[test]
fn packets_of_every_length() {
    for length in 0..=22 {
        let told = read(&flagged(&[frame(&vec![0xFF; length])]));
        match length {
            0..=1 => assert_eq!(told, []),
            2..=19 => assert_eq!(told, [packet(&vec![0xFF; length])]),
            _ => assert_eq!(told, [Judged::Spoilt]),
        }
    }
}

#[test]
fn spoilt_short_and_void_bodies() {
    let body = |body: Vec<bool>| read(&flagged(&[body]));
    assert_eq!(body(vec![false; 31]), []);
    assert_eq!(body(vec![false; 32]), [Judged::Spoilt]);
    assert_eq!(body(vec![false; 5000]), [Judged::Spoilt]);
    assert_eq!(body([vec![false; 40], vec![true; 7]].concat()), []);
    let mut wrong = frame(b"abc");
    wrong[3] ^= true;
    assert_eq!(body(wrong), [Judged::Spoilt]);
}

#[test]
fn flags_by_hand() {
    let frame = frame(b"abc");
    assert_eq!(read(&bits("011111101111110")), []);
    let shared = [&FLAG[..], &FLAG[1..], &frame, &FLAG, &FLAG[1..]].concat();
    assert_eq!(read(&shared), [packet(b"abc")]);
    let no_first_zero = [&FLAG[1..], &frame, &FLAG].concat();
    assert_eq!(read(&no_first_zero), []);
}

#[test]
fn cut_at_every_place() {
    let stream = [
        bits_of(&[0xFF, 0x13]),
        flagged(&[frame(b"abc"), vec![false; 300], frame(&[0xFF; 19])]),
        vec![true; 20],
        flagged(&[vec![false; 33], frame(&[0x7E; 2])]),
    ]
    .concat();
    let end = stream.len();
    let mut uncut = Framing::default();
    let whole = read_on(&mut uncut, &stream, &[end]);
    let told: Vec<Judged> = whole.iter().map(|(_, body)| body.clone()).collect();
    let (first, long, last) = (packet(b"abc"), packet(&[0xFF; 19]), packet(&[0x7E; 2]));
    assert_eq!(told, [first, Judged::Spoilt, long, Judged::Spoilt, last]);
    for cut in 0..=end {
        let mut framing = Framing::default();
        assert_eq!(read_on(&mut framing, &stream, &[cut, end]), whole, "{cut}");
        assert_eq!(framing.record(), uncut.record());
    }
    let single: Vec<usize> = (1..=end).collect();
    assert_eq!(read_on(&mut Framing::default(), &stream, &single), whole);
}

/// A record with these bytes at its start and 0 behind them.
fn record(start: &[u8]) -> [u8; FRAMING] {
    std::array::from_fn(|at| start.get(at).copied().unwrap_or(0))
}

/// Behind its record a framing goes on like the one that the record was taken of.
#[test]
fn records() {
    let stream = flagged(&[frame(&[0xFF, 0xF8, 0x00]), vec![false; 200], frame(b"abc")]);
    let whole = read_on(&mut Framing::default(), &stream, &[stream.len()]);
    for cut in 0..=stream.len() {
        let mut framing = Framing::default();
        let before = read_on(&mut framing, &stream[..cut], &[cut]);
        let mut resumed = Framing::resume(&framing.record()).unwrap();
        let rest = &stream[cut..];
        let behind = read_on(&mut resumed, rest, &[rest.len()]);
        let moved = behind.into_iter().map(|(at, body)| (cut + at, body));
        let told: Vec<_> = before.into_iter().chain(moved).collect();
        assert_eq!(told, whole, "{cut}");
    }
    for outside in [&[5][..], &[0, 1], &[1, 7], &[2, 0, 1], &[3, 0, 0, 1], &[4]] {
        assert_eq!(Framing::resume(&record(outside)), Err(14), "{outside:?}");
    }
}

/// A call with these bits, from a framing, with a packet's place and an answer of bytes that it may keep.
struct Call {
    bytes: Vec<u8>,
    framing: [u8; 25],
    packet: [u8; 20],
    answer: [u8; 17],
}

impl Call {
    /// A packet and a spoilt body, and a fresh framing.
    fn new() -> Call {
        let stream = flagged(&[frame(b"abc"), vec![false; 40]]);
        let mut framing = [0xCC; 25];
        framing[..24].fill(0);
        Call {
            bytes: bytes_of(&stream),
            framing,
            packet: [0xBB; 20],
            answer: [0xAA; 17],
        }
    }

    /// Makes the call with these lengths of framing, packet and answer.
    fn make(&mut self, from: u64, to: u64, lengths: [usize; 3]) -> u32 {
        let bits = &self.bytes;
        let call = ReadCall { bits, from, to };
        let framing = &mut self.framing[..lengths[0]];
        let packet = &mut self.packet[..lengths[1]];
        framing_read(framing, call, packet, &mut self.answer[..lengths[2]])
    }
}

const ALL: [usize; 3] = [25, 20, 17];

#[test]
fn refused_calls() {
    let mut call = Call::new();
    call.framing[0] = 9;
    for lengths in [[23, 19, 16], [24, 18, 16], [24, 19, 15], [0, 0, 0]] {
        assert_eq!(call.make(1, 0, lengths), TOO_SHORT);
    }
    assert_eq!(call.make(1, 0, ALL), 14);
    call.framing[0] = 0;
    let end = 8 * call.bytes.len() as u64;
    for (from, to) in [(1, 0), (0, end + 1), (u64::MAX, u64::MAX)] {
        assert_eq!(call.make(from, to, ALL), 15);
    }
    assert_eq!((call.packet, call.answer), ([0xBB; 20], [0xAA; 17]));
    assert_eq!(call.framing, Call::new().framing);
}

#[test]
fn accepted_calls() {
    let mut call = Call::new();
    assert_eq!(call.make(0, 104, ALL), 0);
    assert_eq!(call.packet[..4], *b"abc\xBB");
    assert_eq!(call.answer[..9], [2, 3, 0, 0, 0, 0, 0, 0, 8 + 40 + 8]);
    assert_eq!(call.framing[..24], record(&[2]));
    call.packet = [0xBB; 20];
    assert_eq!(call.make(56, 104, [24, 19, 16]), 0);
    assert_eq!(call.answer[..9], [1, 0, 0, 0, 0, 0, 0, 0, 40 + 8]);
    assert_eq!(call.make(104, 104, ALL), 0);
    assert_eq!(call.answer, [&[0; 16][..], &[0xAA]].concat()[..]);
    assert_eq!((call.packet, call.framing[24]), ([0xBB; 20], 0xCC));
}
