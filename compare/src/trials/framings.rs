//! The framing alone: streams of every kind cut anywhere, framings at the edges of what bits leave and beside them, and the framing of a receiver.

use crate::both::{differ, hex, read_of, Both, Compared};
use crate::damage::{joined, tear, values};
use crate::inputs::{self, any_length, every_byte};
use crate::random::Random;
use crate::stream::stream;
use aes18_reference::bits::{bits_of, bytes_of};
use aes18_reference::calls::{ReadCall, FRAMING_ANSWER, READ_ANSWER};
use aes18_reference::framing::Framing;
use aes18_reference::hdlc::{bodies, fcs, frame, judge, stuff, Judged, FLAG};
use aes18_reference::history::FRAMING;
use aes18_reference::line::LONGEST_PACKET;
use aes18_reference::packet::{parse, Circuit, Packet};
use aes18_reference::records::{FRAMING_PLACE, RECEIVER_RECORD};
use aes18_reference::RECEIVER_STORE;

const FRESH: [u8; FRAMING] = [0; FRAMING];

/// A body that a framing told of, and the place of the bit behind its closing flag.
type Told = (usize, Judged);

/// Every length of what is lent; every phase, number of ones and count with bits around its edges; packets of every length in a framing.
pub fn all(both: &mut Both) -> Compared<()> {
    lengths(both)?;
    for phase in 0..=6 {
        for ones in 0..=8 {
            for count in 0..=172 {
                heads(both, [phase, ones, count])?;
            }
        }
    }
    for length in 0..=LONGEST_PACKET {
        let mut held = holding(&vec![0x41; length]);
        read_on(both, &mut held, &FLAG[1..])?;
    }
    Ok(())
}

/// Every length of a framing, a packet's place and an answer, with everything else right, and with a framing and bits that are refused.
fn lengths(both: &mut Both) -> Compared<()> {
    let bits = bytes_of(&[&FLAG[..], &frame(&[0x42; 19]), &FLAG].concat());
    for (framing, packet, answer) in (0..40).flat_map(|n| [(n, 19, 16), (24, n, 16), (24, 19, n)]) {
        for (value, from) in [(0, 0), (0, u64::MAX), (9, 0), (9, u64::MAX)] {
            let call = ReadCall {
                bits: &bits,
                from,
                to: 8 * bits.len() as u64,
            };
            let (mut packet, mut answer) = (vec![0x5A; packet], vec![0x5A; answer]);
            both.framing_read(&mut vec![value; framing], call, &mut packet, &mut answer)?;
        }
    }
    Ok(())
}

/// Framings of these three numbers, with runs of ones at the end of the bits that they count and with a bit behind those. Each reads a flag.
fn heads(both: &mut Both, head: [u8; 3]) -> Compared<()> {
    let count = usize::from(head[2]).min(168);
    for run in [0, 1, 4, 5, 6, 10, count] {
        let mut bits = vec![false; 168];
        bits[count.saturating_sub(run)..count].fill(true);
        read_on(both, &mut framing(head, &bits), &FLAG)?;
    }
    for place in [count, count + 1, 167] {
        let mut bits = vec![false; 168];
        if let Some(bit) = bits.get_mut(place) {
            *bit = true;
            read_on(both, &mut framing(head, &bits), &FLAG)?;
        }
    }
    Ok(())
}

/// The framing of these numbers and bits.
fn framing(head: [u8; 3], bits: &[bool]) -> Vec<u8> {
    [&head[..], &bytes_of(bits)].concat()
}

/// The framing behind a body of a packet with its FCS, and the 0 of the closing flag.
fn holding(packet: &[u8]) -> Vec<u8> {
    let mut bits = bits_of(&[packet, &fcs(packet)].concat());
    let head = [3, 0, bits.len() as u8];
    bits.resize(168, false);
    framing(head, &bits)
}

/// A stream from its start on, in pieces: its bodies, and the framing that the uncut stream leaves.
pub fn any(both: &mut Both, random: &mut Random) -> Compared<()> {
    let bits = bits(random);
    let mut framing = FRESH.to_vec();
    let longest = random.pick(&[3, 40, 300, 5000]);
    let told = read_in_pieces(both, random, &mut framing, &bits, longest)?;
    same("a stream in pieces", &told, &bodies_of(&bits))?;
    let mut uncut = FRESH.to_vec();
    let told = read_on(both, &mut uncut, &bits)?;
    same("a stream at once", &told, &bodies_of(&bits))?;
    if framing == uncut {
        return Ok(());
    }
    let call = "a stream in pieces, and beside it the same uncut".to_string();
    differ(call, "the framing", hex(&framing), hex(&uncut))
}

/// The bodies are those of the uncut stream wherever it is cut, and one bit a call.
pub fn every_place(both: &mut Both, random: &mut Random) -> Compared<()> {
    let mut bits = bits(random);
    bits.truncate(500);
    let list = bodies_of(&bits);
    for cut in 0..=bits.len() {
        let mut framing = FRESH.to_vec();
        let mut told = read_on(both, &mut framing, &bits[..cut])?;
        let behind = read_on(both, &mut framing, &bits[cut..])?;
        told.extend(behind.into_iter().map(|(at, body)| (cut + at, body)));
        same(&format!("a stream cut at {cut}"), &told, &list)?;
    }
    let told = read_in_pieces(both, random, &mut FRESH.to_vec(), &bits, 1)?;
    same("a stream, one bit a call", &told, &list)
}

/// Any framing, any lengths and any numbers.
pub fn any_record(both: &mut Both, random: &mut Random) -> Compared<()> {
    for _ in 0..8 {
        let framing = left(random);
        let framing = off(random, framing);
        let mut framing = any_length(random, &framing);
        let mut bits = bits(random);
        bits.truncate(600);
        let lent = bytes_of(&bits);
        let end = 8 * lent.len() as u64;
        let call = ReadCall {
            bits: &lent,
            from: random.argument(end),
            to: random.pick(&[end, end, end, end - 1, end + 1, u64::MAX, 0]),
        };
        let mut packet = any_length(random, &[0x5A; LONGEST_PACKET]);
        let mut answer = any_length(random, &[0x5A; FRAMING_ANSWER]);
        both.framing_read(&mut framing, call, &mut packet, &mut answer)?;
    }
    Ok(())
}

/// Every byte of a framing with all its 256 values; one that bits leave reads on.
pub fn every_record_byte(both: &mut Both, random: &mut Random) -> Compared<()> {
    let base = left(random);
    let mut bits = bits(random);
    bits.truncate(400);
    for (at, value) in every_byte(FRAMING) {
        let mut framing = base.clone();
        framing[at] = value;
        read_on(both, &mut framing, &bits)?;
    }
    Ok(())
}

/// The framing in the record of a receiver, copied before each of its calls: it reads the same bits, has the packet that the notice tells of, and is
/// left as the receiver's is.
pub fn of_receiver(both: &mut Both, random: &mut Random) -> Compared<()> {
    let list = inputs::list(random);
    let mut record = [0; RECEIVER_RECORD];
    both.receiver_list(&mut record, &list)?;
    let mut store = random.bytes(RECEIVER_STORE);
    let bits = stream(random, &inputs::circuits(&list));
    let lent = bytes_of(&bits);
    let longest = random.pick(&[20, 300, 5000]);
    let mut from = 0;
    while from < bits.len() {
        let to = bits.len().min(from + 1 + random.below(longest));
        let mut framing = record[FRAMING_PLACE..].to_vec();
        let call = |to: usize| ReadCall {
            bits: &lent,
            from: from as u64,
            to: to as u64,
        };
        let mut notice = [0x5A; READ_ANSWER];
        both.receiver_read(&mut record, &mut store, call(to), &mut notice)?;
        let told = from + read_of(&notice);
        let end = random.pick(&[told, to]);
        let (mut packet, mut answer) = ([0x5A; LONGEST_PACKET], [0x5A; FRAMING_ANSWER]);
        both.framing_read(&mut framing, call(end), &mut packet, &mut answer)?;
        let body = &packet[..usize::from(answer[1])];
        let expected = notice_of(&inputs::circuits(&list), answer[0], body);
        hold(&notice[..expected.len()], &expected, "the notice", &lent)?;
        hold(&answer[8..], &notice[8..], "the bits read", &lent)?;
        hold(&framing, &record[FRAMING_PLACE..], "the framing", &lent)?;
        both.tally.framings.beside(notice[0]);
        from = told;
    }
    Ok(())
}

/// The bytes at the start of a receiver's answer to what its framing stops at, as far as they follow from the packet alone.
fn notice_of(circuits: &[Circuit], stopped: u8, packet: &[u8]) -> Vec<u8> {
    if stopped < 2 {
        return vec![stopped];
    }
    match parse(packet) {
        Packet::Malformed => vec![2],
        Packet::System(system) => {
            let length = system.information.len() as u8;
            vec![3, system.enable as u8, system.code as u8, length]
        }
        Packet::Ordinary { circuit, .. } => {
            let number = circuits.iter().position(|listed| *listed == circuit);
            number.map_or(vec![4], |number| vec![5, number as u8])
        }
    }
}

/// Holds what a receiver has against what its framing has.
fn hold(receiver: &[u8], framing: &[u8], part: &str, bits: &[u8]) -> Compared<()> {
    if receiver == framing {
        return Ok(());
    }
    let call = format!(
        "a receiver, and beside it its framing, in bits {}",
        hex(bits)
    );
    differ(call, part, hex(receiver), hex(framing))
}

fn same(what: &str, told: &[Told], list: &[Told]) -> Compared<()> {
    if told == list {
        return Ok(());
    }
    let (told, list) = (format!("{told:02x?}"), format!("{list:02x?}"));
    differ(what.to_string(), "the bodies", told, list)
}

/// The bodies of bits that pass or are spoilt, for a fresh framing.
fn bodies_of(bits: &[bool]) -> Vec<Told> {
    let judged = bodies(bits)
        .into_iter()
        .map(|body| (body.end + FLAG.len(), judge(&bits[body])));
    judged.filter(|told| told.1 != Judged::Nothing).collect()
}

/// Reads all of the bits, or none where the framing is refused: the bodies.
fn read_on(both: &mut Both, framing: &mut [u8], bits: &[bool]) -> Compared<Vec<Told>> {
    let lent = bytes_of(bits);
    let (mut packet, mut answer) = ([0x5A; LONGEST_PACKET], [0x5A; FRAMING_ANSWER]);
    let (mut from, mut told) = (0, vec![]);
    loop {
        let call = ReadCall {
            bits: &lent,
            from: from as u64,
            to: bits.len() as u64,
        };
        if both.framing_read(framing, call, &mut packet, &mut answer)? != 0 || answer[0] == 0 {
            return Ok(told);
        }
        from += read_of(&answer);
        told.push((from, body(&packet, &answer)));
    }
}

/// What an answer tells, with the packet beside it.
fn body(packet: &[u8], answer: &[u8]) -> Judged {
    match answer[0] {
        2 => Judged::Packet(packet[..usize::from(answer[1])].to_vec()),
        _ => Judged::Spoilt,
    }
}

/// Reads all of the bits in pieces of at most `longest`, each lent in bytes of its own among other bits: the bodies.
fn read_in_pieces(
    both: &mut Both,
    random: &mut Random,
    framing: &mut [u8],
    bits: &[bool],
    longest: usize,
) -> Compared<Vec<Told>> {
    let (mut at, mut told) = (0, vec![]);
    while at < bits.len() {
        let piece = &bits[at..][..1 + random.below(longest.min(bits.len() - at))];
        let before = random.below(20);
        let lent = bytes_of(&[&random.bits(before, 6), piece, &random.bits(9, 6)].concat());
        let (mut from, to) = (before as u64, (before + piece.len()) as u64);
        while from < to {
            let (mut packet, mut answer) = ([0x5A; LONGEST_PACKET], [0x5A; FRAMING_ANSWER]);
            let call = ReadCall {
                bits: &lent,
                from,
                to,
            };
            both.framing_read(framing, call, &mut packet, &mut answer)?;
            from += read_of(&answer) as u64;
            at += read_of(&answer);
            if answer[0] > 0 {
                told.push((at, body(&packet, &answer)));
            }
        }
    }
    Ok(told)
}

/// A stream for some circuits, some of it damaged, with idle ones, flags in a row, and bodies around the longest and far above it.
fn bits(random: &mut Random) -> Vec<bool> {
    let list = inputs::list(random);
    let mut bits = vec![];
    for _ in 0..random.below(4) {
        bits.extend(piece(random));
        bits.extend(FLAG);
    }
    bits.extend(stream(random, &inputs::circuits(&list)));
    let mut bits = joined(&bits);
    for _ in 0..random.pick(&[0, 0, 1, 4]) {
        tear(random, &mut bits, 300);
    }
    values(&bits)
}

fn piece(random: &mut Random) -> Vec<bool> {
    let ones = 1 + random.below(7);
    match random.below(8) {
        0 => vec![true; random.below(300)],
        1 => FLAG.repeat(1 + random.below(4)),
        2 => [&FLAG[..], &FLAG[1..].repeat(1 + random.below(4))].concat(),
        3 => {
            let length = random.below(2000);
            stuff(&random.bits(length, ones))
        }
        4..=5 => {
            let length = 160 + random.below(18);
            stuff(&random.bits(length, ones))
        }
        _ => {
            let length = random.pick(&[0, 1, 2, 3, 18, 19, 20, 21]);
            frame(&inputs::message(random, length))
        }
    }
}

/// A framing that bits leave: that of a stream up to some place, or of a body.
fn left(random: &mut Random) -> Vec<u8> {
    let mut bits = match random.below(4) {
        0 => [FLAG.to_vec(), piece(random)].concat(),
        _ => bits(random),
    };
    bits.truncate(random.below(bits.len() + 1));
    let mut framing = Framing::default();
    let (bytes, end) = (bytes_of(&bits), bits.len() as u64);
    let mut from = 0;
    while from < end {
        let read = framing.read(&bytes, from, end);
        from += read.expect("from and to are in range").bits;
    }
    framing.record().to_vec()
}

/// The framing, or one with a number or a bit beside it, or noise.
fn off(random: &mut Random, mut framing: Vec<u8>) -> Vec<u8> {
    let place = random.below(3);
    let bit = random
        .below(168)
        .min(usize::from(framing[2]) + random.below(2));
    match random.below(8) {
        0 => framing[place] = framing[place].wrapping_add(1),
        1 => framing[place] = framing[place].wrapping_sub(1),
        2 => framing[place] = random.pick(&[0, 1, 2, 3, 4, 5, 6, 7, 8, 168, 169, 170, 255]),
        3 => framing[3 + bit / 8] ^= 1 << (bit % 8),
        4 => framing = random.bytes(FRAMING),
        _ => {}
    }
    framing
}
