//! Stuffed zeros counted (02, ask 6). The numbers were worked out beside this code, by counting the places of five ones in packet and FCS.

mod end;

use aes18_reference::calls::{self, BlockCall, BLOCK_ANSWER};
use aes18_reference::hdlc::{added_zeros, fcs, frame};
use aes18_reference::packet::{packets, Circuit};
use aes18_reference::records::{NO_SENDER, SENDER_RECORD};
use aes18_reference::{LONGEST_MESSAGE, SENDER_STORE};
use end::{End, LIST, PLAIN};

/// A block call with a system packet of these bits and this code.
fn system(enable: u64, code: u64, information: &[u8]) -> BlockCall<'_> {
    BlockCall {
        system: 1,
        enable,
        code,
        information,
        ..PLAIN
    }
}

/// The same for a block of the fewest bits.
fn short(call: BlockCall<'_>) -> BlockCall<'_> {
    BlockCall {
        n: 256,
        u: 256,
        ..call
    }
}

/// Frames placed, bits used and stuffed zeros, as an answer's bytes tell.
fn numbers(answer: &[u8; BLOCK_ANSWER]) -> [u32; 3] {
    let number = |at: usize| {
        let four = answer[at..at + 4].iter().rev();
        four.fold(0, |number, &byte| 256 * number + u32::from(byte))
    };
    [0, 4, 8].map(number)
}

impl End {
    /// The numbers of a block's answer.
    fn answered(&mut self, call: BlockCall<'_>) -> [u32; 3] {
        let room = call.n.div_ceil(8) as usize;
        self.block_in(call, SENDER_STORE, room).unwrap();
        numbers(&self.answer)
    }

    /// A fresh one with a message at circuit 0, address 01.
    fn offered(repetition: u64, message: &[u8]) -> End {
        let mut end = End::fresh();
        assert_eq!(end.offer(0, 0, repetition, message), 0);
        end
    }
}

/// The zeros of a packet's frame.
fn zeros(packet: &[u8]) -> usize {
    added_zeros(packet, &frame(packet))
}

/// The most that a frame of a packet of so many bytes has.
fn most(length: usize) -> usize {
    8 * (length + 2) / 5
}

#[test]
fn packets_of_ones() {
    let counts: Vec<usize> = (2..=19).map(|length| zeros(&vec![0xFF; length])).collect();
    let expected = [
        6, 5, 7, 8, 9, 12, 12, 14, 16, 18, 19, 20, 22, 24, 25, 28, 31, 30,
    ];
    assert_eq!(counts, expected);
}

/// Packets without five ones in a row: these are in the low byte of the FCS, in both bytes, in the high one, in the packet's last byte and the FCS, and
/// at the frame's end.
#[test]
fn zeros_of_the_fcs() {
    for (byte, sent) in [
        (0x05, [0xFC, 0xA2]),
        (0x03, [0xCA, 0xC7]),
        (0x0C, [0x3D, 0x3F]),
        (0x86, [0x6F, 0x14]),
        (0xCC, [0x31, 0xF9]),
    ] {
        assert_eq!(fcs(&[1, 0x80, 1, byte]), sent);
        assert_eq!(zeros(&[1, 0x80, 1, byte]), 1, "{byte:x}");
        assert_eq!(End::offered(0, &[byte]).answered(PLAIN), [1, 65, 1]);
    }
    assert_eq!(zeros(&[1, 0x80, 1, 0xFF]), 2);
    assert_eq!(End::offered(0, &[0xFF]).answered(PLAIN), [1, 66, 2]);
}

/// Flags and closing ones have no stuffed zeros.
#[test]
fn a_block_of_no_frames_has_none() {
    for n in [256, 1500, 27_000] {
        let call = BlockCall { n, u: n, ..PLAIN };
        assert_eq!(End::fresh().answered(call), [0, 8, 0]);
    }
    assert_eq!(End::offered(0, b"").answered(PLAIN), [1, 56, 0]);
}

#[test]
fn a_system_packet_alone_counts() {
    for (call, used, zeros) in [
        (system(15, 0, &[]), 58, 2),
        (system(0, 0, &[]), 57, 1),
        (system(15, 4, b"25 fps"), 106, 2),
        (system(8, 2, &[0xFF]), 67, 3),
        (system(15, 8, &[0xFF; 15]), 203, 27),
    ] {
        assert_eq!(End::fresh().answered(call), [0, used, zeros]);
        assert_eq!(End::fresh().answered(short(call)), [0, used, zeros]);
    }
}

#[test]
fn the_system_frame_and_all_others_are_summed() {
    let mut end = End::offered(0, &[0xFF; 46]);
    assert_eq!(end.answered(PLAIN), [3, 584, 22 + 25 + 25]);
    let mut end = End::offered(0, &[0xFF; 46]);
    assert_eq!(end.answered(system(15, 8, &[0xFF; 15])), [3, 779, 27 + 72]);
}

/// A frame that is picked and passes U leaves the count to those before it.
#[test]
fn a_frame_that_does_not_fit_is_not_counted() {
    let mut end = End::offered(0, &[0xFF; 16]);
    assert_eq!(end.answered(short(PLAIN)), [1, 198, 22]);
    assert_eq!(end.answered(short(PLAIN)), [1, 67, 3]);
    assert_eq!(end.answered(short(PLAIN)), [0, 8, 0]);
    let mut end = End::offered(0, &[0xFF; 15]);
    let call = system(15, 4, b"25 fps");
    assert_eq!(end.answered(short(call)), [0, 106, 2]);
    assert_eq!(end.answered(short(PLAIN)), [1, 201, 25]);
}

#[test]
fn each_copy_placed_counts() {
    for repetition in 0..=5 {
        let copies = repetition as u32 + 1;
        let mut end = End::offered(repetition, &[0xFF; 15]);
        assert_eq!(end.answered(PLAIN), [copies, 8 + 193 * copies, 25 * copies]);
        let mut end = End::offered(repetition, &[0xFF; 15]);
        for _ in 0..copies {
            assert_eq!(end.answered(short(PLAIN)), [1, 201, 25]);
        }
        assert_eq!(end.answered(short(PLAIN)), [0, 8, 0]);
    }
}

/// The longest message of ones, at the address 03: the first block's number has two bytes, lowest first, and all blocks have 6,433.
#[test]
fn the_longest_message() {
    let mut end = End::fresh();
    assert_eq!(end.offer(2, 0, 0, &[0xFF; LONGEST_MESSAGE]), 0);
    let call = BlockCall {
        n: 27_000,
        u: 27_000,
        ..PLAIN
    };
    assert_eq!(end.answered(call), [139, 26_853, 3493]);
    assert_eq!(
        end.answer,
        [139, 0, 0, 0, 0xE5, 0x68, 0, 0, 0xA5, 0x0D, 0, 0]
    );
    let [placed, _, zeros] = end.answered(call);
    assert_eq!([139 + placed, 3493 + zeros], [256, 6433]);
}

/// Rounded down for each frame: two packets of four bytes have at most 18, and not the 19 that one rounding over both would give.
#[test]
fn at_most_a_fifth_of_each_frame() {
    assert_eq!((most(4) + most(4), 2 * 48 / 5), (18, 19));
    assert_eq!((zeros(&[0xFF, 0xFF]), most(2)), (6, 6));
    for (length, byte) in (2..=19).flat_map(|length| (0..=255).map(move |byte| (length, byte))) {
        assert!(zeros(&vec![byte; length]) <= most(length));
    }
    let mut end = End::fresh();
    assert_eq!(end.offer(0, 0, 0, &[0xFF]), 0);
    assert_eq!(end.offer(2, 0, 0, &[0xFF]), 0);
    assert_eq!(end.answered(PLAIN), [2, 124, 4]);
}

/// The packets of a message at a circuit number of a fresh sender.
fn sent(number: usize, message: &[u8]) -> Vec<Vec<u8>> {
    let [address, extended, extension] = [0, 1, 2].map(|at| LIST[3 * number + at]);
    let circuit = Circuit {
        address,
        extension: (extended == 1).then_some(extension),
    };
    packets(circuit, message, 0, 1)
}

/// Bits used are a flag and, of each frame, packet and FCS, its zeros and a flag.
#[test]
fn bits_used_are_those_of_the_frames() {
    let bytes = [0x00, 0x1F, 0x7E, 0xAA, 0xF8, 0xFE, 0xFF];
    for (length, byte) in (0..=60).flat_map(|length| bytes.map(|byte| (length, byte))) {
        let (number, message) = (length % 4, vec![byte; length]);
        let mut end = End::fresh();
        assert_eq!(end.offer(number as u64, 1, 0, &message), 0);
        let [placed, used, zeros] = end.answered(PLAIN).map(|number| number as usize);
        let sent = sent(number, &message);
        let unstuffed: usize = sent.iter().map(|packet| 8 * (packet.len() + 2)).sum();
        assert_eq!(placed, sent.len());
        assert_eq!(used, 8 + unstuffed + zeros + 8 * placed);
    }
}

/// A block call on a fresh sender with an answer of so many bytes: the number answered, and the answer's bytes.
fn block_in_answer(call: BlockCall<'_>, length: usize) -> (u32, Vec<u8>) {
    let mut record = NO_SENDER;
    assert_eq!(calls::sender_list(&mut record, &LIST), 0);
    let given: ([u8; SENDER_RECORD], _, _) = (record, [0x5A; 188], vec![0x5A; length]);
    let (mut record, mut block, mut answer) = given.clone();
    let store = [0; SENDER_STORE];
    let answered = calls::sender_block(&mut record, &store, call, &mut block, &mut answer);
    assert!(answered == 0 || (record, block, &answer) == (given.0, given.1, &given.2));
    (answered, answer)
}

#[test]
fn an_answer_has_twelve_bytes() {
    let call = system(15, 4, b"25 fps");
    let told = [0, 0, 0, 0, 106, 0, 0, 0, 2, 0, 0, 0];
    for length in 0..12 {
        assert_eq!(block_in_answer(call, length), (255, vec![0x5A; length]));
    }
    assert_eq!(block_in_answer(call, 12), (0, told.to_vec()));
    for more in [1, 4, 100] {
        let expected = [&told[..], &vec![0x5A; more]].concat();
        assert_eq!(block_in_answer(call, 12 + more), (0, expected));
    }
}

#[test]
fn a_refused_call_leaves_the_answer() {
    let mut end = End::offered(0, &[0xFF; 15]);
    assert_eq!(end.answered(short(PLAIN)), [1, 201, 25]);
    let before = end.answer;
    for (call, store, room, refusal) in [
        (PLAIN, SENDER_STORE - 1, 188, 5),
        (BlockCall { n: 255, ..PLAIN }, SENDER_STORE, 188, 11),
        (PLAIN, SENDER_STORE, 187, 12),
        (system(16, 0, &[]), SENDER_STORE, 188, 13),
    ] {
        assert_eq!(end.block_in(call, store, room), Err(refusal));
        assert_eq!(end.answer, before);
    }
    assert_eq!(end.block(PLAIN), Ok(vec![]));
    assert_eq!(numbers(&end.answer), [0, 8, 0]);
}
