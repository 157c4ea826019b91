//! A pass through a sender and a receiver.

use aes18::{Circuit, Notice, Receiver, Sender, RECEIVER_STORE, SENDER_STORE};

use super::frames::plain;

const N: u64 = 2000;

/// A block with messages at three circuits.
fn block(circuits: &[Circuit]) -> [u8; 250] {
    let mut store = [0; SENDER_STORE];
    let mut sender = Sender::list(circuits).unwrap();
    sender.offer(&mut store, 0, 1, 1, &[0xFF; 40]).unwrap();
    sender.offer(&mut store, 1, 3, 0, b"first").unwrap();
    sender.offer(&mut store, 2, 1, 0, &[0x7E; 15]).unwrap();
    let mut bits = [0; 250];
    let made = sender.block(&store, N, N, None, &mut bits).unwrap();
    assert_eq!(made.placed, 8);
    assert_eq!([0, 1, 2].map(|number| sender.waiting(number)), [0; 3]);
    bits
}

/// The notices before End of bits read in calls of at most `step` bits.
fn read(circuits: &[Circuit], bits: &[u8], step: u64) -> Vec<(u64, Notice, Option<Vec<u8>>)> {
    let mut store = [0; RECEIVER_STORE];
    let mut receiver = Receiver::list(circuits).unwrap();
    let mut told = Vec::new();
    let mut from = 0;
    while from < N {
        let to = N.min(from + step);
        let read = receiver.read(&mut store, bits, from, to).unwrap();
        from += read.bits;
        if read.notice != Notice::End {
            let message = read.notice.message(&store).map(<[u8]>::to_vec);
            told.push((from, read.notice, message));
        }
    }
    told
}

#[test]
fn messages_come_back_by_priority() {
    let circuits = [plain(0x01), plain(0x02), plain(0x03)];
    let told = read(&circuits, &block(&circuits), N);
    let messages: Vec<Vec<u8>> = told.into_iter().filter_map(|told| told.2).collect();
    assert_eq!(
        messages,
        [b"first".to_vec(), vec![0x7E; 15], vec![0xFF; 40]]
    );
}

#[test]
fn bits_may_be_cut_anywhere() {
    let circuits = [plain(0x01), plain(0x02), plain(0x03)];
    let bits = block(&circuits);
    let told = read(&circuits, &bits, N);
    assert_eq!(told.len(), 8);
    for step in [1, 2, 3, 7, 8, 9, 64, 131, 1999] {
        assert_eq!(read(&circuits, &bits, step), told, "{step} bits at a time");
    }
}
