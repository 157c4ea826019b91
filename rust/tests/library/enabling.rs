//! The enable bits in force: what sets them, what they rule, and what leaves them.

use aes18::{ffi, Circuit, Refusal, Sender, SystemPacket, SENDER_RECORD, SENDER_STORE};

use super::frames::plain;

/// Where the record has them.
const ENABLE: usize = 54;
/// Bits of a block with room for a system packet and a short packet of every circuit, and its bytes.
const N: u64 = 512;
const BYTES: usize = 64;

/// A sender of four circuits, and its store. What is offered at a circuit has the circuit's number for its priority.
struct End {
    sender: Sender,
    store: Vec<u8>,
}

impl End {
    fn new() -> End {
        End {
            sender: Sender::list(&[0x10, 0x11, 0x12, 0x13].map(plain)).unwrap(),
            store: vec![0; SENDER_STORE],
        }
    }

    /// Offers a message of one packet at every circuit where nothing waits.
    fn offer_all(&mut self) {
        let waiting = self.waiting();
        for circuit in (0..4).filter(|circuit| waiting >> circuit & 1 == 0) {
            let offered = self.sender.offer(&mut self.store, circuit, circuit, 0, &[]);
            assert_eq!(offered, Ok(()));
        }
    }

    /// Makes a block, with a system packet of these enable bits or none, and answers where a packet still waits: bit 3 for circuit 3 down to bit 0.
    fn block(&mut self, enable: Option<u64>) -> u8 {
        let system = enable.map(system);
        let before = self.waiting();
        let made = self
            .sender
            .block(&self.store, N, N, system, &mut [0; BYTES]);
        assert_eq!(
            made.unwrap().placed,
            (before ^ self.waiting()).count_ones(),
            "frames placed"
        );
        self.waiting()
    }

    /// Offers at every circuit where nothing waits, makes a block without a system packet, and answers where a packet still waits.
    fn offered_and_placed(&mut self) -> u8 {
        self.offer_all();
        self.block(None)
    }

    fn waiting(&self) -> u8 {
        let waits = |circuit| u8::from(self.sender.waiting(circuit) > 0) << circuit;
        (0..4).map(waits).sum()
    }
}

fn system(enable: u64) -> SystemPacket<'static> {
    SystemPacket {
        enable,
        code: 0,
        information: &[],
    }
}

#[test]
fn a_fresh_sender_has_all_enabled() {
    let circuits: [Circuit; 4] = [1, 2, 3, 4].map(plain);
    for count in 1..=4 {
        let sender = Sender::list(&circuits[..count]).unwrap();
        assert_eq!(sender.enable(), 15);
        assert_eq!(sender.as_bytes()[ENABLE], 15);
    }
    assert_eq!(End::new().offered_and_placed(), 0);
}

#[test]
fn a_default_system_packet_enables_all() {
    assert_eq!(SystemPacket::default(), system(15));
    assert_eq!(SystemPacket::default().enable, SystemPacket::ALL_ENABLED);
}

#[test]
fn they_rule_their_own_block_and_all_later_ones() {
    for enable in 0..16u8 {
        let mut end = End::new();
        end.offer_all();
        assert_eq!(end.block(Some(enable.into())), 15 - enable, "own block");
        let later = [(); 4].map(|()| end.offered_and_placed());
        assert_eq!(later, [15 - enable; 4], "later blocks");
        assert_eq!(end.sender.enable(), enable.into());
        assert_eq!(end.block(Some(15)), 0, "all enabled again");
        assert_eq!(end.offered_and_placed(), 0, "and behind that");
    }
}

#[test]
fn another_system_packet_replaces_them() {
    let mut end = End::new();
    for enable in [0b0101, 0b1010, 0b0000, 0b1111, 0b1000, 0b0111] {
        end.offer_all();
        assert_eq!(end.block(Some(enable)), 15 - enable as u8);
        assert_eq!(end.offered_and_placed(), 15 - enable as u8);
    }
}

/// With 0 every block is a flag and ones, but for the system packet's own, and what waits goes out with the next that enables it.
#[test]
fn none_enabled_holds_everything_back() {
    let mut end = End::new();
    end.offer_all();
    assert_eq!(end.block(Some(0)), 15);
    let before = end.sender;
    for _ in 0..100 {
        let mut bits = [0; BYTES];
        let made = end.sender.block(&end.store, N, N, None, &mut bits).unwrap();
        assert_eq!((made.placed, made.used, made.zeros), (0, 8, 0));
        assert_eq!((bits[0], &bits[1..]), (0x7E, &[0xFF; BYTES - 1][..]));
        assert_eq!(end.sender, before);
    }
    assert_eq!(end.block(Some(SystemPacket::ALL_ENABLED)), 0);
    assert_eq!(end.sender.enable(), 15);
}

#[test]
fn offers_leave_them() {
    let mut end = End::new();
    end.block(Some(0b0101));
    end.offer_all();
    assert_eq!(end.sender.enable(), 0b0101);
    for circuit in [0, 3, 4] {
        let refused = end.sender.offer(&mut end.store, circuit, 3, 0, b"refused");
        assert!(refused.is_err());
        assert_eq!(end.sender.enable(), 0b0101);
    }
}

#[test]
fn refused_blocks_leave_them() {
    let mut end = End::new();
    end.block(Some(0b0101));
    end.offer_all();
    let all = system(15);
    let code = SystemPacket { code: 9, ..all };
    let information = SystemPacket {
        information: &[0; 16],
        ..all
    };
    let cases = [
        (SENDER_STORE - 1, N, BYTES, all, Refusal::StoreTooShort),
        (SENDER_STORE, 255, BYTES, all, Refusal::BlockBits),
        (SENDER_STORE, N, BYTES - 1, all, Refusal::BufferTooShort),
        (SENDER_STORE, N, BYTES, system(16), Refusal::SystemPacket),
        (SENDER_STORE, N, BYTES, code, Refusal::SystemPacket),
        (SENDER_STORE, N, BYTES, information, Refusal::SystemPacket),
    ];
    let before = end.sender;
    for (room, n, buffer, system, refusal) in cases {
        let mut bits = [0xAA; BYTES];
        let store = &end.store[..room];
        let refused = (end.sender).block(store, n, n, Some(system), &mut bits[..buffer]);
        assert_eq!(refused, Err(refusal));
        assert_eq!(end.sender, before);
        assert_eq!(bits, [0xAA; BYTES]);
    }
    assert_eq!(end.block(None), 0b1010);
}

/// What the safe types cannot pass: no system packet, and arguments for one. They are neither looked at nor stored.
#[test]
fn arguments_without_a_system_packet_leave_them() {
    let mut end = End::new();
    end.block(Some(0b0110));
    let mut record = *end.sender.as_bytes();
    let (mut block, mut answer) = ([0; BYTES], [0; 12]);
    for enable in [0, 9, 15, 16, 255, u64::MAX] {
        // SAFETY: each pointer is of a slice and passed with its length, and those that are written overlap no other.
        let number = unsafe {
            ffi::aes18_sender_block(
                record.as_mut_ptr(),
                record.len(),
                end.store.as_ptr(),
                end.store.len(),
                N,
                N,
                0,
                enable,
                u64::MAX,
                [0x55; 16].as_ptr(),
                16,
                block.as_mut_ptr(),
                block.len(),
                answer.as_mut_ptr(),
                answer.len(),
            )
        };
        assert_eq!(number, 0);
        assert_eq!(&record, end.sender.as_bytes());
    }
}

/// The record that a refused listing writes.
fn no_circuits() -> [u8; SENDER_RECORD] {
    let mut record = [0xAA; SENDER_RECORD];
    let list = [0xFF, 0, 0];
    // SAFETY: both slices are valid for their lengths.
    let number = unsafe {
        ffi::aes18_sender_list(record.as_mut_ptr(), record.len(), list.as_ptr(), list.len())
    };
    assert_eq!(number, 2);
    record
}

#[test]
fn a_refused_listing_has_all_enabled() {
    let slot = [0, 0, 0, 0, 0, 0, 1, 0, 0, 0];
    let record = [&[0; 13][..], &slot.repeat(4), &[3, 15]].concat();
    assert_eq!(no_circuits()[..], record);
}

#[test]
fn bits_above_15_are_out_of_range() {
    let listed = *End::new().sender.as_bytes();
    out_of_range_above_15(listed, Ok(()));
    out_of_range_above_15(no_circuits(), Err(Refusal::CircuitNotListed));
}

/// Any byte up to 15 is in range in this record, and any above is not. What an offer answers in range is given.
fn out_of_range_above_15(mut record: [u8; SENDER_RECORD], offered: Result<(), Refusal>) {
    let refused = Err(Refusal::RecordOutOfRange);
    for enable in 0..=255 {
        record[ENABLE] = enable;
        let answers = match enable {
            0..=15 => (offered, Ok(())),
            16.. => (refused, refused),
        };
        assert_eq!(calls_on(record), answers, "enable bits {enable}");
    }
}

/// What an offer and a block on this record answer. The block's system packet would enable all. Refused ones leave every byte.
fn calls_on(record: [u8; SENDER_RECORD]) -> (Result<(), Refusal>, Result<(), Refusal>) {
    let (mut store, mut bits) = ([0xAA; SENDER_STORE], [0xAA; BYTES]);
    let mut sender = Sender::from_bytes(record);
    assert_eq!(sender.enable(), record[ENABLE].into());
    let offered = sender.offer(&mut store, 0, 0, 0, b"message");
    if offered.is_err() {
        assert_eq!(sender.as_bytes(), &record);
        assert!(
            store == [0xAA; SENDER_STORE],
            "the offer wrote to the store"
        );
    }
    let before = sender;
    let made = sender.block(&store, N, N, Some(system(15)), &mut bits);
    match made {
        Ok(_) => assert_eq!(sender.enable(), 15),
        Err(_) => {
            assert_eq!(sender, before);
            assert_eq!(bits, [0xAA; BYTES]);
        }
    }
    (offered, made.map(|_| ()))
}
