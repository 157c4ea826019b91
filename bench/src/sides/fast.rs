//! Fast C: fast.c, as bench.h declares it. Records, listing and offers are plain C's.

use super::plain::{PlainFraming, PlainReceiver, PlainSender, PlainSystem};
use super::{
    Ask, BlockAnswer, Framing, FramingAnswer, FramingSide, Offer, Part, ReadAnswer, Receiver,
    Sender, Side,
};
use aes18::LONGEST_PACKET;

pub struct Fast;

impl Side for Fast {
    const NAME: &'static str = "fast C";
    type Sender = FastSender;
    type Receiver = FastReceiver;
}

impl FramingSide for Fast {
    type Framing = FastFraming;
}

#[derive(Default)]
pub struct FastSender(PlainSender);

#[derive(Default)]
pub struct FastReceiver(PlainReceiver);

#[derive(Default)]
pub struct FastFraming(PlainFraming);

extern "C" {
    fn fast_sender_block(
        s: *mut PlainSender,
        store: *const u8,
        store_len: usize,
        n: u64,
        u: u64,
        system: *const PlainSystem,
        block: *mut u8,
        block_len: usize,
        answer: *mut BlockAnswer,
    ) -> u32;
    fn fast_receiver_read(
        r: *mut PlainReceiver,
        store: *mut u8,
        store_len: usize,
        bits: *const u8,
        bits_len: usize,
        from: u64,
        to: u64,
        answer: *mut ReadAnswer,
    ) -> u32;
    fn fast_framing_read(
        f: *mut PlainFraming,
        bits: *const u8,
        bits_len: usize,
        from: u64,
        to: u64,
        packet: *mut [u8; LONGEST_PACKET],
        answer: *mut FramingAnswer,
    ) -> u32;
}

impl Sender for FastSender {
    fn list(&mut self, list: &[u8]) -> Result<(), u32> {
        self.0.list(list)
    }

    fn offer(&mut self, store: &mut [u8], offer: Offer<'_>) -> Result<(), u32> {
        self.0.offer(store, offer)
    }

    fn block(&mut self, store: &[u8], ask: Ask<'_>, block: &mut [u8]) -> Result<BlockAnswer, u32> {
        self.0.block_by(fast_sender_block, store, ask, block)
    }
}

impl Receiver for FastReceiver {
    fn list(&mut self, list: &[u8]) -> Result<(), u32> {
        self.0.list(list)
    }

    fn read(&mut self, store: &mut [u8], bits: &[u8], part: Part) -> Result<ReadAnswer, u32> {
        self.0.read_by(fast_receiver_read, store, bits, part)
    }
}

impl Framing for FastFraming {
    fn read(
        &mut self,
        bits: &[u8],
        part: Part,
        packet: &mut [u8; LONGEST_PACKET],
    ) -> Result<FramingAnswer, u32> {
        self.0.read_by(fast_framing_read, bits, part, packet)
    }
}
