//! The sides behind the same calls. A call gives its answer or the number of the documents' refusal.

mod fast;
mod library;
mod plain;
mod reference;

pub use fast::Fast;
pub use library::Library;
pub use plain::Plain;
pub use reference::Reference;

use aes18::{SystemPacket, LONGEST_PACKET, TOTALS_RECORD};
use std::ops::Range;

/// One of the implementations that are timed.
pub trait Side {
    /// What it is called in tables and messages.
    const NAME: &'static str;
    type Sender: Sender;
    type Receiver: Receiver;
}

/// A side that has totals too.
pub trait TotalsSide: Side {
    type Totals: Totals;
}

/// A side that has the framing alone too.
pub trait FramingSide: Side {
    type Framing: Framing;
}

/// A side that has the serial line too.
pub trait LineSide: Side {
    type Line: Line;
}

/// A side whose ends may have a long buffer too.
pub trait LongSide: Side<Sender: LongSender, Receiver: LongReceiver> {}

/// A sender; before it is listed it has no circuits.
pub trait Sender: Default {
    fn list(&mut self, list: &[u8]) -> Result<(), u32>;
    fn offer(&mut self, store: &mut [u8], offer: Offer<'_>) -> Result<(), u32>;
    fn block(&mut self, store: &[u8], ask: Ask<'_>, block: &mut [u8]) -> Result<BlockAnswer, u32>;
}

/// A receiver; before it is listed it has no circuits.
pub trait Receiver: Default {
    fn list(&mut self, list: &[u8]) -> Result<(), u32>;
    fn read(&mut self, store: &mut [u8], bits: &[u8], part: Part) -> Result<ReadAnswer, u32>;
}

/// A sender that has a long buffer.
pub trait LongSender: Sender {
    fn offer_beside(
        &mut self,
        store: &mut [u8],
        buffer: &[u8],
        offer: Offer<'_>,
    ) -> Result<(), u32>;
    /// Offers a long message; the offer's circuit is 0.
    fn offer_long(&mut self, store: &[u8], buffer: &mut [u8], offer: Offer<'_>) -> Result<(), u32>;
    fn block_beside(
        &mut self,
        store: &[u8],
        buffer: &[u8],
        ask: Ask<'_>,
        block: &mut [u8],
    ) -> Result<BlockAnswer, u32>;
}

/// A receiver that has a long buffer.
pub trait LongReceiver: Receiver {
    fn read_beside(
        &mut self,
        store: &mut [u8],
        buffer: &mut [u8],
        bits: &[u8],
        part: Part,
    ) -> Result<ReadAnswer, u32>;
}

/// A framing, fresh at first.
pub trait Framing: Default {
    fn read(
        &mut self,
        bits: &[u8],
        part: Part,
        packet: &mut [u8; LONGEST_PACKET],
    ) -> Result<FramingAnswer, u32>;
}

/// Totals, empty at first.
pub trait Totals: Default {
    fn note(&mut self, answer: &ReadAnswer) -> Result<(), u32>;
    /// Their bytes in the library's record.
    fn record(&self) -> [u8; TOTALS_RECORD];
}

/// A reader of the serial line, fresh at first, and the writing call, which needs none.
pub trait Line: Default {
    /// Writes a packet's frame: its bytes.
    fn write(packet: &[u8], line: &mut [u8]) -> Result<u64, u32>;
    fn read(&mut self, line: &[u8], packet: &mut [u8; LONGEST_PACKET]) -> Result<LineAnswer, u32>;
}

/// A message that is offered.
#[derive(Clone, Copy)]
pub struct Offer<'a> {
    pub circuit: u64,
    pub priority: u64,
    pub repetition: u64,
    pub message: &'a [u8],
}

/// A block that is asked for: `n` bits, of which all may be used.
#[derive(Clone, Copy)]
pub struct Ask<'a> {
    pub n: u64,
    pub system: Option<SystemPacket<'a>>,
}

/// The bits that a reading call is given.
#[derive(Clone, Copy)]
pub struct Part {
    pub from: u64,
    pub to: u64,
}

/// The answer of block making, as the library writes it.
#[derive(Clone, Copy, Default, PartialEq, Eq)]
#[repr(C, align(4))]
pub struct BlockAnswer(pub [u8; 12]);

/// The answer of reading, as the library writes it.
#[derive(Clone, Copy, Default, PartialEq, Eq)]
#[repr(C, align(8))]
pub struct ReadAnswer(pub [u8; 16]);

impl ReadAnswer {
    /// Whether the notice is End.
    pub fn is_end(&self) -> bool {
        self.0[0] == 0
    }

    /// The bits read.
    pub fn bits(&self) -> u64 {
        let [_, _, _, _, _, _, _, _, bits @ ..] = self.0;
        u64::from_le_bytes(bits)
    }

    /// Where a message stands in the store, or a long one in the long buffer, if one came whole.
    pub fn whole(&self) -> Option<Range<usize>> {
        let [notice, number, _, fate, low, high, ..] = self.0;
        let start = aes18::REGION * usize::from(number);
        let length = usize::from(u16::from_le_bytes([low, high]));
        (notice == 5 && fate == 3).then_some(start..start + length)
    }
}

/// The answer of a framing's read, as the library writes it.
#[derive(Clone, Copy, Default, PartialEq, Eq)]
#[repr(C, align(8))]
pub struct FramingAnswer(pub [u8; 16]);

impl FramingAnswer {
    /// Whether it stopped at the end of the bits.
    pub fn is_end(&self) -> bool {
        self.0[0] == 0
    }

    /// The length of the packet, or 0.
    pub fn packet(&self) -> usize {
        usize::from(self.0[1])
    }

    /// The bits read.
    pub fn bits(&self) -> u64 {
        let [_, _, _, _, _, _, _, _, bits @ ..] = self.0;
        u64::from_le_bytes(bits)
    }
}

/// The answer of a line's read, as the library writes it.
#[derive(Clone, Copy, Default, PartialEq, Eq)]
#[repr(C, align(8))]
pub struct LineAnswer(pub [u8; 16]);

impl LineAnswer {
    /// The length of the packet, or 0.
    pub fn packet(&self) -> usize {
        usize::from(self.0[0])
    }

    /// The bytes read.
    pub fn bytes(&self) -> u64 {
        let [_, _, _, _, _, _, _, _, bytes @ ..] = self.0;
        u64::from_le_bytes(bytes)
    }
}

/// What a function in C answers, as a result.
fn answered(number: u32) -> Result<(), u32> {
    match number {
        0 => Ok(()),
        refusal => Err(refusal),
    }
}
