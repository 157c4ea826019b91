//! How deep the calls go on the stack: each runs on a stack of its own that is filled with a pattern beforehand (stack.c).

use crate::blocks::{make, Made, Traffic};
use crate::framings::{scan, Scanned};
use crate::lines::{take, write, LineBytes, Packets, Taken, Written};
use crate::longs::{self, Messages};
use crate::notes::{answers, note, Noted};
use crate::reads::Channel;
use crate::sides::{
    Ask, BlockAnswer, Framing, FramingAnswer, FramingSide, Line, LineAnswer, LineSide,
    LongReceiver, LongSender, LongSide, Offer, Part, ReadAnswer, Receiver, Sender, Side, Totals,
    TotalsSide,
};
use aes18::{LONGEST_PACKET, TOTALS_RECORD};
use std::cell::Cell;
use std::ffi::c_void;
use std::marker::PhantomData;

/// The names of the calls.
pub const CALLS: [&str; 13] = [
    "sender_list",
    "sender_offer",
    "sender_offer_beside",
    "sender_offer_long",
    "sender_block",
    "sender_block_beside",
    "receiver_list",
    "receiver_read",
    "receiver_read_beside",
    "framing_read",
    "totals_note",
    "line_write",
    "line_read",
];

/// The number of a call among them.
#[derive(Clone, Copy)]
enum Call {
    SenderList,
    SenderOffer,
    SenderOfferBeside,
    SenderOfferLong,
    SenderBlock,
    SenderBlockBeside,
    ReceiverList,
    ReceiverRead,
    ReceiverReadBeside,
    FramingRead,
    TotalsNote,
    LineWrite,
    LineRead,
}

/// What the calls are made over: blocks of the traffic are made, the channel is read by a receiver, noted, and read by a framing, the packets are
/// written and the line is read; with a long buffer blocks of messages are made and their channel is read.
#[derive(Clone, Copy)]
pub struct Work<'a> {
    pub traffic: &'a Traffic,
    pub channel: &'a Channel,
    pub packets: &'a Packets,
    pub line: &'a LineBytes,
    /// Short ones and a long one.
    pub messages: [&'a Messages; 2],
    pub beside: &'a Channel,
}

thread_local! {
    /// The bytes that the deepest of each of these calls has touched.
    static DEEPEST: Cell<[usize; CALLS.len()]> = const { Cell::new([0; CALLS.len()]) };
}

/// The bytes that the deepest of each of these calls touches while the work is done.
pub fn depths<S: LongSide + TotalsSide + FramingSide + LineSide>(
    work: Work<'_>,
) -> Result<[usize; CALLS.len()], u32> {
    DEEPEST.set([0; CALLS.len()]);
    make::<Painted<S>>(work.traffic, &mut Made::default())?;
    let answers = answers::<Painted<S>>(work.channel)?;
    note::<Painted<S>>(&answers, &mut Noted::default())?;
    scan::<Painted<S>>(work.channel, &mut Scanned::default())?;
    write::<Painted<S>>(work.packets, &mut Written::default())?;
    take::<Painted<S>>(work.line, &mut Taken::default())?;
    for messages in work.messages {
        longs::make::<Painted<S>>(messages, &mut longs::Made::default())?;
    }
    longs::hear::<Painted<S>>(work.beside, &mut longs::Heard::default())?;
    Ok(DEEPEST.get())
}

/// Makes a call on a painted stack and keeps its depth beyond that of an empty one; the arguments that are passed on the stack are counted too.
fn painted<T>(call: Call, mut run: impl FnMut() -> Result<T, u32>) -> Result<T, u32> {
    let mut result = Err(0);
    let depth = touched(|| result = run()) - touched(|| ());
    let mut deepest = DEEPEST.get();
    deepest[call as usize] = deepest[call as usize].max(depth);
    DEEPEST.set(deepest);
    result
}

/// How many bytes of a stack of its own a function touches.
fn touched<F: FnMut()>(mut function: F) -> usize {
    extern "C" {
        fn stack_depth(call: unsafe extern "C" fn(*mut c_void), given: *mut c_void) -> usize;
    }
    unsafe extern "C" fn run<F: FnMut()>(given: *mut c_void) {
        let function = given.cast::<F>();
        (*function)();
    }
    // SAFETY: `run` is called once, before this returns, with the pointer to `function` given here.
    unsafe { stack_depth(run::<F>, (&raw mut function).cast()) }
}

/// A side whose calls are made on a painted stack.
struct Painted<S>(PhantomData<S>);

impl<S: Side> Side for Painted<S> {
    const NAME: &'static str = S::NAME;
    type Sender = PaintedSender<S::Sender>;
    type Receiver = PaintedReceiver<S::Receiver>;
}

impl<S: LongSide> LongSide for Painted<S> {}

impl<S: TotalsSide> TotalsSide for Painted<S> {
    type Totals = PaintedTotals<S::Totals>;
}

impl<S: FramingSide> FramingSide for Painted<S> {
    type Framing = PaintedFraming<S::Framing>;
}

impl<S: LineSide> LineSide for Painted<S> {
    type Line = PaintedLine<S::Line>;
}

#[derive(Default)]
struct PaintedSender<E>(E);

impl<E: Sender> Sender for PaintedSender<E> {
    fn list(&mut self, list: &[u8]) -> Result<(), u32> {
        painted(Call::SenderList, || self.0.list(list))
    }

    fn offer(&mut self, store: &mut [u8], offer: Offer<'_>) -> Result<(), u32> {
        painted(Call::SenderOffer, || self.0.offer(store, offer))
    }

    fn block(&mut self, store: &[u8], ask: Ask<'_>, block: &mut [u8]) -> Result<BlockAnswer, u32> {
        painted(Call::SenderBlock, || self.0.block(store, ask, block))
    }
}

impl<E: LongSender> LongSender for PaintedSender<E> {
    fn offer_beside(
        &mut self,
        store: &mut [u8],
        buffer: &[u8],
        offer: Offer<'_>,
    ) -> Result<(), u32> {
        painted(Call::SenderOfferBeside, || {
            self.0.offer_beside(store, buffer, offer)
        })
    }

    fn offer_long(&mut self, store: &[u8], buffer: &mut [u8], offer: Offer<'_>) -> Result<(), u32> {
        painted(Call::SenderOfferLong, || {
            self.0.offer_long(store, buffer, offer)
        })
    }

    fn block_beside(
        &mut self,
        store: &[u8],
        buffer: &[u8],
        ask: Ask<'_>,
        block: &mut [u8],
    ) -> Result<BlockAnswer, u32> {
        painted(Call::SenderBlockBeside, || {
            self.0.block_beside(store, buffer, ask, block)
        })
    }
}

#[derive(Default)]
struct PaintedReceiver<E>(E);

impl<E: Receiver> Receiver for PaintedReceiver<E> {
    fn list(&mut self, list: &[u8]) -> Result<(), u32> {
        painted(Call::ReceiverList, || self.0.list(list))
    }

    fn read(&mut self, store: &mut [u8], bits: &[u8], part: Part) -> Result<ReadAnswer, u32> {
        painted(Call::ReceiverRead, || self.0.read(store, bits, part))
    }
}

impl<E: LongReceiver> LongReceiver for PaintedReceiver<E> {
    fn read_beside(
        &mut self,
        store: &mut [u8],
        buffer: &mut [u8],
        bits: &[u8],
        part: Part,
    ) -> Result<ReadAnswer, u32> {
        painted(Call::ReceiverReadBeside, || {
            self.0.read_beside(store, buffer, bits, part)
        })
    }
}

#[derive(Default)]
struct PaintedFraming<E>(E);

impl<E: Framing> Framing for PaintedFraming<E> {
    fn read(
        &mut self,
        bits: &[u8],
        part: Part,
        packet: &mut [u8; LONGEST_PACKET],
    ) -> Result<FramingAnswer, u32> {
        painted(Call::FramingRead, || self.0.read(bits, part, packet))
    }
}

#[derive(Default)]
struct PaintedTotals<E>(E);

impl<E: Totals> Totals for PaintedTotals<E> {
    fn note(&mut self, answer: &ReadAnswer) -> Result<(), u32> {
        painted(Call::TotalsNote, || self.0.note(answer))
    }

    fn record(&self) -> [u8; TOTALS_RECORD] {
        self.0.record()
    }
}

#[derive(Default)]
struct PaintedLine<E>(E);

impl<E: Line> Line for PaintedLine<E> {
    fn write(packet: &[u8], line: &mut [u8]) -> Result<u64, u32> {
        painted(Call::LineWrite, || E::write(packet, line))
    }

    fn read(&mut self, line: &[u8], packet: &mut [u8; LONGEST_PACKET]) -> Result<LineAnswer, u32> {
        painted(Call::LineRead, || self.0.read(line, packet))
    }
}
