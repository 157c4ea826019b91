//! Plain C: plain.c, as bench.h declares it.

use super::{
    answered, Ask, BlockAnswer, Framing, FramingAnswer, FramingSide, Line, LineAnswer, LineSide,
    LongReceiver, LongSender, LongSide, Offer, Part, ReadAnswer, Receiver, Sender, Side, Totals,
    TotalsSide,
};
use aes18::{LONGEST_PACKET, TOTALS_RECORD};
use std::ptr;

pub struct Plain;

impl Side for Plain {
    const NAME: &'static str = "plain C";
    type Sender = PlainSender;
    type Receiver = PlainReceiver;
}

impl LongSide for Plain {}

impl TotalsSide for Plain {
    type Totals = PlainTotals;
}

impl FramingSide for Plain {
    type Framing = PlainFraming;
}

impl LineSide for Plain {
    type Line = PlainLine;
}

/// Room for either struct of plain.c, which says how much of it is used.
type Room = [u64; 16];

#[derive(Default)]
#[repr(C)]
pub struct PlainSender(Room);

#[derive(Default)]
#[repr(C)]
pub struct PlainReceiver(Room);

/// The last 16 bits, three numbers of a byte each, and the bytes of a body.
#[repr(C)]
pub struct PlainFraming(u16, [u8; 3], [u8; 22]);

/// Fresh: ones before the first bit, and nothing kept.
impl Default for PlainFraming {
    fn default() -> PlainFraming {
        PlainFraming(0xFFFF, [0; 3], [0; 22])
    }
}

/// The figures in their order.
#[derive(Default)]
#[repr(C)]
pub struct PlainTotals([u32; TOTALS_RECORD / 4]);

/// Three numbers of a byte each, and the bytes behind the last flag.
#[derive(Default)]
#[repr(C)]
pub struct PlainLine([u8; 3], [u8; 21]);

#[repr(C)]
pub struct PlainSystem {
    enable: u64,
    code: u64,
    info: *const u8,
    info_len: usize,
}

impl PlainSystem {
    /// The system packet that is wanted.
    fn of(ask: Ask<'_>) -> Option<PlainSystem> {
        ask.system.map(|system| PlainSystem {
            enable: system.enable,
            code: system.code,
            info: system.information.as_ptr(),
            info_len: system.information.len(),
        })
    }
}

/// Block making in C, over plain C's record.
pub type MakeBlock = unsafe extern "C" fn(
    s: *mut PlainSender,
    store: *const u8,
    store_len: usize,
    n: u64,
    u: u64,
    system: *const PlainSystem,
    block: *mut u8,
    block_len: usize,
    answer: *mut BlockAnswer,
) -> u32;

/// Reading in C, over plain C's record.
pub type ReadBits = unsafe extern "C" fn(
    r: *mut PlainReceiver,
    store: *mut u8,
    store_len: usize,
    bits: *const u8,
    bits_len: usize,
    from: u64,
    to: u64,
    answer: *mut ReadAnswer,
) -> u32;

/// Reading by a framing in C, over plain C's.
pub type ReadBody = unsafe extern "C" fn(
    f: *mut PlainFraming,
    bits: *const u8,
    bits_len: usize,
    from: u64,
    to: u64,
    packet: *mut [u8; LONGEST_PACKET],
    answer: *mut FramingAnswer,
) -> u32;

extern "C" {
    static plain_sender_size: usize;
    static plain_receiver_size: usize;
    fn plain_sender_list(s: *mut PlainSender, list: *const u8, list_len: usize) -> u32;
    fn plain_sender_offer(
        s: *mut PlainSender,
        store: *mut u8,
        store_len: usize,
        circuit: u64,
        priority: u64,
        repetition: u64,
        message: *const u8,
        message_len: usize,
    ) -> u32;
    fn plain_sender_offer_beside(
        s: *mut PlainSender,
        store: *mut u8,
        store_len: usize,
        buffer: *const u8,
        buffer_len: usize,
        circuit: u64,
        priority: u64,
        repetition: u64,
        message: *const u8,
        message_len: usize,
    ) -> u32;
    fn plain_sender_offer_long(
        s: *mut PlainSender,
        store_len: usize,
        buffer: *mut u8,
        buffer_len: usize,
        priority: u64,
        repetition: u64,
        message: *const u8,
        message_len: usize,
    ) -> u32;
    fn plain_sender_block(
        s: *mut PlainSender,
        store: *const u8,
        store_len: usize,
        n: u64,
        u: u64,
        system: *const PlainSystem,
        block: *mut u8,
        block_len: usize,
        answer: *mut BlockAnswer,
    ) -> u32;
    fn plain_sender_block_beside(
        s: *mut PlainSender,
        store: *const u8,
        store_len: usize,
        buffer: *const u8,
        buffer_len: usize,
        n: u64,
        u: u64,
        system: *const PlainSystem,
        block: *mut u8,
        block_len: usize,
        answer: *mut BlockAnswer,
    ) -> u32;
    fn plain_receiver_list(r: *mut PlainReceiver, list: *const u8, list_len: usize) -> u32;
    fn plain_receiver_read(
        r: *mut PlainReceiver,
        store: *mut u8,
        store_len: usize,
        bits: *const u8,
        bits_len: usize,
        from: u64,
        to: u64,
        answer: *mut ReadAnswer,
    ) -> u32;
    fn plain_receiver_read_beside(
        r: *mut PlainReceiver,
        store: *mut u8,
        store_len: usize,
        buffer: *mut u8,
        buffer_len: usize,
        bits: *const u8,
        bits_len: usize,
        from: u64,
        to: u64,
        answer: *mut ReadAnswer,
    ) -> u32;
    fn plain_framing_read(
        f: *mut PlainFraming,
        bits: *const u8,
        bits_len: usize,
        from: u64,
        to: u64,
        packet: *mut [u8; LONGEST_PACKET],
        answer: *mut FramingAnswer,
    ) -> u32;
    fn plain_totals_note(t: *mut PlainTotals, answer: *const ReadAnswer) -> u32;
    fn plain_line_write(
        packet: *const u8,
        packet_len: usize,
        line: *mut u8,
        line_len: usize,
        written: *mut u64,
    ) -> u32;
    fn plain_line_read(
        r: *mut PlainLine,
        line: *const u8,
        line_len: usize,
        packet: *mut [u8; LONGEST_PACKET],
        answer: *mut LineAnswer,
    ) -> u32;
}

impl Plain {
    /// Bytes of the two records, if there is room for them.
    pub fn record_sizes() -> Result<[usize; 2], String> {
        // SAFETY: both are constants of plain.c.
        let sizes = unsafe { [plain_sender_size, plain_receiver_size] };
        if sizes.iter().any(|&size| size > size_of::<Room>()) {
            return Err(format!(
                "the records of plain C have {sizes:?} bytes, more than there is room for"
            ));
        }
        Ok(sizes)
    }
}

// SAFETY of the calls below: a record has room for the struct (`record_sizes`), a framing, totals, a line's reader and an answer are laid out as their
// structs, a packet that is read has room for the longest, each other pointer is of a slice and passed with its length, and nothing that is written
// overlaps anything else. The calls that are given as functions are of plain.c or fast.c.

impl PlainSender {
    /// Makes a block by one of the functions in C.
    pub fn block_by(
        &mut self,
        make: MakeBlock,
        store: &[u8],
        ask: Ask<'_>,
        block: &mut [u8],
    ) -> Result<BlockAnswer, u32> {
        let mut answer = BlockAnswer::default();
        let system = PlainSystem::of(ask);
        answered(unsafe {
            make(
                self,
                store.as_ptr(),
                store.len(),
                ask.n,
                ask.n,
                system.as_ref().map_or(ptr::null(), ptr::from_ref),
                block.as_mut_ptr(),
                block.len(),
                &mut answer,
            )
        })?;
        Ok(answer)
    }
}

impl PlainReceiver {
    /// Reads by one of the functions in C.
    pub fn read_by(
        &mut self,
        read: ReadBits,
        store: &mut [u8],
        bits: &[u8],
        part: Part,
    ) -> Result<ReadAnswer, u32> {
        let mut answer = ReadAnswer::default();
        answered(unsafe {
            read(
                self,
                store.as_mut_ptr(),
                store.len(),
                bits.as_ptr(),
                bits.len(),
                part.from,
                part.to,
                &mut answer,
            )
        })?;
        Ok(answer)
    }
}

impl PlainFraming {
    /// Reads by one of the functions in C.
    pub fn read_by(
        &mut self,
        read: ReadBody,
        bits: &[u8],
        part: Part,
        packet: &mut [u8; LONGEST_PACKET],
    ) -> Result<FramingAnswer, u32> {
        let mut answer = FramingAnswer::default();
        let (bits, length) = (bits.as_ptr(), bits.len());
        answered(unsafe { read(self, bits, length, part.from, part.to, packet, &mut answer) })?;
        Ok(answer)
    }
}

impl Sender for PlainSender {
    fn list(&mut self, list: &[u8]) -> Result<(), u32> {
        answered(unsafe { plain_sender_list(self, list.as_ptr(), list.len()) })
    }

    fn offer(&mut self, store: &mut [u8], offer: Offer<'_>) -> Result<(), u32> {
        answered(unsafe {
            plain_sender_offer(
                self,
                store.as_mut_ptr(),
                store.len(),
                offer.circuit,
                offer.priority,
                offer.repetition,
                offer.message.as_ptr(),
                offer.message.len(),
            )
        })
    }

    fn block(&mut self, store: &[u8], ask: Ask<'_>, block: &mut [u8]) -> Result<BlockAnswer, u32> {
        self.block_by(plain_sender_block, store, ask, block)
    }
}

impl LongSender for PlainSender {
    fn offer_beside(
        &mut self,
        store: &mut [u8],
        buffer: &[u8],
        offer: Offer<'_>,
    ) -> Result<(), u32> {
        answered(unsafe {
            plain_sender_offer_beside(
                self,
                store.as_mut_ptr(),
                store.len(),
                buffer.as_ptr(),
                buffer.len(),
                offer.circuit,
                offer.priority,
                offer.repetition,
                offer.message.as_ptr(),
                offer.message.len(),
            )
        })
    }

    fn offer_long(&mut self, store: &[u8], buffer: &mut [u8], offer: Offer<'_>) -> Result<(), u32> {
        answered(unsafe {
            plain_sender_offer_long(
                self,
                store.len(),
                buffer.as_mut_ptr(),
                buffer.len(),
                offer.priority,
                offer.repetition,
                offer.message.as_ptr(),
                offer.message.len(),
            )
        })
    }

    fn block_beside(
        &mut self,
        store: &[u8],
        buffer: &[u8],
        ask: Ask<'_>,
        block: &mut [u8],
    ) -> Result<BlockAnswer, u32> {
        let mut answer = BlockAnswer::default();
        let system = PlainSystem::of(ask);
        answered(unsafe {
            plain_sender_block_beside(
                self,
                store.as_ptr(),
                store.len(),
                buffer.as_ptr(),
                buffer.len(),
                ask.n,
                ask.n,
                system.as_ref().map_or(ptr::null(), ptr::from_ref),
                block.as_mut_ptr(),
                block.len(),
                &mut answer,
            )
        })?;
        Ok(answer)
    }
}

impl Receiver for PlainReceiver {
    fn list(&mut self, list: &[u8]) -> Result<(), u32> {
        answered(unsafe { plain_receiver_list(self, list.as_ptr(), list.len()) })
    }

    fn read(&mut self, store: &mut [u8], bits: &[u8], part: Part) -> Result<ReadAnswer, u32> {
        self.read_by(plain_receiver_read, store, bits, part)
    }
}

impl LongReceiver for PlainReceiver {
    fn read_beside(
        &mut self,
        store: &mut [u8],
        buffer: &mut [u8],
        bits: &[u8],
        part: Part,
    ) -> Result<ReadAnswer, u32> {
        let mut answer = ReadAnswer::default();
        answered(unsafe {
            plain_receiver_read_beside(
                self,
                store.as_mut_ptr(),
                store.len(),
                buffer.as_mut_ptr(),
                buffer.len(),
                bits.as_ptr(),
                bits.len(),
                part.from,
                part.to,
                &mut answer,
            )
        })?;
        Ok(answer)
    }
}

impl Framing for PlainFraming {
    fn read(
        &mut self,
        bits: &[u8],
        part: Part,
        packet: &mut [u8; LONGEST_PACKET],
    ) -> Result<FramingAnswer, u32> {
        self.read_by(plain_framing_read, bits, part, packet)
    }
}

impl Totals for PlainTotals {
    fn note(&mut self, answer: &ReadAnswer) -> Result<(), u32> {
        answered(unsafe { plain_totals_note(self, answer) })
    }

    fn record(&self) -> [u8; TOTALS_RECORD] {
        let mut record = [0; TOTALS_RECORD];
        for (bytes, figure) in record.chunks_mut(4).zip(self.0) {
            bytes.copy_from_slice(&figure.to_le_bytes());
        }
        record
    }
}

impl Line for PlainLine {
    fn write(packet: &[u8], line: &mut [u8]) -> Result<u64, u32> {
        let mut written = 0;
        answered(unsafe {
            plain_line_write(
                packet.as_ptr(),
                packet.len(),
                line.as_mut_ptr(),
                line.len(),
                &mut written,
            )
        })?;
        Ok(written)
    }

    fn read(&mut self, line: &[u8], packet: &mut [u8; LONGEST_PACKET]) -> Result<LineAnswer, u32> {
        let mut answer = LineAnswer::default();
        answered(unsafe { plain_line_read(self, line.as_ptr(), line.len(), packet, &mut answer) })?;
        Ok(answer)
    }
}
