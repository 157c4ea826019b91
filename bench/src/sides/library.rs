//! The library through its functions in C.

use super::{
    answered, Ask, BlockAnswer, Framing, FramingAnswer, FramingSide, Line, LineAnswer, LineSide,
    LongReceiver, LongSender, LongSide, Offer, Part, ReadAnswer, Receiver, Sender, Side, Totals,
    TotalsSide,
};
use aes18::{
    ffi, SystemPacket, FRAMING_RECORD, LINE_RECORD, LONGEST_PACKET, RECEIVER_RECORD, SENDER_RECORD,
    TOTALS_RECORD,
};

pub struct Library;

impl Side for Library {
    const NAME: &'static str = "library";
    type Sender = LibrarySender;
    type Receiver = LibraryReceiver;
}

impl LongSide for Library {}

impl TotalsSide for Library {
    type Totals = LibraryTotals;
}

impl FramingSide for Library {
    type Framing = LibraryFraming;
}

impl LineSide for Library {
    type Line = LibraryLine;
}

pub struct LibrarySender([u8; SENDER_RECORD]);

impl Default for LibrarySender {
    fn default() -> LibrarySender {
        LibrarySender([0; SENDER_RECORD])
    }
}

/// Whether a system packet is wanted, as a number, and the packet.
fn asked(ask: Ask<'_>) -> (u64, SystemPacket<'_>) {
    let wanted = u64::from(ask.system.is_some());
    (wanted, ask.system.unwrap_or_default())
}

// SAFETY of the calls below: each pointer is of a slice and passed with its length, and slices in Rust overlap none that is written.

impl Sender for LibrarySender {
    fn list(&mut self, list: &[u8]) -> Result<(), u32> {
        let record = &mut self.0;
        answered(unsafe {
            ffi::aes18_sender_list(record.as_mut_ptr(), record.len(), list.as_ptr(), list.len())
        })
    }

    fn offer(&mut self, store: &mut [u8], offer: Offer<'_>) -> Result<(), u32> {
        let record = &mut self.0;
        answered(unsafe {
            ffi::aes18_sender_offer(
                record.as_mut_ptr(),
                record.len(),
                store.as_mut_ptr(),
                store.len(),
                offer.circuit,
                offer.priority,
                offer.repetition,
                offer.message.as_ptr(),
                offer.message.len(),
            )
        })
    }

    fn block(&mut self, store: &[u8], ask: Ask<'_>, block: &mut [u8]) -> Result<BlockAnswer, u32> {
        let record = &mut self.0;
        let mut answer = BlockAnswer::default();
        let (wanted, system) = asked(ask);
        answered(unsafe {
            ffi::aes18_sender_block(
                record.as_mut_ptr(),
                record.len(),
                store.as_ptr(),
                store.len(),
                ask.n,
                ask.n,
                wanted,
                system.enable,
                system.code,
                system.information.as_ptr(),
                system.information.len(),
                block.as_mut_ptr(),
                block.len(),
                answer.0.as_mut_ptr(),
                answer.0.len(),
            )
        })?;
        Ok(answer)
    }
}

impl LongSender for LibrarySender {
    fn offer_beside(
        &mut self,
        store: &mut [u8],
        buffer: &[u8],
        offer: Offer<'_>,
    ) -> Result<(), u32> {
        let record = &mut self.0;
        answered(unsafe {
            ffi::aes18_sender_offer_beside(
                record.as_mut_ptr(),
                record.len(),
                store.as_mut_ptr(),
                store.len(),
                buffer.as_ptr(),
                buffer.len(),
                offer.circuit,
                offer.priority,
                offer.repetition,
                offer.message.as_ptr(),
                offer.message.len(),
            )
        })
    }

    fn offer_long(&mut self, store: &[u8], buffer: &mut [u8], offer: Offer<'_>) -> Result<(), u32> {
        let record = &mut self.0;
        answered(unsafe {
            ffi::aes18_sender_offer_long(
                record.as_mut_ptr(),
                record.len(),
                store.as_ptr(),
                store.len(),
                buffer.as_mut_ptr(),
                buffer.len(),
                offer.priority,
                offer.repetition,
                offer.message.as_ptr(),
                offer.message.len(),
            )
        })
    }

    fn block_beside(
        &mut self,
        store: &[u8],
        buffer: &[u8],
        ask: Ask<'_>,
        block: &mut [u8],
    ) -> Result<BlockAnswer, u32> {
        let record = &mut self.0;
        let mut answer = BlockAnswer::default();
        let (wanted, system) = asked(ask);
        answered(unsafe {
            ffi::aes18_sender_block_beside(
                record.as_mut_ptr(),
                record.len(),
                store.as_ptr(),
                store.len(),
                buffer.as_ptr(),
                buffer.len(),
                ask.n,
                ask.n,
                wanted,
                system.enable,
                system.code,
                system.information.as_ptr(),
                system.information.len(),
                block.as_mut_ptr(),
                block.len(),
                answer.0.as_mut_ptr(),
                answer.0.len(),
            )
        })?;
        Ok(answer)
    }
}

pub struct LibraryReceiver([u8; RECEIVER_RECORD]);

impl Default for LibraryReceiver {
    fn default() -> LibraryReceiver {
        LibraryReceiver([0; RECEIVER_RECORD])
    }
}

impl Receiver for LibraryReceiver {
    fn list(&mut self, list: &[u8]) -> Result<(), u32> {
        let record = &mut self.0;
        answered(unsafe {
            ffi::aes18_receiver_list(record.as_mut_ptr(), record.len(), list.as_ptr(), list.len())
        })
    }

    fn read(&mut self, store: &mut [u8], bits: &[u8], part: Part) -> Result<ReadAnswer, u32> {
        let record = &mut self.0;
        let mut answer = ReadAnswer::default();
        answered(unsafe {
            ffi::aes18_receiver_read(
                record.as_mut_ptr(),
                record.len(),
                store.as_mut_ptr(),
                store.len(),
                bits.as_ptr(),
                bits.len(),
                part.from,
                part.to,
                answer.0.as_mut_ptr(),
                answer.0.len(),
            )
        })?;
        Ok(answer)
    }
}

impl LongReceiver for LibraryReceiver {
    fn read_beside(
        &mut self,
        store: &mut [u8],
        buffer: &mut [u8],
        bits: &[u8],
        part: Part,
    ) -> Result<ReadAnswer, u32> {
        let record = &mut self.0;
        let mut answer = ReadAnswer::default();
        answered(unsafe {
            ffi::aes18_receiver_read_beside(
                record.as_mut_ptr(),
                record.len(),
                store.as_mut_ptr(),
                store.len(),
                buffer.as_mut_ptr(),
                buffer.len(),
                bits.as_ptr(),
                bits.len(),
                part.from,
                part.to,
                answer.0.as_mut_ptr(),
                answer.0.len(),
            )
        })?;
        Ok(answer)
    }
}

pub struct LibraryFraming([u8; FRAMING_RECORD]);

impl Default for LibraryFraming {
    fn default() -> LibraryFraming {
        LibraryFraming([0; FRAMING_RECORD])
    }
}

impl Framing for LibraryFraming {
    fn read(
        &mut self,
        bits: &[u8],
        part: Part,
        packet: &mut [u8; LONGEST_PACKET],
    ) -> Result<FramingAnswer, u32> {
        let record = &mut self.0;
        let mut answer = FramingAnswer::default();
        answered(unsafe {
            ffi::aes18_framing_read(
                record.as_mut_ptr(),
                record.len(),
                bits.as_ptr(),
                bits.len(),
                part.from,
                part.to,
                packet.as_mut_ptr(),
                packet.len(),
                answer.0.as_mut_ptr(),
                answer.0.len(),
            )
        })?;
        Ok(answer)
    }
}

pub struct LibraryTotals([u8; TOTALS_RECORD]);

impl Default for LibraryTotals {
    fn default() -> LibraryTotals {
        LibraryTotals([0; TOTALS_RECORD])
    }
}

impl Totals for LibraryTotals {
    fn note(&mut self, answer: &ReadAnswer) -> Result<(), u32> {
        let (totals, answer) = (&mut self.0, &answer.0);
        answered(unsafe {
            ffi::aes18_totals_note(
                totals.as_mut_ptr(),
                totals.len(),
                answer.as_ptr(),
                answer.len(),
            )
        })
    }

    fn record(&self) -> [u8; TOTALS_RECORD] {
        self.0
    }
}

pub struct LibraryLine([u8; LINE_RECORD]);

impl Default for LibraryLine {
    fn default() -> LibraryLine {
        LibraryLine([0; LINE_RECORD])
    }
}

impl Line for LibraryLine {
    fn write(packet: &[u8], line: &mut [u8]) -> Result<u64, u32> {
        let mut answer = [0; 8];
        answered(unsafe {
            ffi::aes18_line_write(
                packet.as_ptr(),
                packet.len(),
                line.as_mut_ptr(),
                line.len(),
                answer.as_mut_ptr(),
                answer.len(),
            )
        })?;
        Ok(u64::from_le_bytes(answer))
    }

    fn read(&mut self, line: &[u8], packet: &mut [u8; LONGEST_PACKET]) -> Result<LineAnswer, u32> {
        let record = &mut self.0;
        let mut answer = LineAnswer::default();
        answered(unsafe {
            ffi::aes18_line_read(
                record.as_mut_ptr(),
                record.len(),
                line.as_ptr(),
                line.len(),
                packet.as_mut_ptr(),
                packet.len(),
                answer.0.as_mut_ptr(),
                answer.0.len(),
            )
        })?;
        Ok(answer)
    }
}
