//! The library's functions on slices.

use aes18::ffi;
use aes18_reference::calls::{BlockCall, LongOfferCall, OfferCall, ReadCall};
use std::ptr;

/// Every second call passes a null pointer for each empty slice, the others one that is not null.
#[derive(Default)]
pub struct Library {
    nulls: bool,
}

impl Library {
    fn read(&self, bytes: &[u8]) -> *const u8 {
        if self.nulls && bytes.is_empty() {
            ptr::null()
        } else {
            bytes.as_ptr()
        }
    }

    fn write(&self, bytes: &mut [u8]) -> *mut u8 {
        if self.nulls && bytes.is_empty() {
            ptr::null_mut()
        } else {
            bytes.as_mut_ptr()
        }
    }

    pub fn sender_list(&mut self, record: &mut [u8], list: &[u8]) -> u32 {
        self.nulls = !self.nulls;
        // SAFETY: each pointer is valid for the length passed with it, and slices in Rust overlap no slice that is written.
        unsafe {
            ffi::aes18_sender_list(
                self.write(record),
                record.len(),
                self.read(list),
                list.len(),
            )
        }
    }

    pub fn receiver_list(&mut self, record: &mut [u8], list: &[u8]) -> u32 {
        self.nulls = !self.nulls;
        // SAFETY: as in `sender_list`.
        unsafe {
            ffi::aes18_receiver_list(
                self.write(record),
                record.len(),
                self.read(list),
                list.len(),
            )
        }
    }

    pub fn sender_offer(
        &mut self,
        record: &mut [u8],
        store: &mut [u8],
        call: OfferCall<'_>,
    ) -> u32 {
        self.nulls = !self.nulls;
        // SAFETY: as in `sender_list`.
        unsafe {
            ffi::aes18_sender_offer(
                self.write(record),
                record.len(),
                self.write(store),
                store.len(),
                call.circuit,
                call.priority,
                call.repetition,
                self.read(call.message),
                call.message.len(),
            )
        }
    }

    pub fn sender_offer_beside(
        &mut self,
        record: &mut [u8],
        store: &mut [u8],
        long: &[u8],
        call: OfferCall<'_>,
    ) -> u32 {
        self.nulls = !self.nulls;
        // SAFETY: as in `sender_list`.
        unsafe {
            ffi::aes18_sender_offer_beside(
                self.write(record),
                record.len(),
                self.write(store),
                store.len(),
                self.read(long),
                long.len(),
                call.circuit,
                call.priority,
                call.repetition,
                self.read(call.message),
                call.message.len(),
            )
        }
    }

    pub fn sender_offer_long(
        &mut self,
        record: &mut [u8],
        store: &[u8],
        long: &mut [u8],
        call: LongOfferCall<'_>,
    ) -> u32 {
        self.nulls = !self.nulls;
        // SAFETY: as in `sender_list`.
        unsafe {
            ffi::aes18_sender_offer_long(
                self.write(record),
                record.len(),
                self.read(store),
                store.len(),
                self.write(long),
                long.len(),
                call.priority,
                call.repetition,
                self.read(call.message),
                call.message.len(),
            )
        }
    }

    pub fn sender_block(
        &mut self,
        record: &mut [u8],
        store: &[u8],
        call: BlockCall<'_>,
        block: &mut [u8],
        answer: &mut [u8],
    ) -> u32 {
        self.nulls = !self.nulls;
        // SAFETY: as in `sender_list`.
        unsafe {
            ffi::aes18_sender_block(
                self.write(record),
                record.len(),
                self.read(store),
                store.len(),
                call.n,
                call.u,
                call.system,
                call.enable,
                call.code,
                self.read(call.information),
                call.information.len(),
                self.write(block),
                block.len(),
                self.write(answer),
                answer.len(),
            )
        }
    }

    pub fn sender_block_beside(
        &mut self,
        record: &mut [u8],
        store: &[u8],
        long: &[u8],
        call: BlockCall<'_>,
        block: &mut [u8],
        answer: &mut [u8],
    ) -> u32 {
        self.nulls = !self.nulls;
        // SAFETY: as in `sender_list`.
        unsafe {
            ffi::aes18_sender_block_beside(
                self.write(record),
                record.len(),
                self.read(store),
                store.len(),
                self.read(long),
                long.len(),
                call.n,
                call.u,
                call.system,
                call.enable,
                call.code,
                self.read(call.information),
                call.information.len(),
                self.write(block),
                block.len(),
                self.write(answer),
                answer.len(),
            )
        }
    }

    pub fn receiver_read(
        &mut self,
        record: &mut [u8],
        store: &mut [u8],
        call: ReadCall<'_>,
        answer: &mut [u8],
    ) -> u32 {
        self.nulls = !self.nulls;
        // SAFETY: as in `sender_list`.
        unsafe {
            ffi::aes18_receiver_read(
                self.write(record),
                record.len(),
                self.write(store),
                store.len(),
                self.read(call.bits),
                call.bits.len(),
                call.from,
                call.to,
                self.write(answer),
                answer.len(),
            )
        }
    }

    pub fn receiver_read_beside(
        &mut self,
        record: &mut [u8],
        store: &mut [u8],
        long: &mut [u8],
        call: ReadCall<'_>,
        answer: &mut [u8],
    ) -> u32 {
        self.nulls = !self.nulls;
        // SAFETY: as in `sender_list`.
        unsafe {
            ffi::aes18_receiver_read_beside(
                self.write(record),
                record.len(),
                self.write(store),
                store.len(),
                self.write(long),
                long.len(),
                self.read(call.bits),
                call.bits.len(),
                call.from,
                call.to,
                self.write(answer),
                answer.len(),
            )
        }
    }

    pub fn framing_read(
        &mut self,
        record: &mut [u8],
        call: ReadCall<'_>,
        packet: &mut [u8],
        answer: &mut [u8],
    ) -> u32 {
        self.nulls = !self.nulls;
        // SAFETY: as in `sender_list`.
        unsafe {
            ffi::aes18_framing_read(
                self.write(record),
                record.len(),
                self.read(call.bits),
                call.bits.len(),
                call.from,
                call.to,
                self.write(packet),
                packet.len(),
                self.write(answer),
                answer.len(),
            )
        }
    }

    pub fn totals_note(&mut self, totals: &mut [u8], answer: &[u8]) -> u32 {
        self.nulls = !self.nulls;
        // SAFETY: as in `sender_list`.
        unsafe {
            ffi::aes18_totals_note(
                self.write(totals),
                totals.len(),
                self.read(answer),
                answer.len(),
            )
        }
    }

    pub fn line_write(&mut self, packet: &[u8], line: &mut [u8], answer: &mut [u8]) -> u32 {
        self.nulls = !self.nulls;
        // SAFETY: as in `sender_list`.
        unsafe {
            ffi::aes18_line_write(
                self.read(packet),
                packet.len(),
                self.write(line),
                line.len(),
                self.write(answer),
                answer.len(),
            )
        }
    }

    pub fn line_read(
        &mut self,
        record: &mut [u8],
        line: &[u8],
        packet: &mut [u8],
        answer: &mut [u8],
    ) -> u32 {
        self.nulls = !self.nulls;
        // SAFETY: as in `sender_list`.
        unsafe {
            ffi::aes18_line_read(
                self.write(record),
                record.len(),
                self.read(line),
                line.len(),
                self.write(packet),
                packet.len(),
                self.write(answer),
                answer.len(),
            )
        }
    }
}
