//! The calls on slices. The only place with unsafe code: a slice is valid for its length, and one that is borrowed to be written overlaps no
//! other, which is what [`ffi`] asks for.

use crate::ffi;
use crate::lengths::{
    FRAMING_RECORD, LINE_RECORD, LONGEST_PACKET, RECEIVER_RECORD, SENDER_RECORD, TOTALS_RECORD,
};
use crate::refusal::Refusal;
use crate::system::SystemPacket;

/// Lists a sender's circuits.
pub(crate) fn sender_list(record: &mut [u8; SENDER_RECORD], list: &[u8]) -> Result<(), Refusal> {
    // SAFETY: as said at the head of this file.
    let number = unsafe {
        ffi::aes18_sender_list(record.as_mut_ptr(), record.len(), list.as_ptr(), list.len())
    };
    Refusal::answered(number)
}

/// Offers a message.
pub(crate) fn sender_offer(
    record: &mut [u8; SENDER_RECORD],
    store: &mut [u8],
    circuit: u64,
    priority: u64,
    repetition: u64,
    message: &[u8],
) -> Result<(), Refusal> {
    // SAFETY: as said at the head of this file.
    let number = unsafe {
        ffi::aes18_sender_offer(
            record.as_mut_ptr(),
            record.len(),
            store.as_mut_ptr(),
            store.len(),
            circuit,
            priority,
            repetition,
            message.as_ptr(),
            message.len(),
        )
    };
    Refusal::answered(number)
}

/// Makes a block and returns the answer's bytes.
pub(crate) fn sender_block(
    record: &mut [u8; SENDER_RECORD],
    store: &[u8],
    n: u64,
    u: u64,
    system: Option<SystemPacket<'_>>,
    block: &mut [u8],
) -> Result<[u8; 12], Refusal> {
    let wanted = u64::from(system.is_some());
    let system = system.unwrap_or_default();
    let mut answer = [0; 12];
    // SAFETY: as said at the head of this file.
    let number = unsafe {
        ffi::aes18_sender_block(
            record.as_mut_ptr(),
            record.len(),
            store.as_ptr(),
            store.len(),
            n,
            u,
            wanted,
            system.enable,
            system.code,
            system.information.as_ptr(),
            system.information.len(),
            block.as_mut_ptr(),
            block.len(),
            answer.as_mut_ptr(),
            answer.len(),
        )
    };
    Refusal::answered(number).map(|()| answer)
}

/// Offers a message, beside a long buffer.
pub(crate) fn sender_offer_beside(
    record: &mut [u8; SENDER_RECORD],
    store: &mut [u8],
    buffer: &[u8],
    circuit: u64,
    priority: u64,
    repetition: u64,
    message: &[u8],
) -> Result<(), Refusal> {
    // SAFETY: as said at the head of this file.
    let number = unsafe {
        ffi::aes18_sender_offer_beside(
            record.as_mut_ptr(),
            record.len(),
            store.as_mut_ptr(),
            store.len(),
            buffer.as_ptr(),
            buffer.len(),
            circuit,
            priority,
            repetition,
            message.as_ptr(),
            message.len(),
        )
    };
    Refusal::answered(number)
}

/// Offers a long message.
pub(crate) fn sender_offer_long(
    record: &mut [u8; SENDER_RECORD],
    store: &[u8],
    buffer: &mut [u8],
    priority: u64,
    repetition: u64,
    message: &[u8],
) -> Result<(), Refusal> {
    // SAFETY: as said at the head of this file.
    let number = unsafe {
        ffi::aes18_sender_offer_long(
            record.as_mut_ptr(),
            record.len(),
            store.as_ptr(),
            store.len(),
            buffer.as_mut_ptr(),
            buffer.len(),
            priority,
            repetition,
            message.as_ptr(),
            message.len(),
        )
    };
    Refusal::answered(number)
}

/// Makes a block, beside a long buffer, and returns the answer's bytes.
pub(crate) fn sender_block_beside(
    record: &mut [u8; SENDER_RECORD],
    store: &[u8],
    buffer: &[u8],
    n: u64,
    u: u64,
    system: Option<SystemPacket<'_>>,
    block: &mut [u8],
) -> Result<[u8; 12], Refusal> {
    let wanted = u64::from(system.is_some());
    let system = system.unwrap_or_default();
    let mut answer = [0; 12];
    // SAFETY: as said at the head of this file.
    let number = unsafe {
        ffi::aes18_sender_block_beside(
            record.as_mut_ptr(),
            record.len(),
            store.as_ptr(),
            store.len(),
            buffer.as_ptr(),
            buffer.len(),
            n,
            u,
            wanted,
            system.enable,
            system.code,
            system.information.as_ptr(),
            system.information.len(),
            block.as_mut_ptr(),
            block.len(),
            answer.as_mut_ptr(),
            answer.len(),
        )
    };
    Refusal::answered(number).map(|()| answer)
}

/// Lists a receiver's circuits.
pub(crate) fn receiver_list(
    record: &mut [u8; RECEIVER_RECORD],
    list: &[u8],
) -> Result<(), Refusal> {
    // SAFETY: as said at the head of this file.
    let number = unsafe {
        ffi::aes18_receiver_list(record.as_mut_ptr(), record.len(), list.as_ptr(), list.len())
    };
    Refusal::answered(number)
}

/// Reads up to the first notice and returns the answer's bytes.
pub(crate) fn receiver_read(
    record: &mut [u8; RECEIVER_RECORD],
    store: &mut [u8],
    bits: &[u8],
    from: u64,
    to: u64,
) -> Result<[u8; 16], Refusal> {
    let mut answer = [0; 16];
    // SAFETY: as said at the head of this file.
    let number = unsafe {
        ffi::aes18_receiver_read(
            record.as_mut_ptr(),
            record.len(),
            store.as_mut_ptr(),
            store.len(),
            bits.as_ptr(),
            bits.len(),
            from,
            to,
            answer.as_mut_ptr(),
            answer.len(),
        )
    };
    Refusal::answered(number).map(|()| answer)
}

/// Reads up to the first notice, beside a long buffer, and returns the answer's bytes.
pub(crate) fn receiver_read_beside(
    record: &mut [u8; RECEIVER_RECORD],
    store: &mut [u8],
    buffer: &mut [u8],
    bits: &[u8],
    from: u64,
    to: u64,
) -> Result<[u8; 16], Refusal> {
    let mut answer = [0; 16];
    // SAFETY: as said at the head of this file.
    let number = unsafe {
        ffi::aes18_receiver_read_beside(
            record.as_mut_ptr(),
            record.len(),
            store.as_mut_ptr(),
            store.len(),
            buffer.as_mut_ptr(),
            buffer.len(),
            bits.as_ptr(),
            bits.len(),
            from,
            to,
            answer.as_mut_ptr(),
            answer.len(),
        )
    };
    Refusal::answered(number).map(|()| answer)
}

/// Reads up to the first body that passes or is spoilt and returns the answer's bytes.
pub(crate) fn framing_read(
    framing: &mut [u8; FRAMING_RECORD],
    bits: &[u8],
    from: u64,
    to: u64,
    packet: &mut [u8; LONGEST_PACKET],
) -> Result<[u8; 16], Refusal> {
    let mut answer = [0; 16];
    // SAFETY: as said at the head of this file.
    let number = unsafe {
        ffi::aes18_framing_read(
            framing.as_mut_ptr(),
            framing.len(),
            bits.as_ptr(),
            bits.len(),
            from,
            to,
            packet.as_mut_ptr(),
            packet.len(),
            answer.as_mut_ptr(),
            answer.len(),
        )
    };
    Refusal::answered(number).map(|()| answer)
}

/// Notes the notice of a read's answer in totals.
pub(crate) fn totals_note(totals: &mut [u8; TOTALS_RECORD], answer: &[u8; 16]) {
    // SAFETY: as said at the head of this file.
    let number = unsafe {
        ffi::aes18_totals_note(
            totals.as_mut_ptr(),
            totals.len(),
            answer.as_ptr(),
            answer.len(),
        )
    };
    match number {
        0 => {}
        _ => unreachable!("noting is not refused where totals and answer have full length"),
    }
}

/// Writes a packet's frame and returns the answer's bytes.
pub(crate) fn line_write(packet: &[u8], line: &mut [u8]) -> Result<[u8; 8], Refusal> {
    let mut answer = [0; 8];
    // SAFETY: as said at the head of this file.
    let number = unsafe {
        ffi::aes18_line_write(
            packet.as_ptr(),
            packet.len(),
            line.as_mut_ptr(),
            line.len(),
            answer.as_mut_ptr(),
            answer.len(),
        )
    };
    Refusal::answered(number).map(|()| answer)
}

/// Reads up to the first packet and returns the answer's bytes.
pub(crate) fn line_read(
    record: &mut [u8; LINE_RECORD],
    line: &[u8],
    packet: &mut [u8; LONGEST_PACKET],
) -> [u8; 16] {
    let mut answer = [0; 16];
    // SAFETY: as said at the head of this file.
    let number = unsafe {
        ffi::aes18_line_read(
            record.as_mut_ptr(),
            record.len(),
            line.as_ptr(),
            line.len(),
            packet.as_mut_ptr(),
            packet.len(),
            answer.as_mut_ptr(),
            answer.len(),
        )
    };
    match number {
        0 => answer,
        _ => unreachable!("a line's read is not refused where all that it writes has full length"),
    }
}
