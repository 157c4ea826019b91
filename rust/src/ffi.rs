//! The functions of the proved static library, as C sees them.
//!
//! A slice is a pointer and a length; a pointer whose length is 0 is not read and may be null. Each function answers 0 or a refusal's number, or
//! 255 where the record, the answer or the packet of a framing's or a line's read is shorter than it has to be, and then it reads and writes nothing.
//! Any numbers and any bytes may be passed.
//!
//! # Safety
//!
//! Each pointer must be valid for its length: for reads and writes where it is `*mut`, for reads where it is `*const`. A slice that is written (a
//! record, a framing, totals, the store of a read or of any offer but a long one, the buffer of a long offer or of a read, a block, the line of a line
//! write, the packet of a framing's or a line's read, the answer of a block, a read, a framing's read, a line write or a line read) must overlap no other
//! slice of the call.

extern "C" {
    /// Lists a sender's circuits, three bytes each, and writes its record.
    pub fn aes18_sender_list(
        record: *mut u8,
        record_len: usize,
        list: *const u8,
        list_len: usize,
    ) -> u32;

    /// Offers a message at a circuit. Bytes 21 and 22 of the record, lowest first, are the packets still to go at circuit 0, and each 10 bytes on stand
    /// those of the next number: the packets of the pending message of which some copy is still to place, 0 where none is pending.
    pub fn aes18_sender_offer(
        record: *mut u8,
        record_len: usize,
        store: *mut u8,
        store_len: usize,
        circuit: u64,
        priority: u64,
        repetition: u64,
        message: *const u8,
        message_len: usize,
    ) -> u32;

    /// Makes a block of `n` user bits of which `u` may be used. `system` is 0 for no system packet; `enable`, `code` and `info` are then not looked
    /// at, and the enable bits in force, byte 54 of the record, stay. Else `enable` is in force, in this block and all later ones until another system
    /// packet. The answer, 12 bytes: frames placed, bits used, stuffed zeros, each 4 bytes lowest first.
    pub fn aes18_sender_block(
        record: *mut u8,
        record_len: usize,
        store: *const u8,
        store_len: usize,
        n: u64,
        u: u64,
        system: u64,
        enable: u64,
        code: u64,
        info: *const u8,
        info_len: usize,
        block: *mut u8,
        block_len: usize,
        answer: *mut u8,
        answer_len: usize,
    ) -> u32;

    /// [`aes18_sender_offer`] of a sender that has a long buffer, of 65,535 bytes or more. Of the buffer only the length is looked at.
    pub fn aes18_sender_offer_beside(
        record: *mut u8,
        record_len: usize,
        store: *mut u8,
        store_len: usize,
        buffer: *const u8,
        buffer_len: usize,
        circuit: u64,
        priority: u64,
        repetition: u64,
        message: *const u8,
        message_len: usize,
    ) -> u32;

    /// Offers a long message, of 4,095 to 65,535 bytes, at circuit 0. It goes to the start of the buffer; of the store only the length is looked at.
    pub fn aes18_sender_offer_long(
        record: *mut u8,
        record_len: usize,
        store: *const u8,
        store_len: usize,
        buffer: *mut u8,
        buffer_len: usize,
        priority: u64,
        repetition: u64,
        message: *const u8,
        message_len: usize,
    ) -> u32;

    /// [`aes18_sender_block`] of a sender that has a long buffer, from whose start the packets of a long message are made.
    pub fn aes18_sender_block_beside(
        record: *mut u8,
        record_len: usize,
        store: *const u8,
        store_len: usize,
        buffer: *const u8,
        buffer_len: usize,
        n: u64,
        u: u64,
        system: u64,
        enable: u64,
        code: u64,
        info: *const u8,
        info_len: usize,
        block: *mut u8,
        block_len: usize,
        answer: *mut u8,
        answer_len: usize,
    ) -> u32;

    /// Lists a receiver's circuits, three bytes each, and writes its record.
    pub fn aes18_receiver_list(
        record: *mut u8,
        record_len: usize,
        list: *const u8,
        list_len: usize,
    ) -> u32;

    /// Reads bits `from` to `to` up to the first notice. The answer, 16 bytes: byte 0 the notice (0 End, 1 Spoilt, 2 Malformed, 3 System,
    /// 4 Elsewhere, 5 circuit); byte 1 circuit number or enable bits; byte 2 loss or block code; byte 3 fate (0 Copy, 1 Begun, 2 Held, 3 Whole,
    /// 4 Orphan, 5 Wrong) or information length; bytes 4 and 5 the length at Whole, lowest first; bytes 8 to 15 the bits read, lowest first; what
    /// does not apply is 0.
    pub fn aes18_receiver_read(
        record: *mut u8,
        record_len: usize,
        store: *mut u8,
        store_len: usize,
        bits: *const u8,
        bits_len: usize,
        from: u64,
        to: u64,
        answer: *mut u8,
        answer_len: usize,
    ) -> u32;

    /// [`aes18_receiver_read`] of a receiver that has a long buffer, to whose start the bytes of a long message at circuit 0 go. At Whole a length above
    /// 4,094 says that the message is there, and not in the store.
    pub fn aes18_receiver_read_beside(
        record: *mut u8,
        record_len: usize,
        store: *mut u8,
        store_len: usize,
        buffer: *mut u8,
        buffer_len: usize,
        bits: *const u8,
        bits_len: usize,
        from: u64,
        to: u64,
        answer: *mut u8,
        answer_len: usize,
    ) -> u32;

    /// Reads bits `from` to `to` up to the first body that passes or is spoilt. The packet of one that passes goes to the start of `packet`, 19 bytes
    /// or more. The framing, 24 bytes, is what is kept between one bit and the next; 24 zeros are a fresh one, and bytes 37 to 60 of a receiver's
    /// record are that receiver's. The answer, 16 bytes: byte 0 what it stopped at (0 End, 1 Spoilt, 2 Packet); byte 1 the packet's length; bytes 8 to
    /// 15 the bits read, lowest first; what does not apply is 0.
    pub fn aes18_framing_read(
        framing: *mut u8,
        framing_len: usize,
        bits: *const u8,
        bits_len: usize,
        from: u64,
        to: u64,
        packet: *mut u8,
        packet_len: usize,
        answer: *mut u8,
        answer_len: usize,
    ) -> u32;

    /// Notes the notice of a read's answer in a record of totals. The record, 64 bytes: for each circuit number 0 to 3 messages whole, their bytes,
    /// packets lost and packets orphaned, each 4 bytes lowest first.
    pub fn aes18_totals_note(
        totals: *mut u8,
        totals_len: usize,
        answer: *const u8,
        answer_len: usize,
    ) -> u32;

    /// Writes a packet of 2 to 19 bytes as a frame of the serial line. The answer, 8 bytes: the bytes written, lowest first.
    pub fn aes18_line_write(
        packet: *const u8,
        packet_len: usize,
        line: *mut u8,
        line_len: usize,
        answer: *mut u8,
        answer_len: usize,
    ) -> u32;

    /// Reads bytes of the serial line up to the first packet, which goes to the start of `packet`, 19 bytes or more. The record, 24 bytes, is what is
    /// kept between one byte and the next; 24 zeros are a fresh one. The answer, 16 bytes: byte 0 the packet's length, or 0 where the bytes end
    /// before any; bytes 8 to 15 the bytes read, lowest first; all others 0.
    pub fn aes18_line_read(
        record: *mut u8,
        record_len: usize,
        line: *const u8,
        line_len: usize,
        packet: *mut u8,
        packet_len: usize,
        answer: *mut u8,
        answer_len: usize,
    ) -> u32;
}
