//! Each call made by the library and by the reference, and everything that they answer and leave compared.

use crate::library::Library;
use crate::read_back;
use crate::tally::{Function, Lent, Tally};
use aes18_reference::calls::{self, BlockCall, LongOfferCall, OfferCall, ReadCall};
use std::fmt::Debug;

/// The first thing that differs.
#[derive(Debug)]
pub struct Difference {
    /// The call and what it was given.
    pub call: String,
    /// What differs.
    pub part: String,
    pub library: String,
    pub reference: String,
}

/// What a comparison answers: its value if there was no difference.
pub type Compared<T> = Result<T, Box<Difference>>;

/// Tells a difference.
pub fn differ<T>(call: String, part: &str, library: String, reference: String) -> Compared<T> {
    Err(Box::new(Difference {
        call,
        part: part.to_string(),
        library,
        reference,
    }))
}

/// Bytes before and behind what the library is lent, which it must not touch.
const GUARD: [u8; 16] = [0xA5; 16];

/// The library's own copy of lent bytes, between guards.
struct Guarded(Vec<u8>);

impl Guarded {
    fn of(bytes: &[u8]) -> Guarded {
        Guarded([&GUARD, bytes, &GUARD].concat())
    }

    fn lent(&mut self) -> &mut [u8] {
        let end = self.0.len() - GUARD.len();
        &mut self.0[GUARD.len()..end]
    }

    fn left(&self) -> &[u8] {
        &self.0[GUARD.len()..self.0.len() - GUARD.len()]
    }

    fn guards_stand(&self) -> bool {
        self.0.starts_with(&GUARD) && self.0.ends_with(&GUARD)
    }
}

pub fn hex(bytes: &[u8]) -> String {
    bytes.iter().map(|byte| format!("{byte:02x}")).collect()
}

/// The bytes, or of many those from the first on that differ from `others`.
pub fn shown(bytes: &[u8], others: &[u8]) -> String {
    if bytes.len() <= 80 {
        return hex(bytes);
    }
    let same = bytes
        .iter()
        .zip(others)
        .take_while(|(one, other)| one == other)
        .count();
    let end = bytes.len().min(same + 32);
    format!(
        "from byte {same} of {}: {}",
        bytes.len(),
        hex(&bytes[same..end])
    )
}

/// The library beside the reference.
#[derive(Default)]
pub struct Both {
    library: Library,
    pub tally: Tally,
}

/// A call with both answers and what both left: the library's copy and the reference's bytes, under their name.
struct Call<'a> {
    function: Function,
    given: &'a dyn Fn() -> String,
    library: u32,
    reference: u32,
    left: &'a [(&'a str, &'a Guarded, &'a [u8])],
}

impl Both {
    /// Counts the call and compares both sides; the value is the number answered.
    fn compare(&mut self, call: Call<'_>) -> Compared<u32> {
        self.tally.answered(call.function, call.reference);
        let given = || format!("{:?}: {}", call.function, (call.given)());
        if call.library != call.reference {
            let (library, reference) = (call.library.to_string(), call.reference.to_string());
            return differ(given(), "the number answered", library, reference);
        }
        for (part, library, reference) in call.left {
            let left = library.left();
            if left != *reference {
                return differ(
                    given(),
                    part,
                    shown(left, reference),
                    shown(reference, left),
                );
            }
            if !library.guards_stand() {
                return differ(
                    given(),
                    part,
                    "bytes around it are written".to_string(),
                    "none are".to_string(),
                );
            }
        }
        Ok(call.reference)
    }

    pub fn sender_list(&mut self, record: &mut [u8], list: &[u8]) -> Compared<u32> {
        let mut copy = Guarded::of(record);
        let library = self.library.sender_list(copy.lent(), list);
        let reference = calls::sender_list(record, list);
        self.compare(Call {
            function: Function::SenderList,
            given: &|| hex(list),
            library,
            reference,
            left: &[("the record", &copy, record)],
        })
    }

    pub fn receiver_list(&mut self, record: &mut [u8], list: &[u8]) -> Compared<u32> {
        let mut copy = Guarded::of(record);
        let library = self.library.receiver_list(copy.lent(), list);
        let reference = calls::receiver_list(record, list);
        self.compare(Call {
            function: Function::ReceiverList,
            given: &|| hex(list),
            library,
            reference,
            left: &[("the record", &copy, record)],
        })
    }

    pub fn sender_offer(
        &mut self,
        record: &mut [u8],
        store: &mut [u8],
        call: OfferCall<'_>,
    ) -> Compared<u32> {
        self.offer(record, store, None, call)
    }

    /// Beside a long buffer, if one is given.
    pub fn offer(
        &mut self,
        record: &mut [u8],
        store: &mut [u8],
        long: Option<&[u8]>,
        call: OfferCall<'_>,
    ) -> Compared<u32> {
        let before = record.to_vec();
        let (mut copy, mut store_copy) = (Guarded::of(record), Guarded::of(store));
        let (lent, lent_store, library) = (copy.lent(), store_copy.lent(), &mut self.library);
        let (function, library, reference) = match long {
            None => (
                Function::SenderOffer,
                library.sender_offer(lent, lent_store, call),
                calls::sender_offer(record, store, call),
            ),
            Some(long) => (
                Function::SenderOfferBeside,
                library.sender_offer_beside(lent, lent_store, long, call),
                calls::sender_offer_beside(record, store, long, call),
            ),
        };
        let number = self.compare(Call {
            function,
            given: &|| given(&before, store, long, &call),
            library,
            reference,
            left: &[
                ("the record", &copy, record),
                ("the store", &store_copy, store),
            ],
        })?;
        let lent = Lent::of(number, &before, store, long);
        self.tally.enabling.offer(&lent);
        self.tally.left.offer(&lent, record);
        self.tally.long.offer(&lent, call);
        Ok(number)
    }

    pub fn sender_offer_long(
        &mut self,
        record: &mut [u8],
        store: &[u8],
        long: &mut [u8],
        call: LongOfferCall<'_>,
    ) -> Compared<u32> {
        let before = record.to_vec();
        let (mut copy, mut long_copy) = (Guarded::of(record), Guarded::of(long));
        let library = self
            .library
            .sender_offer_long(copy.lent(), store, long_copy.lent(), call);
        let reference = calls::sender_offer_long(record, store, long, call);
        let number = self.compare(Call {
            function: Function::SenderOfferLong,
            given: &|| given(&before, store, Some(long), &call),
            library,
            reference,
            left: &[
                ("the record", &copy, record),
                ("the long buffer", &long_copy, long),
            ],
        })?;
        let lent = Lent::of(number, &before, store, Some(long));
        self.tally.enabling.offer(&lent);
        self.tally.left.offer(&lent, record);
        self.tally.long.offer_long(&lent, call);
        Ok(number)
    }

    pub fn sender_block(
        &mut self,
        record: &mut [u8],
        store: &[u8],
        call: BlockCall<'_>,
        block: &mut [u8],
        answer: &mut [u8],
    ) -> Compared<u32> {
        self.block(record, store, None, call, block, answer)
    }

    /// Beside a long buffer, if one is given.
    pub fn block(
        &mut self,
        record: &mut [u8],
        store: &[u8],
        long: Option<&[u8]>,
        call: BlockCall<'_>,
        block: &mut [u8],
        answer: &mut [u8],
    ) -> Compared<u32> {
        let before = record.to_vec();
        let (mut copy, mut block_copy, mut answer_copy) =
            (Guarded::of(record), Guarded::of(block), Guarded::of(answer));
        let (lent, lent_block, lent_answer) = (copy.lent(), block_copy.lent(), answer_copy.lent());
        let library = &mut self.library;
        let (function, library, reference) = match long {
            None => (
                Function::SenderBlock,
                library.sender_block(lent, store, call, lent_block, lent_answer),
                calls::sender_block(record, store, call, block, answer),
            ),
            Some(long) => (
                Function::SenderBlockBeside,
                library.sender_block_beside(lent, store, long, call, lent_block, lent_answer),
                calls::sender_block_beside(record, store, long, call, block, answer),
            ),
        };
        let number = self.compare(Call {
            function,
            given: &|| given(&before, store, long, &call),
            library,
            reference,
            left: &[
                ("the record", &copy, record),
                ("the answer's bytes", &answer_copy, answer),
                ("the block", &block_copy, block),
            ],
        })?;
        let lent = Lent::of(number, &before, store, long);
        self.tally.enabling.block(&lent, call, record, answer);
        self.tally.left.block(&lent, record);
        self.tally.long.block(&lent, call, block.len(), record);
        self.tally.zeros.answer(number, answer.len());
        if number == 0 {
            let frames = read_back::hold(call, block, answer)?;
            self.tally.zeros.block(&frames, record, store, long);
        }
        Ok(number)
    }

    pub fn receiver_read(
        &mut self,
        record: &mut [u8],
        store: &mut [u8],
        call: ReadCall<'_>,
        answer: &mut [u8],
    ) -> Compared<u32> {
        self.read(record, store, None, call, answer)
    }

    /// Beside a long buffer, if one is given.
    pub fn read(
        &mut self,
        record: &mut [u8],
        store: &mut [u8],
        mut long: Option<&mut [u8]>,
        call: ReadCall<'_>,
        answer: &mut [u8],
    ) -> Compared<u32> {
        let before = record.to_vec();
        let (mut copy, mut store_copy, mut answer_copy) =
            (Guarded::of(record), Guarded::of(store), Guarded::of(answer));
        let mut long_copy = long.as_deref().map(Guarded::of);
        let (lent, lent_store, lent_answer) = (copy.lent(), store_copy.lent(), answer_copy.lent());
        let library = &mut self.library;
        let (function, library, reference) = match (&mut long, &mut long_copy) {
            (Some(long), Some(copy)) => (
                Function::ReceiverReadBeside,
                library.receiver_read_beside(lent, lent_store, copy.lent(), call, lent_answer),
                calls::receiver_read_beside(record, store, long, call, answer),
            ),
            _ => (
                Function::ReceiverRead,
                library.receiver_read(lent, lent_store, call, lent_answer),
                calls::receiver_read(record, store, call, answer),
            ),
        };
        let mut left = vec![
            ("the record", &copy, &*record),
            ("the answer's bytes", &answer_copy, answer),
            ("the store", &store_copy, store),
        ];
        let long = long.as_deref();
        let beside = long_copy.as_ref().zip(long);
        left.extend(beside.map(|(copy, long)| ("the long buffer", copy, long)));
        let number = self.compare(Call {
            function,
            given: &|| given(&before, store, long, &call),
            library,
            reference,
            left: &left,
        })?;
        let lent = Lent::of(number, &before, store, long);
        self.tally.long.read(&lent, call, record, answer);
        if number == 0 {
            self.tally.told(answer);
        }
        Ok(number)
    }

    pub fn framing_read(
        &mut self,
        record: &mut [u8],
        call: ReadCall<'_>,
        packet: &mut [u8],
        answer: &mut [u8],
    ) -> Compared<u32> {
        let before = record.to_vec();
        let (mut copy, mut packet_copy, mut answer_copy) = (
            Guarded::of(record),
            Guarded::of(packet),
            Guarded::of(answer),
        );
        let library =
            self.library
                .framing_read(copy.lent(), call, packet_copy.lent(), answer_copy.lent());
        let reference = calls::framing_read(record, call, packet, answer);
        let number = self.compare(Call {
            function: Function::FramingRead,
            given: &|| format!("framing {}, {call:?}", hex(&before)),
            library,
            reference,
            left: &[
                ("the framing", &copy, record),
                ("the answer's bytes", &answer_copy, answer),
                ("the packet", &packet_copy, packet),
            ],
        })?;
        let framings = &mut self.tally.framings;
        match number {
            0 => framings.read(&before, call, record, answer),
            _ => framings.refused(number, &before, call, [packet.len(), answer.len()]),
        }
        Ok(number)
    }

    pub fn totals_note(&mut self, totals: &mut [u8], answer: &[u8]) -> Compared<u32> {
        let before = totals.to_vec();
        let mut copy = Guarded::of(totals);
        let library = self.library.totals_note(copy.lent(), answer);
        let reference = calls::totals_note(totals, answer);
        let number = self.compare(Call {
            function: Function::TotalsNote,
            given: &|| format!("totals {}, answer {}", hex(&before), hex(answer)),
            library,
            reference,
            left: &[("the totals", &copy, totals)],
        })?;
        if number == 0 {
            self.tally.noted.add(&before, answer);
        }
        Ok(number)
    }

    pub fn line_write(
        &mut self,
        packet: &[u8],
        line: &mut [u8],
        answer: &mut [u8],
    ) -> Compared<u32> {
        let (mut line_copy, mut answer_copy) = (Guarded::of(line), Guarded::of(answer));
        let library = self
            .library
            .line_write(packet, line_copy.lent(), answer_copy.lent());
        let reference = calls::line_write(packet, line, answer);
        let number = self.compare(Call {
            function: Function::LineWrite,
            given: &|| format!("packet {}, line {} bytes", hex(packet), line.len()),
            library,
            reference,
            left: &[
                ("the answer's bytes", &answer_copy, answer),
                ("the line", &line_copy, line),
            ],
        })?;
        self.tally.lines.written(number, packet, line.len());
        Ok(number)
    }

    pub fn line_read(
        &mut self,
        record: &mut [u8],
        line: &[u8],
        packet: &mut [u8],
        answer: &mut [u8],
    ) -> Compared<u32> {
        let before = record.to_vec();
        let (mut copy, mut packet_copy, mut answer_copy) = (
            Guarded::of(record),
            Guarded::of(packet),
            Guarded::of(answer),
        );
        let library =
            self.library
                .line_read(copy.lent(), line, packet_copy.lent(), answer_copy.lent());
        let reference = calls::line_read(record, line, packet, answer);
        let number = self.compare(Call {
            function: Function::LineRead,
            given: &|| format!("record {}, line {}", hex(&before), hex(line)),
            library,
            reference,
            left: &[
                ("the record", &copy, record),
                ("the answer's bytes", &answer_copy, answer),
                ("the packet", &packet_copy, packet),
            ],
        })?;
        if number == 0 {
            let bytes = &line[..read_of(answer)];
            self.tally.lines.read(&before, bytes, record);
        }
        Ok(number)
    }
}

/// How many bytes of a line, or bits, the answer says were read.
pub fn read_of(answer: &[u8]) -> usize {
    let high_first = answer[8..16].iter().rev();
    high_first.fold(0, |number, &byte| number << 8 | usize::from(byte))
}

/// What a call was given, for the message about a difference.
fn given(record: &[u8], store: &[u8], long: Option<&[u8]>, call: &dyn Debug) -> String {
    let long = long.map_or(String::new(), |long| {
        format!(", long buffer {} bytes", long.len())
    });
    format!(
        "record {}, store {} bytes{long}, {call:?}",
        hex(record),
        store.len()
    )
}
