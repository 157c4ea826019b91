//! A sender and a receiver that go from call to call, with a long buffer or without. Beside the calls on the record's bytes runs the reference that
//! keeps its own queues, system packets, bits and sums from the listing on; what its record would be, and what it answers, is compared after each call.

use crate::both::{differ, shown, Both, Compared};
use crate::inputs::spare;
use crate::random::Random;
use aes18_reference::bits::bytes_of;
use aes18_reference::calls::{block_answer, number, read_answer};
use aes18_reference::calls::{BlockCall, LongOfferCall, OfferCall, ReadCall};
use aes18_reference::calls::{BLOCK_ANSWER, READ_ANSWER};
use aes18_reference::lent::is_long;
use aes18_reference::receiver::{Fate, Notice, Read, Receiver};
use aes18_reference::records::{RECEIVER_RECORD, SENDER_RECORD};
use aes18_reference::sender::{Block, Sender};
use aes18_reference::totals::{Figures, Totals, TOTALS_RECORD};
use aes18_reference::{LONG_BUFFER, RECEIVER_STORE, REGION, SENDER_STORE};

/// The library, which gave what the reference makes of the record's bytes, must also give what the reference has with all that it keeps.
fn same(part: &str, library: &[u8], history: &[u8]) -> Compared<()> {
    if library == history {
        return Ok(());
    }
    let call =
        "a call beside the reference that keeps its own queues, system packets, bits and sums";
    differ(
        call.to_string(),
        part,
        shown(library, history),
        shown(history, library),
    )
}

fn same_number(library: u32, history: u32) -> Compared<()> {
    same(
        "the number answered",
        &library.to_le_bytes(),
        &history.to_le_bytes(),
    )
}

/// So much of a long buffer as calls are given.
fn lent(long: &[u8], given: Option<usize>) -> Option<&[u8]> {
    given.map(|bytes| &long[..bytes])
}

fn lent_mut(long: &mut [u8], given: Option<usize>) -> Option<&mut [u8]> {
    given.map(|bytes| &mut long[..bytes])
}

pub struct Sending {
    record: Vec<u8>,
    store: Vec<u8>,
    long: Vec<u8>,
    /// How many bytes of the long buffer the next calls are given; none where they are given no buffer.
    pub given: Option<usize>,
    history: Sender,
    history_store: Vec<u8>,
    history_long: Vec<u8>,
}

impl Sending {
    /// A fresh sender of a list that is accepted; record and store may be longer than they must.
    pub fn list(both: &mut Both, random: &mut Random, list: &[u8]) -> Compared<Sending> {
        let mut record = spare(random, SENDER_RECORD);
        let store = spare(random, SENDER_STORE);
        both.sender_list(&mut record, list)?;
        let history = Sender::list(list).expect("an accepted list");
        same("the record", &record[..SENDER_RECORD], &history.record())?;
        Ok(Sending {
            record,
            history_store: store.clone(),
            store,
            long: vec![],
            given: None,
            history,
            history_long: vec![],
        })
    }

    /// The same with a long buffer, which may be longer than it must.
    pub fn with_long(mut self, random: &mut Random) -> Sending {
        self.long = spare(random, LONG_BUFFER);
        self.history_long = self.long.clone();
        self.given = Some(self.long.len());
        self
    }

    /// Offers a message at any circuit number with any priority, seldom with copies.
    pub fn offer_anywhere(
        &mut self,
        both: &mut Both,
        random: &mut Random,
        message: &[u8],
    ) -> Compared<()> {
        let call = OfferCall {
            circuit: random.next() % 4,
            priority: random.next() % 4,
            repetition: random.pick(&[0, 0, 0, 1, 5]),
            message,
        };
        self.offer(both, call).map(|_| ())
    }

    pub fn offer(&mut self, both: &mut Both, call: OfferCall<'_>) -> Compared<u32> {
        let OfferCall {
            circuit,
            priority,
            repetition,
            message,
        } = call;
        let long = lent(&self.long, self.given);
        let answered = both.offer(&mut self.record, &mut self.store, long, call)?;
        let offered = self.history.offer_beside(
            &mut self.history_store,
            lent(&self.history_long, self.given),
            circuit,
            priority,
            repetition,
            message,
        );
        self.offered(answered, number(&offered))
    }

    /// Offers a long message beside what is given of the long buffer, or beside no byte.
    pub fn offer_long(&mut self, both: &mut Both, call: LongOfferCall<'_>) -> Compared<u32> {
        let given = self.given.unwrap_or(0);
        let long = &mut self.long[..given];
        let answered = both.sender_offer_long(&mut self.record, &self.store, long, call)?;
        let offered = self.history.offer_long(
            &self.history_store,
            &mut self.history_long[..given],
            call.priority,
            call.repetition,
            call.message,
        );
        self.offered(answered, number(&offered))
    }

    /// What both sides answered to an offer, and what it left.
    fn offered(&self, library: u32, history: u32) -> Compared<u32> {
        same_number(library, history)?;
        same(
            "the record",
            &self.record[..SENDER_RECORD],
            &self.history.record(),
        )?;
        same("the store", &self.store, &self.history_store)?;
        same("the long buffer", &self.long, &self.history_long)?;
        Ok(library)
    }

    /// Makes a block; none if the call is refused.
    pub fn block(
        &mut self,
        both: &mut Both,
        call: BlockCall<'_>,
        block: &mut [u8],
    ) -> Compared<Option<Block>> {
        let mut history_block = block.to_vec();
        let before = [0xEE; BLOCK_ANSWER];
        let mut answer = before;
        let (record, long) = (&mut self.record, lent(&self.long, self.given));
        let answered = both.block(record, &self.store, long, call, block, &mut answer)?;
        let made = self.history.block_beside(
            &self.history_store,
            lent(&self.history_long, self.given),
            call.n,
            call.u,
            call.wanted(),
            &mut history_block,
        );
        same_number(answered, number(&made))?;
        same(
            "the record",
            &self.record[..SENDER_RECORD],
            &self.history.record(),
        )?;
        same("the block", block, &history_block)?;
        let told = made.as_ref().map_or(before, block_answer);
        same("the answer's bytes", &answer, &told)?;
        Ok(made.ok())
    }
}

/// What is told each notice, and the message that it hands over.
pub type Tell<'a> = dyn FnMut(Notice, &[u8]) + 'a;

pub struct Reading {
    record: Vec<u8>,
    store: Vec<u8>,
    long: Vec<u8>,
    /// How many bytes of the long buffer the next calls are given; none where they are given no buffer.
    pub given: Option<usize>,
    totals: Vec<u8>,
    history: Receiver,
    history_store: Vec<u8>,
    history_long: Vec<u8>,
    history_totals: Totals,
}

impl Reading {
    /// A fresh receiver of a list that is accepted, and empty totals; record, store and totals may be longer than they must.
    pub fn list(both: &mut Both, random: &mut Random, list: &[u8]) -> Compared<Reading> {
        let mut record = spare(random, RECEIVER_RECORD);
        let store = spare(random, RECEIVER_STORE);
        let mut totals = spare(random, TOTALS_RECORD);
        totals[..TOTALS_RECORD].fill(0);
        both.receiver_list(&mut record, list)?;
        let history = Receiver::list(list).expect("an accepted list");
        same("the record", &record[..RECEIVER_RECORD], &history.record())?;
        Ok(Reading {
            record,
            history_store: store.clone(),
            store,
            long: vec![],
            given: None,
            totals,
            history,
            history_long: vec![],
            history_totals: Totals::default(),
        })
    }

    /// The same with a long buffer, which may be longer than it must.
    pub fn with_long(mut self, random: &mut Random) -> Reading {
        self.long = spare(random, LONG_BUFFER);
        self.history_long = self.long.clone();
        self.given = Some(self.long.len());
        self
    }

    /// One reading call, whose notice is noted; none if it is refused.
    pub fn read(&mut self, both: &mut Both, call: ReadCall<'_>) -> Compared<Option<Read>> {
        let mut answer = [0xEE; READ_ANSWER];
        let (record, store) = (&mut self.record, &mut self.store);
        let long = lent_mut(&mut self.long, self.given);
        let answered = both.read(record, store, long, call, &mut answer)?;
        let read = self.history.read_beside(
            &mut self.history_store,
            lent_mut(&mut self.history_long, self.given),
            call.bits,
            call.from,
            call.to,
        );
        same_number(answered, number(&read))?;
        same(
            "the record",
            &self.record[..RECEIVER_RECORD],
            &self.history.record(),
        )?;
        same("the store", &self.store, &self.history_store)?;
        same("the long buffer", &self.long, &self.history_long)?;
        if let Ok(read) = &read {
            same("the answer's bytes", &answer, &read_answer(read))?;
            self.note(both, &answer, read.notice)?;
        }
        Ok(read.ok())
    }

    /// Notes an answer and its notice.
    fn note(&mut self, both: &mut Both, answer: &[u8], notice: Notice) -> Compared<()> {
        both.totals_note(&mut self.totals, answer)?;
        self.history_totals.add(&[notice]);
        same(
            "the totals",
            &self.totals[..TOTALS_RECORD],
            &self.history_totals.record(),
        )
    }

    /// The message that a notice hands over; no bytes if it is no Whole.
    fn handed_over(&self, notice: Notice) -> &[u8] {
        match notice {
            Notice::Circuit {
                number,
                fate: Fate::Whole(length),
                ..
            } => {
                let region = &self.store[REGION * number..];
                let place = if is_long(length) { &self.long } else { region };
                &place[..length]
            }
            _ => &[],
        }
    }

    /// The figures that the totals have of a circuit number.
    pub fn figures(&self, number: usize) -> Figures {
        Totals::unpack(&self.totals[..TOTALS_RECORD]).circuits[number]
    }

    /// Reads all of the call's bits, going on behind each notice. `tell` is given each notice, and the message that was handed over then.
    pub fn read_all(
        &mut self,
        both: &mut Both,
        call: ReadCall<'_>,
        tell: &mut Tell<'_>,
    ) -> Compared<()> {
        let mut from = call.from;
        loop {
            let read = self.read(both, ReadCall { from, ..call })?;
            let read = read.expect("from and to are in range");
            if read.notice == Notice::End {
                return Ok(());
            }
            tell(read.notice, self.handed_over(read.notice));
            from += read.bits;
        }
    }

    /// Reads all of the bits in pieces of at most `longest`, each lent in bytes of its own among other bits.
    pub fn read_pieces(
        &mut self,
        both: &mut Both,
        random: &mut Random,
        bits: &[bool],
        longest: usize,
        tell: &mut Tell<'_>,
    ) -> Compared<()> {
        let mut rest = bits;
        while !rest.is_empty() {
            let (piece, behind) = rest.split_at(1 + random.below(longest.min(rest.len())));
            let (before, after) = (random.below(20), random.below(20));
            let lent = bytes_of(&[&random.bits(before, 6), piece, &random.bits(after, 6)].concat());
            let call = ReadCall {
                bits: &lent,
                from: before as u64,
                to: (before + piece.len()) as u64,
            };
            if random.once_in(16) {
                self.read_nothing(both, random, &lent)?;
            }
            self.read_all(both, call, tell)?;
            rest = behind;
        }
        Ok(())
    }

    /// A call that is refused by 15 or has no bits to read.
    fn read_nothing(&mut self, both: &mut Both, random: &mut Random, bits: &[u8]) -> Compared<()> {
        let end = 8 * bits.len() as u64;
        let (from, to) = random.pick(&[
            (0, 0),
            (end, end),
            (1, 0),
            (end, end - 1),
            (0, end + 1),
            (end + 1, end + 1),
            (0, (1 << 32) + 1),
            (u64::MAX, u64::MAX),
            (u64::MAX, 0),
        ]);
        self.read(both, ReadCall { bits, from, to })?;
        Ok(())
    }
}
