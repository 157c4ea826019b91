//! A sending end that goes from call to call.

use aes18_reference::calls::{self, block_answer, number, BlockCall, OfferCall, BLOCK_ANSWER};
use aes18_reference::records::SENDER_RECORD;
use aes18_reference::sender::Sender;
use aes18_reference::SENDER_STORE;

pub const LIST: [u8; 12] = [1, 0, 0, 2, 1, 7, 3, 0, 0, 0x7E, 1, 0];

/// A block call without a system packet; the enable argument would bar all.
pub const PLAIN: BlockCall = BlockCall {
    n: 1500,
    u: 1500,
    system: 0,
    enable: 0,
    code: 0,
    information: &[],
};

/// A sender that keeps its queues and system packets, and beside it the record that goes from call to call.
pub struct End {
    sender: Sender,
    pub record: [u8; SENDER_RECORD],
    /// The answer of the last block call that was accepted.
    pub answer: [u8; BLOCK_ANSWER],
    store: Vec<u8>,
}

impl End {
    pub fn fresh() -> End {
        let mut record = [0x5A; SENDER_RECORD];
        assert_eq!(calls::sender_list(&mut record, &LIST), 0);
        End {
            sender: Sender::list(&LIST).unwrap(),
            record,
            answer: [0x5A; BLOCK_ANSWER],
            store: vec![0; SENDER_STORE],
        }
    }

    pub fn offer(&mut self, circuit: u64, priority: u64, repetition: u64, message: &[u8]) -> u32 {
        let call = OfferCall {
            circuit,
            priority,
            repetition,
            message,
        };
        let answered = calls::sender_offer(&mut self.record, &mut self.store, call);
        let store = &mut self.store;
        let offered = self
            .sender
            .offer(store, circuit, priority, repetition, message);
        assert_eq!(answered, number(&offered));
        assert_eq!(self.record, self.sender.record());
        answered
    }

    /// A block in `room` bytes with so much of the store: the circuits of its frames, or the refusal's number. A refused one leaves the answer as it was.
    pub fn block_in(
        &mut self,
        call: BlockCall<'_>,
        store: usize,
        room: usize,
    ) -> Result<Vec<usize>, u32> {
        let (mut block, mut again) = (vec![0; room], vec![0; room]);
        let (store, before, answer) = (&self.store[..store], self.answer, &mut self.answer);
        let answered = calls::sender_block(&mut self.record, store, call, &mut block, answer);
        let made = self
            .sender
            .block(store, call.n, call.u, call.wanted(), &mut again);
        assert_eq!((answered, block), (number(&made), again));
        assert_eq!(self.answer, made.as_ref().map_or(before, block_answer));
        assert_eq!(self.record, self.sender.record());
        made.map(|made| made.frames.iter().filter_map(|f| f.circuit).collect())
    }

    pub fn block(&mut self, call: BlockCall<'_>) -> Result<Vec<usize>, u32> {
        self.block_in(call, SENDER_STORE, 188)
    }
}
