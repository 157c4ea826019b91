//! The reference through its own values, which hold all that an end remembers; no record is packed or checked in a call.

use super::{
    Ask, BlockAnswer, Offer, Part, ReadAnswer, Receiver, Sender, Side, Totals, TotalsSide,
};
use aes18::TOTALS_RECORD;
use aes18_reference::calls::{answered_notice, block_answer, read_answer};
use aes18_reference::{packet, receiver, sender, totals};

/// The refusal of a call on a record that was not made by listing.
const NO_RECORD: u32 = 14;

pub struct Reference;

impl Side for Reference {
    const NAME: &'static str = "reference";
    type Sender = ReferenceSender;
    type Receiver = ReferenceReceiver;
}

impl TotalsSide for Reference {
    type Totals = ReferenceTotals;
}

#[derive(Default)]
pub struct ReferenceSender(Option<sender::Sender>);

impl Sender for ReferenceSender {
    fn list(&mut self, list: &[u8]) -> Result<(), u32> {
        self.0 = Some(sender::Sender::list(list)?);
        Ok(())
    }

    fn offer(&mut self, store: &mut [u8], offer: Offer<'_>) -> Result<(), u32> {
        let Offer {
            circuit,
            priority,
            repetition,
            message,
        } = offer;
        let sender = self.0.as_mut().ok_or(NO_RECORD)?;
        sender.offer(store, circuit, priority, repetition, message)
    }

    fn block(&mut self, store: &[u8], ask: Ask<'_>, block: &mut [u8]) -> Result<BlockAnswer, u32> {
        let sender = self.0.as_mut().ok_or(NO_RECORD)?;
        let system = ask.system.map(|system| packet::System {
            enable: system.enable,
            code: system.code,
            information: system.information,
        });
        let made = sender.block(store, ask.n, ask.n, system, block)?;
        Ok(BlockAnswer(block_answer(&made)))
    }
}

#[derive(Default)]
pub struct ReferenceReceiver(Option<receiver::Receiver>);

impl Receiver for ReferenceReceiver {
    fn list(&mut self, list: &[u8]) -> Result<(), u32> {
        self.0 = Some(receiver::Receiver::list(list)?);
        Ok(())
    }

    fn read(&mut self, store: &mut [u8], bits: &[u8], part: Part) -> Result<ReadAnswer, u32> {
        let receiver = self.0.as_mut().ok_or(NO_RECORD)?;
        let read = receiver.read(store, bits, part.from, part.to)?;
        Ok(ReadAnswer(read_answer(&read)))
    }
}

#[derive(Default)]
pub struct ReferenceTotals(totals::Totals);

impl Totals for ReferenceTotals {
    fn note(&mut self, answer: &ReadAnswer) -> Result<(), u32> {
        self.0.add(answered_notice(&answer.0).as_slice());
        Ok(())
    }

    fn record(&self) -> [u8; TOTALS_RECORD] {
        self.0.record()
    }
}
