//! A plan's calls of the sender.

use std::array;

use aes18::{Block, Refusal, Sender, SystemPacket, LONGEST_MESSAGE, LONG_BUFFER, SENDER_STORE};

use super::plan::{Action, Offer, Plan, System};
use crate::circuits::MOST_CIRCUITS;
use crate::enable::EnableBits;
use crate::error::Error;
use crate::output::count;

/// Bytes of the longest block, 27,000 bits.
const LONGEST_BLOCK: usize = 3375;

/// A block made: the plan's line that asks for it, its bits, and what was put into it.
pub struct Made<'a> {
    pub line: usize,
    pub n: u64,
    pub block: Block,
    /// The enable bits in force, which rule it.
    pub enable: EnableBits,
    /// The packets still to go behind it, by the circuit's number.
    pub left: [u64; MOST_CIRCUITS],
    /// Its bytes, spare bits of the last 0.
    pub bytes: &'a [u8],
}

/// The sender of a plan, as its calls so far leave it.
pub struct Sending {
    sender: Sender,
    store: Vec<u8>,
    /// It is given in every call.
    long_buffer: Vec<u8>,
    /// The priority of the last message at each circuit, by number.
    priorities: [u8; MOST_CIRCUITS],
}

/// Makes a plan's calls, hands each block over and answers the sender as it is then. The first refusal ends it.
pub fn send(
    plan: &Plan,
    mut hand_over: impl FnMut(Made<'_>) -> Result<(), Error>,
) -> Result<Sending, Error> {
    let mut sending = Sending::new(plan)?;
    let mut bytes = [0; LONGEST_BLOCK];
    for step in &plan.steps {
        let refused = |refusal| Error::line(&plan.name, step.line, refusal);
        match &step.action {
            Action::Offer(offer) => sending.offer(offer).map_err(refused)?,
            Action::Block { n, u, system } => {
                let system = system.as_ref().map(System::packet);
                let (store, long_buffer) = (&sending.store, &sending.long_buffer);
                let block = sending
                    .sender
                    .block_beside(store, long_buffer, *n, *u, system, &mut bytes)
                    .map_err(|refusal| refused(refusal.to_string()))?;
                hand_over(Made {
                    line: step.line,
                    n: *n,
                    block,
                    enable: sending.enable(),
                    left: array::from_fn(|circuit| sending.left(circuit)),
                    bytes: &bytes[..n.div_ceil(8) as usize],
                })?;
            }
        }
    }
    Ok(sending)
}

impl Sending {
    /// A fresh sender of the plan's circuits.
    fn new(plan: &Plan) -> Result<Sending, Error> {
        let sender = Sender::list(&plan.circuits)
            .map_err(|refusal| Error::line(&plan.name, plan.circuits_line, refusal))?;
        Ok(Sending {
            sender,
            store: vec![0; SENDER_STORE],
            long_buffer: vec![0; LONG_BUFFER],
            priorities: [0; MOST_CIRCUITS],
        })
    }

    /// Offers a message, at circuit 0 one above 4,094 bytes as a long one; an error says why it is refused.
    fn offer(&mut self, offer: &Offer) -> Result<(), String> {
        let Offer {
            circuit,
            priority,
            repetition,
            ref message,
        } = *offer;
        let (store, long_buffer) = (&mut self.store, &mut self.long_buffer);
        let offered = match circuit == 0 && message.len() > LONGEST_MESSAGE {
            true => self
                .sender
                .offer_long(store, long_buffer, priority, repetition, message),
            false => {
                self.sender
                    .offer_beside(store, long_buffer, circuit, priority, repetition, message)
            }
        };
        let circuit = circuit as usize;
        offered.map_err(|refusal| self.refused(refusal, circuit))?;
        self.priorities[circuit] = priority as u8;
        Ok(())
    }

    /// The words of an offer's refusal. Of a message that is too long they say which circuit takes a longer one; of an earlier message how many of its
    /// packets are still to go and, where it is held back, why.
    fn refused(&self, refusal: Refusal, circuit: usize) -> String {
        match refusal {
            Refusal::MessageTooLong => {
                format!("{refusal}; only circuit 0 takes longer ones, up to 65,535 bytes")
            }
            Refusal::LongMessageLength => format!("{refusal}; no circuit takes a longer one"),
            Refusal::MessagePending => {
                let left = count(self.left(circuit), "packet");
                let why = match self.held_back(circuit) {
                    Some(why) => format!("; its {why}"),
                    None => String::new(),
                };
                format!("{refusal}, {left} of it still to go{why}")
            }
            _ => refusal.to_string(),
        }
    }

    /// The enable bits in force.
    pub fn enable(&self) -> EnableBits {
        EnableBits(self.sender.enable() as u8)
    }

    /// How many packets are still to go at the circuit of that number: those of which some copy is still to place.
    pub fn left(&self, circuit: usize) -> u64 {
        self.sender.waiting(circuit) as u64
    }

    /// Why what is still to go at the circuit of that number is held back, in words; none where its priority is enabled.
    pub fn held_back(&self, circuit: usize) -> Option<String> {
        let priority = self.priorities.get(circuit)?;
        let enabled = self.enable().enables(*priority);
        (!enabled).then(|| {
            format!("priority {priority} is not enabled until another system packet enables it")
        })
    }
}

impl System {
    /// The packet as the block call takes it.
    fn packet(&self) -> SystemPacket<'_> {
        SystemPacket {
            enable: self.enable,
            code: self.code,
            information: &self.information,
        }
    }
}
