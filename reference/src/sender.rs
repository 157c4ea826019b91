//! 01, "Blocks" and the calls of a sender: a queue of waiting copies for each circuit, and blocks made of them. The system packets that were sent
//! are kept, and the last of them tells which priorities are enabled (02, ask 4). The packets still to go are counted in the queues (02, ask 5), the
//! stuffed zeros of a block in its frames (02, ask 6). A long message (02, ask 7) becomes packets as any other; beside the header it differs in where it is
//! kept between calls on a record's bytes.

use crate::bits::bytes_of;
use crate::hdlc::{added_zeros, frame, FLAG};
use crate::lent::{is_long, long_enough};
use crate::packet::{listed, packet_count, packets, Circuit, System};
use crate::records::{
    put_circuits, SenderRecord, SenderSlot, ENABLE, LAST_SERVED, NO_SENDER, SENDER_RECORD,
    SENDER_SLOT, SLOTS,
};
use crate::{LONGEST_LONG, LONGEST_MESSAGE, REGION, SENDER_STORE, SHORTEST_LONG};
use std::collections::{BTreeSet, VecDeque};
use std::ops::{Range, RangeInclusive};

/// A circuit and what waits there.
#[derive(Clone, Debug)]
struct Queue {
    circuit: Circuit,
    /// Priority, repetition and length of the last message.
    priority: u8,
    repetition: u8,
    length: usize,
    /// Continuity index of the first packet of the next message.
    next_index: u8,
    /// The packets of all copies that wait, in order, each with its number in the message.
    copies: VecDeque<(usize, Vec<u8>)>,
    /// What the record says of the copy while nothing waits: 0, if the record was made by calls.
    idle_copy: u8,
}

impl Queue {
    /// The queue that a slot tells, with the message at the start of these bytes: every copy of it waits but those placed.
    fn of(circuit: Circuit, slot: &SenderSlot, kept: &[u8]) -> Queue {
        let mut queue = Queue {
            circuit,
            priority: 0,
            repetition: 0,
            length: 0,
            next_index: ((usize::from(slot.index) + 8 * REGION - slot.place) % 8) as u8,
            copies: VecDeque::new(),
            idle_copy: 0,
        };
        queue.take(slot.priority, slot.repetition, &kept[..slot.length]);
        let placed = slot.place * queue.each() + usize::from(slot.copy);
        queue.copies.drain(..placed.min(queue.copies.len()));
        if queue.copies.is_empty() {
            queue.idle_copy = slot.copy;
        }
        queue
    }

    /// Takes a message: all copies of its packets then wait.
    fn take(&mut self, priority: u8, repetition: u8, message: &[u8]) {
        let packets = packets(self.circuit, message, self.next_index, priority);
        self.priority = priority;
        self.repetition = repetition;
        self.length = message.len();
        self.next_index = ((usize::from(self.next_index) + packets.len()) % 8) as u8;
        let each = self.each();
        let numbered = packets.into_iter().enumerate();
        self.copies = numbered.flat_map(|packet| vec![packet; each]).collect();
        self.idle_copy = 0;
    }

    /// How many copies a packet has.
    fn each(&self) -> usize {
        usize::from(self.repetition) + 1
    }

    /// The packets still to go: those of which some copy waits.
    fn left(&self) -> usize {
        let numbers: BTreeSet<usize> = self.copies.iter().map(|(number, _)| *number).collect();
        numbers.len()
    }

    fn slot(&self) -> SenderSlot {
        let placed = packet_count(self.length) * self.each() - self.copies.len();
        let (index, copy) = match self.copies.front() {
            Some((_, packet)) => (packet[1] >> 2 & 7, (placed % self.each()) as u8),
            None => (self.next_index, self.idle_copy),
        };
        SenderSlot {
            index,
            priority: self.priority,
            repetition: self.repetition,
            copy,
            length: self.length,
            place: placed / self.each(),
            left: self.left(),
        }
    }
}

/// Where a frame stands in a block, from its opening flag to its closing one, both included. The circuit is None for a system packet.
#[derive(Clone, Debug, PartialEq, Eq)]
pub struct Frame {
    pub circuit: Option<usize>,
    pub bits: Range<usize>,
    /// The zeros that stuffing added.
    pub zeros: usize,
}

/// What a block has got.
#[derive(Clone, Debug, PartialEq, Eq)]
pub struct Block {
    pub frames: Vec<Frame>,
    /// The bits before the closing ones.
    pub used: usize,
}

impl Block {
    /// The number of frames placed, system excluded.
    pub fn placed(&self) -> usize {
        self.frames
            .iter()
            .filter(|frame| frame.circuit.is_some())
            .count()
    }

    /// The zeros that stuffing added to all frames, the system packet's included.
    pub fn zeros(&self) -> usize {
        self.frames.iter().map(|frame| frame.zeros).sum()
    }
}

/// A block as it is written.
struct Writing {
    bits: Vec<bool>,
    frames: Vec<Frame>,
}

impl Writing {
    /// Puts a packet's frame and a flag behind the flag that is last.
    fn put(&mut self, circuit: Option<usize>, packet: &[u8], frame: &[bool]) {
        let start = self.bits.len() - FLAG.len();
        self.bits.extend_from_slice(frame);
        self.bits.extend_from_slice(&FLAG);
        self.frames.push(Frame {
            circuit,
            bits: start..self.bits.len(),
            zeros: added_zeros(packet, frame),
        });
    }
}

/// A sender, with every copy that waits and every system packet that it sent.
#[derive(Clone, Debug)]
pub struct Sender {
    queues: Vec<Queue>,
    last_served: usize,
    /// The system packets sent since it was built, in order.
    systems: Vec<Vec<u8>>,
    /// The record that it was built from.
    record: [u8; SENDER_RECORD],
}

impl Sender {
    /// Lists the circuits, or gives the refusal's number.
    pub fn list(list: &[u8]) -> Result<Sender, u32> {
        listed(list)?;
        let mut record = NO_SENDER;
        put_circuits(&mut record, list);
        Sender::resume(&record, &[0; SENDER_STORE])
    }

    /// The sender that the first 55 bytes and the store tell, or refusal 14 or 5.
    pub fn resume(bytes: &[u8], store: &[u8]) -> Result<Sender, u32> {
        Sender::resume_beside(bytes, store, None)
    }

    /// The same of one with a long buffer, if it is given; 19 comes behind 14 and 5.
    pub fn resume_beside(bytes: &[u8], store: &[u8], long: Option<&[u8]>) -> Result<Sender, u32> {
        let told = SenderRecord::unpack(bytes, long.is_some()).ok_or(14u32)?;
        long_enough(store, SENDER_STORE, long)?;
        let ends = told
            .circuits
            .iter()
            .zip(&told.slots)
            .zip(store.chunks(REGION));
        let kept =
            |slot: &SenderSlot, region| long.filter(|_| is_long(slot.length)).unwrap_or(region);
        let mut record = NO_SENDER;
        record.copy_from_slice(&bytes[..SENDER_RECORD]);
        Ok(Sender {
            queues: ends
                .map(|((&circuit, slot), region)| Queue::of(circuit, slot, kept(slot, region)))
                .collect(),
            last_served: told.last_served,
            systems: vec![],
            record,
        })
    }

    /// The record's bytes; the places of circuits that are not listed stay as they were.
    pub fn record(&self) -> [u8; SENDER_RECORD] {
        let mut record = self.record;
        let slots = record[SLOTS..].chunks_mut(SENDER_SLOT);
        for (queue, slot) in self.queues.iter().zip(slots) {
            slot.copy_from_slice(&queue.slot().pack());
        }
        record[LAST_SERVED] = self.last_served as u8;
        record[ENABLE] = self.enable();
        record
    }

    /// The enable bits in force: those of the last system packet sent, or, if none was, those of the record that it was built from.
    fn enable(&self) -> u8 {
        let last = self.systems.last();
        last.map_or(self.record[ENABLE], |packet| packet[1] & 15)
    }

    /// The refusals that come first in every call: 14 where the last message of circuit 0 is a long one and no long buffer is given, 5 and 19. Nothing
    /// else of a sender made by calls is out of range.
    fn lent(&self, store: &[u8], long: Option<&[u8]>) -> Result<(), u32> {
        let has_long = self.queues.iter().any(|queue| is_long(queue.length));
        if has_long && long.is_none() {
            return Err(14);
        }
        long_enough(store, SENDER_STORE, long)
    }

    /// Offers a message at a circuit, or gives the refusal's number.
    pub fn offer(
        &mut self,
        store: &mut [u8],
        circuit: u64,
        priority: u64,
        repetition: u64,
        message: &[u8],
    ) -> Result<(), u32> {
        self.offer_beside(store, None, circuit, priority, repetition, message)
    }

    /// The same at a sender with a long buffer, if it is given, which stays as it is.
    pub fn offer_beside(
        &mut self,
        store: &mut [u8],
        long: Option<&[u8]>,
        circuit: u64,
        priority: u64,
        repetition: u64,
        message: &[u8],
    ) -> Result<(), u32> {
        self.lent(store, long)?;
        let lengths = (0..=LONGEST_MESSAGE, 9);
        self.take(circuit, priority, repetition, message, lengths)?;
        store[circuit as usize * REGION..][..message.len()].copy_from_slice(message);
        Ok(())
    }

    /// Offers a long message at circuit 0, or gives the refusal's number.
    pub fn offer_long(
        &mut self,
        store: &[u8],
        long: &mut [u8],
        priority: u64,
        repetition: u64,
        message: &[u8],
    ) -> Result<(), u32> {
        self.lent(store, Some(long))?;
        let lengths = (SHORTEST_LONG..=LONGEST_LONG, 18);
        self.take(0, priority, repetition, message, lengths)?;
        long[..message.len()].copy_from_slice(message);
        Ok(())
    }

    /// Takes a message at a circuit, or gives the refusal's number in 01's offering order; for a length outside those of the call it is the one beside
    /// them.
    fn take(
        &mut self,
        circuit: u64,
        priority: u64,
        repetition: u64,
        message: &[u8],
        (lengths, outside): (RangeInclusive<usize>, u32),
    ) -> Result<(), u32> {
        if circuit >= self.queues.len() as u64 {
            return Err(6);
        }
        if priority > 3 {
            return Err(7);
        }
        if repetition > 5 {
            return Err(8);
        }
        if !lengths.contains(&message.len()) {
            return Err(outside);
        }
        let queue = &mut self.queues[circuit as usize];
        if !queue.copies.is_empty() {
            return Err(10);
        }
        queue.take(priority as u8, repetition as u8, message);
        Ok(())
    }

    /// Makes a block of `n` bits of which `u` may be used, or gives the refusal's number. Of the store only the length is looked at: this
    /// sender has all copies itself.
    pub fn block(
        &mut self,
        store: &[u8],
        n: u64,
        u: u64,
        system: Option<System<'_>>,
        block: &mut [u8],
    ) -> Result<Block, u32> {
        self.block_beside(store, None, n, u, system, block)
    }

    /// The same at a sender with a long buffer, if it is given, of which no more is looked at either.
    pub fn block_beside(
        &mut self,
        store: &[u8],
        long: Option<&[u8]>,
        n: u64,
        u: u64,
        system: Option<System<'_>>,
        block: &mut [u8],
    ) -> Result<Block, u32> {
        self.lent(store, long)?;
        if !(256..=27_000).contains(&n) || !(256..=n).contains(&u) {
            return Err(11);
        }
        if (block.len() as u64) < n.div_ceil(8) {
            return Err(12);
        }
        if system.is_some_and(|system| !system.in_range()) {
            return Err(13);
        }
        let Writing { mut bits, frames } = self.fill(u as usize, system);
        let used = bits.len();
        bits.resize(n as usize, true);
        let bytes = bytes_of(&bits);
        block[..bytes.len()].copy_from_slice(&bytes);
        Ok(Block { frames, used })
    }

    /// All of a block but the closing ones, in at most `u` bits.
    fn fill(&mut self, u: usize, system: Option<System<'_>>) -> Writing {
        let mut writing = Writing {
            bits: FLAG.to_vec(),
            frames: vec![],
        };
        if let Some(system) = system {
            let packet = system.packet();
            writing.put(None, &packet, &frame(&packet));
            self.systems.push(packet);
        }
        while let Some(number) = self.pick() {
            let packet = &self.queues[number].copies[0].1;
            let frame = frame(packet);
            if writing.bits.len() + frame.len() + FLAG.len() > u {
                break;
            }
            writing.put(Some(number), packet, &frame);
            self.queues[number].copies.pop_front();
            self.last_served = number;
        }
        writing
    }

    /// The circuit of the next frame: of the highest enabled priority that waits, the first going round by number after the one last served.
    fn pick(&self) -> Option<usize> {
        let enable = self.enable();
        let waits = |number: &usize| {
            let queue = &self.queues[*number];
            !queue.copies.is_empty() && enable >> queue.priority & 1 == 1
        };
        let turns = |number: usize| (number + 4 - self.last_served - 1) % 4;
        (0..self.queues.len())
            .filter(waits)
            .min_by_key(|&number| (3 - self.queues[number].priority, turns(number)))
    }
}
