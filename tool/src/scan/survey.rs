//! Which circuits are heard in user bits.

use std::cmp::Reverse;
use std::collections::HashMap;

use aes18::{Circuit, Packet};

use crate::account::{Account, Unit};
use crate::circuits;
use crate::error::Error;
use crate::extents::{Kind, Stretch};
use crate::frames::FLAG_BITS;
use crate::gaps::Gap;
use crate::pass::Pass;

/// What is heard in the bits read so far. There are no more than 65,535 circuits, so that the memory used does not grow with the bits.
pub struct Survey {
    /// It lists no circuit, so that a packet of any is told as Elsewhere.
    pass: Pass,
    pub account: Account,
    /// Bits read.
    pub bits: u64,
    /// The circuits, by who was heard first, and where each is among them.
    heard: Vec<HeardCircuit>,
    places: HashMap<Circuit, usize>,
}

/// A circuit of which packets passed.
pub struct HeardCircuit {
    pub circuit: Circuit,
    /// Packets, copies not counted.
    pub packets: u64,
    /// Packets equal to the one before them.
    pub copies: u64,
    /// Bytes of the packets, copies not counted.
    pub bytes: u64,
    /// Packets behind so much in no frame that what was lost before them is known only modulo 8.
    pub modulo: u64,
    /// The first bit of the first frame, which begins with a flag.
    pub from: u64,
    /// The bit behind the last frame, which ends with a flag.
    pub to: u64,
    /// Whether a packet has the header of a long message.
    pub long: bool,
    last: Packet,
    /// How much stood in no frame before the last packet.
    free: u64,
}

impl Survey {
    /// Nothing read yet. Blocks and spare bits are those of a pass.
    pub fn new(block: Option<u64>, spare: bool) -> Result<Survey, Error> {
        Ok(Survey {
            pass: Pass::new(&[], block, spare)?,
            account: Account::new(Unit::Bit, &[]),
            bits: 0,
            heard: Vec::new(),
            places: HashMap::new(),
        })
    }

    /// Reads the bits of the bytes before the bit `to`; answers the stretches in no frame that have ended.
    pub fn read(&mut self, bytes: &[u8], to: u64) -> Result<Vec<Gap>, Error> {
        self.read_packets(bytes, to, |_| Ok(()))
    }

    /// The same with each packet that passes, whatever its kind.
    pub fn read_packets(
        &mut self,
        bytes: &[u8],
        to: u64,
        mut each: impl FnMut(&Packet) -> Result<(), Error>,
    ) -> Result<Vec<Gap>, Error> {
        let mut gaps = Vec::new();
        let mut from = 0;
        while from < to {
            let told = self.pass.read(bytes, from, to)?;
            from += told.bits;
            self.bits += told.bits;
            told.packet.iter().try_for_each(&mut each)?;
            if let Some(heard) = told.heard {
                self.account.notice(&heard);
                self.hear(heard.elsewhere.zip(told.packet));
            }
            gaps.extend(self.gaps());
        }
        Ok(gaps)
    }

    /// Ends the reading, when all bits are read; answers the last stretches in no frame.
    pub fn end(&mut self) -> Vec<Gap> {
        self.pass.end();
        self.gaps()
    }

    /// The stretches in no frame that ended since this was asked last.
    fn gaps(&mut self) -> Vec<Gap> {
        let gaps = self.pass.gaps();
        gaps.iter().for_each(|gap| self.account.gap(gap));
        gaps
    }

    /// Notes a packet of a circuit whose frame ends with the last bit read.
    fn hear(&mut self, packet: Option<(Circuit, Packet)>) {
        let Some((circuit, packet)) = packet else {
            return;
        };
        let free = self.pass.free();
        match self.places.get(&circuit) {
            Some(place) => {
                let doubtful = self.heard[*place].again(packet, self.bits, free);
                self.account.unlisted += u64::from(doubtful);
            }
            None => {
                self.places.insert(circuit, self.heard.len());
                self.heard.push(HeardCircuit {
                    circuit,
                    packets: 1,
                    copies: 0,
                    bytes: packet.len() as u64,
                    modulo: 0,
                    from: self.frame(),
                    to: self.bits,
                    long: circuits::begins_long(&packet),
                    last: packet,
                    free,
                });
            }
        }
    }

    /// The first bit of the frame that was read last, which begins with a flag.
    fn frame(&self) -> u64 {
        let is_body = |stretch: &&Stretch| matches!(stretch.kind, Kind::Body(_));
        let body = self.pass.stretches().iter().find(is_body);
        body.map_or(self.bits, |body| body.from - FLAG_BITS)
    }

    /// Whether a frame passed.
    pub fn passed(&self) -> bool {
        self.pass.passed()
    }

    /// The circuits, those with most packets first, of those with as many those heard first.
    pub fn ranked(&self) -> Vec<&HeardCircuit> {
        let mut ranked: Vec<&HeardCircuit> = self.heard.iter().collect();
        ranked.sort_by_key(|heard| Reverse(heard.packets));
        ranked
    }
}

impl HeardCircuit {
    /// Notes a further packet, whose frame ends before the bit `to`, behind so much in no frame in all; answers whether what was lost before it is
    /// known only modulo 8.
    fn again(&mut self, packet: Packet, to: u64, free: u64) -> bool {
        match packet == self.last {
            true => self.copies += 1,
            false => {
                self.packets += 1;
                self.bytes += packet.len() as u64;
            }
        }
        let doubtful = free - self.free >= Unit::Bit.doubtful();
        self.modulo += u64::from(doubtful);
        self.to = to;
        self.long |= circuits::begins_long(&packet);
        self.last = packet;
        self.free = free;
        doubtful
    }
}
