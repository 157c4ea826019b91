//! 01, "Notices" and the calls of a receiver; long messages at circuit number 0 (02, ask 7).

use crate::bits::bit_at;
use crate::hdlc::{judge, Judged};
use crate::history::History;
use crate::lent::{is_long, long_enough};
use crate::packet::{listed, parse, Circuit, Link, Packet, LONG_HEADER};
use crate::records::{
    put_circuits, ReceiverRecord, ReceiverSlot, FRAMING_PLACE, NO_RECEIVER, RECEIVER_RECORD,
    RECEIVER_SLOT, SLOTS,
};
use crate::{LONGEST_LONG, RECEIVER_STORE, REGION, SHORTEST_LONG, SYSTEM_PLACE};

/// What a reading call tells.
#[derive(Clone, Copy, Debug, PartialEq, Eq)]
pub enum Notice {
    End,
    Spoilt,
    Malformed,
    System {
        enable: u64,
        code: u64,
        length: usize,
    },
    Elsewhere,
    Circuit {
        number: usize,
        loss: u8,
        fate: Fate,
    },
}

/// What became of a packet of a listed circuit.
#[derive(Clone, Copy, Debug, PartialEq, Eq)]
pub enum Fate {
    Copy,
    Begun,
    Held,
    Whole(usize),
    Orphan,
    Wrong,
}

/// What a reading call answers: the notice, and how many bits were read up to it.
#[derive(Clone, Copy, Debug, PartialEq, Eq)]
pub struct Read {
    pub notice: Notice,
    pub bits: u64,
}

/// Where message bytes go: the circuit's region, and for long messages the long buffer, which circuit number 0 has if the receiver has it.
struct Room<'a> {
    region: &'a mut [u8],
    long: Option<&'a mut [u8]>,
}

/// A circuit and what came of it.
#[derive(Clone, Debug)]
struct Heard {
    circuit: Circuit,
    /// Whether some packet came, and the continuity index of the last.
    seen: bool,
    last: u8,
    /// The length of the open message, or the most that a long one may have, and the bytes that came of it. A message is open while fewer than that came.
    length: usize,
    message: Vec<u8>,
}

impl Heard {
    /// What a slot tells, with the bytes that came at the start of these.
    fn of(circuit: Circuit, slot: &ReceiverSlot, kept: &[u8]) -> Heard {
        Heard {
            circuit,
            seen: slot.seen,
            last: slot.last,
            length: slot.length,
            message: kept[..slot.place].to_vec(),
        }
    }

    fn slot(&self) -> ReceiverSlot {
        ReceiverSlot {
            seen: self.seen,
            last: self.last,
            length: self.length,
            place: self.message.len(),
        }
    }

    /// How many bytes of the open message are due, or may come of a long one; 0 if none is open.
    fn due(&self) -> usize {
        self.length - self.message.len()
    }

    /// Whether the open message may end with so many bytes: a long one wherever it then is one.
    fn ends_with(&self, bytes: usize) -> bool {
        let end = self.message.len() + bytes;
        if is_long(self.length) {
            (SHORTEST_LONG..=self.length).contains(&end)
        } else {
            end == self.length
        }
    }

    fn close(&mut self) {
        self.length = 0;
        self.message.clear();
    }

    /// Adds bytes to the message, and to where it stands.
    fn write(&mut self, bytes: &[u8], room: &mut Room<'_>) {
        let place = match &mut room.long {
            Some(long) if is_long(self.length) => long,
            _ => &mut *room.region,
        };
        place[self.message.len()..][..bytes.len()].copy_from_slice(bytes);
        self.message.extend_from_slice(bytes);
    }

    /// Takes a packet of the circuit: the loss, and what becomes of it.
    fn take(&mut self, link: Link, index: u8, segment: &[u8], room: &mut Room<'_>) -> (u8, Fate) {
        if self.seen && index == self.last {
            return (0, Fate::Copy);
        }
        let loss = if self.seen {
            (index + 8 - self.last - 1) % 8
        } else {
            0
        };
        self.seen = true;
        self.last = index;
        if loss > 0 || link == Link::First {
            self.close();
        }
        let fate = match link {
            Link::First => self.begin(segment, room),
            _ if self.due() == 0 => Fate::Orphan,
            Link::Between if segment.len() == 16 && self.due() > 16 => {
                self.write(segment, room);
                Fate::Held
            }
            Link::Last if self.ends_with(segment.len()) => {
                self.write(segment, room);
                Fate::Whole(self.message.len())
            }
            _ => Fate::Wrong,
        };
        if !matches!(fate, Fate::Begun | Fate::Held) {
            self.close();
        }
        (loss, fate)
    }

    /// Takes the segment of a first packet.
    fn begin(&mut self, segment: &[u8], room: &mut Room<'_>) -> Fate {
        let (held, bytes) = match *segment {
            [one, ref bytes @ ..] if one & 0x10 == 0 => (usize::from(one & 15), bytes),
            [one, two, ref bytes @ ..] => (usize::from(one & 15) * 256 + usize::from(two), bytes),
            _ => return Fate::Wrong,
        };
        let two_bytes = segment[0] & 0x10 != 0;
        let length = match held {
            LONG_HEADER if room.long.is_some() => LONGEST_LONG,
            _ => held,
        };
        let wrong_length = two_bytes && (length < 16 || length == LONG_HEADER);
        let complete = bytes.len() == length;
        let begun = segment.len() == 16 && bytes.len() < length;
        if wrong_length || !complete && !begun {
            return Fate::Wrong;
        }
        self.length = length;
        self.write(bytes, room);
        if complete {
            Fate::Whole(length)
        } else {
            Fate::Begun
        }
    }
}

/// A receiver, with the bits and bytes that it still needs.
#[derive(Clone, Debug)]
pub struct Receiver {
    circuits: Vec<Heard>,
    history: History,
    /// The record that it was built from.
    record: [u8; RECEIVER_RECORD],
}

impl Receiver {
    /// Lists the circuits, or gives the refusal's number.
    pub fn list(list: &[u8]) -> Result<Receiver, u32> {
        listed(list)?;
        let mut record = NO_RECEIVER;
        put_circuits(&mut record, list);
        Receiver::resume(&record, &[0; RECEIVER_STORE])
    }

    /// The receiver that the first 61 bytes and the store tell, or refusal 14 or 5.
    pub fn resume(bytes: &[u8], store: &[u8]) -> Result<Receiver, u32> {
        Receiver::resume_beside(bytes, store, None)
    }

    /// The same of one with a long buffer, if it is given; 19 comes behind 14 and 5.
    pub fn resume_beside(bytes: &[u8], store: &[u8], long: Option<&[u8]>) -> Result<Receiver, u32> {
        let told = ReceiverRecord::unpack(bytes, long.is_some()).ok_or(14u32)?;
        long_enough(store, RECEIVER_STORE, long)?;
        let ends = told
            .circuits
            .iter()
            .zip(&told.slots)
            .zip(store.chunks(REGION));
        let kept =
            |slot: &ReceiverSlot, region| long.filter(|_| is_long(slot.length)).unwrap_or(region);
        let mut record = NO_RECEIVER;
        record.copy_from_slice(&bytes[..RECEIVER_RECORD]);
        Ok(Receiver {
            circuits: ends
                .map(|((&circuit, slot), region)| Heard::of(circuit, slot, kept(slot, region)))
                .collect(),
            history: told.history,
            record,
        })
    }

    /// The record's bytes; the places of circuits that are not listed stay as they were.
    pub fn record(&self) -> [u8; RECEIVER_RECORD] {
        let mut record = self.record;
        let slots = record[SLOTS..].chunks_mut(RECEIVER_SLOT);
        for (heard, slot) in self.circuits.iter().zip(slots) {
            slot.copy_from_slice(&heard.slot().pack());
        }
        record[FRAMING_PLACE..].copy_from_slice(&self.history.pack());
        record
    }

    /// Reads the bits from `from` to before `to` up to the first notice, or gives the refusal's number.
    pub fn read(&mut self, store: &mut [u8], bits: &[u8], from: u64, to: u64) -> Result<Read, u32> {
        self.read_beside(store, None, bits, from, to)
    }

    /// The same at a receiver with a long buffer, if it is given. Without it an open long message is out of range.
    pub fn read_beside(
        &mut self,
        store: &mut [u8],
        mut long: Option<&mut [u8]>,
        bits: &[u8],
        from: u64,
        to: u64,
    ) -> Result<Read, u32> {
        let has_long = self.circuits.iter().any(|heard| is_long(heard.length));
        if has_long && long.is_none() {
            return Err(14);
        }
        long_enough(store, RECEIVER_STORE, long.as_deref())?;
        if from > to || to > 8 * bits.len() as u64 {
            return Err(15);
        }
        for at in from..to {
            let Some(body) = self.history.read(bit_at(bits, at)) else {
                continue;
            };
            let notice = match judge(&body) {
                Judged::Packet(packet) => self.notice(&packet, store, long.as_deref_mut()),
                Judged::Spoilt => Notice::Spoilt,
                Judged::Nothing => continue,
            };
            return Ok(Read {
                notice,
                bits: at + 1 - from,
            });
        }
        Ok(Read {
            notice: Notice::End,
            bits: to - from,
        })
    }

    /// The notice of a packet whose frame passed.
    fn notice(&mut self, packet: &[u8], store: &mut [u8], long: Option<&mut [u8]>) -> Notice {
        match parse(packet) {
            Packet::Malformed => Notice::Malformed,
            Packet::System(system) => {
                let length = system.information.len();
                store[SYSTEM_PLACE..][..length].copy_from_slice(system.information);
                Notice::System {
                    enable: system.enable,
                    code: system.code,
                    length,
                }
            }
            Packet::Ordinary {
                circuit,
                link,
                index,
                segment,
            } => {
                let Some(number) = self
                    .circuits
                    .iter()
                    .position(|heard| heard.circuit == circuit)
                else {
                    return Notice::Elsewhere;
                };
                let mut room = Room {
                    region: &mut store[number * REGION..][..REGION],
                    long: long.filter(|_| number == 0),
                };
                let (loss, fate) = self.circuits[number].take(link, index, segment, &mut room);
                Notice::Circuit { number, loss, fate }
            }
        }
    }
}
