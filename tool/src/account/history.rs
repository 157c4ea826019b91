//! What a pass so far says of its next notice: whether its loss is known, and what becomes of the message that was open.

use aes18::{Circuit, Fate, Notice, Open};

use crate::circuits::{self, MOST_CIRCUITS};
use crate::listener::{Listened, Listener};

/// A notice with what the pass before it says of it.
#[derive(Clone, Copy, Debug, PartialEq, Eq)]
pub struct Heard {
    pub notice: Notice,
    /// How many bytes the packet has, where it is told.
    pub bytes: Option<u64>,
    /// At Elsewhere the packet's circuit.
    pub elsewhere: Option<Circuit>,
    /// How much stands in no frame between the circuit's last packet and this one, where that is enough for the loss, or that it is a copy, to be
    /// known only modulo 8.
    pub doubt: Option<u64>,
    /// Whether the message that was open is dropped by it.
    pub dropped: bool,
}

impl Heard {
    /// A notice of which nothing more is said.
    pub fn plain(notice: Notice) -> Heard {
        Heard {
            notice,
            bytes: None,
            elsewhere: None,
            doubt: None,
            dropped: false,
        }
    }
}

/// A message that is open at the end.
#[derive(Clone, Copy, Debug, PartialEq, Eq)]
pub struct Unfinished {
    /// The circuit's number.
    pub number: usize,
    pub open: Open,
    /// The place of the notice by which it was begun.
    pub begun: u64,
}

/// What was heard of each circuit, by number.
pub struct History {
    /// From how much in no frame on a loss is known only modulo 8.
    doubtful: u64,
    circuits: [Past; MOST_CIRCUITS],
    passed: bool,
}

/// What was heard of a circuit.
#[derive(Clone, Copy, Default)]
struct Past {
    /// How much stood in no frame before its last packet; none before its first.
    last: Option<u64>,
    open: Option<Open>,
    /// Where the open message was begun.
    begun: u64,
}

impl History {
    /// Nothing heard yet.
    pub fn new(doubtful: u64) -> History {
        History {
            doubtful,
            circuits: [Past::default(); MOST_CIRCUITS],
            passed: false,
        }
    }

    /// What was listened to at that place, behind so much in no frame in all; the listener is as the notice left it.
    pub fn hear(&mut self, told: &Listened, place: u64, free: u64, listener: &Listener) -> Heard {
        let notice = told.notice;
        self.passed |= notice != Notice::Spoilt;
        let packet = told.packet.as_deref();
        let bytes = packet.map(|packet| packet.len() as u64);
        let Notice::Circuit { number, loss, fate } = notice else {
            let packet = packet.filter(|_| notice == Notice::Elsewhere);
            return Heard {
                bytes,
                elsewhere: packet.and_then(circuits::of_packet),
                ..Heard::plain(notice)
            };
        };
        let past = &mut self.circuits[number];
        let since = past.last.map(|last| free - last);
        let dropped = past.open.is_some() && is_dropped(loss, fate);
        past.last = Some(free);
        past.open = listener.open(number);
        if fate == Fate::Begun {
            past.begun = place;
        }
        Heard {
            notice,
            bytes,
            elsewhere: None,
            doubt: since.filter(|since| *since >= self.doubtful),
            dropped,
        }
    }

    /// Whether a frame passed.
    pub fn passed(&self) -> bool {
        self.passed
    }

    /// The messages that are open.
    pub fn unfinished(&self) -> Vec<Unfinished> {
        let circuits = self.circuits.iter().enumerate();
        let unfinished = circuits.filter_map(|(number, past)| {
            past.open.map(|open| Unfinished {
                number,
                open,
                begun: past.begun,
            })
        });
        unfinished.collect()
    }
}

/// Bytes of the longest message that is whole in its only packet: it has a header of one byte.
const LONGEST_OF_ONE: usize = 15;

/// Whether a packet with that loss and fate drops the message that was open before it. A copy changes nothing; a loss always drops it. A message that is
/// begun has 16 bytes or more, as its first packet has room for 14 behind a header of two bytes and one of up to 15 bytes, whose header has one, is
/// whole in its only packet. So a Whole of 16 bytes or more completes the open message, and any other is a message of one packet, which drops it.
fn is_dropped(loss: u8, fate: Fate) -> bool {
    match fate {
        Fate::Copy => false,
        _ if loss > 0 => true,
        Fate::Held => false,
        Fate::Whole(length) => length <= LONGEST_OF_ONE,
        Fate::Begun | Fate::Orphan | Fate::Wrong => true,
    }
}
