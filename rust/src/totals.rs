//! What the notices of a pass add up to.

use crate::calls;
use crate::lengths::TOTALS_RECORD;
use crate::notice::Notice;

/// The totals of a pass: for each circuit number 0 to 3 its [`Figures`], brought up to date with each notice.
///
/// They stand beside a receiver, which neither reads nor writes them. Totals are a value of 64 bytes.
///
/// ```
/// use aes18::{Circuit, Figures, Notice, Receiver, Sender, Totals, RECEIVER_STORE, SENDER_STORE};
///
/// # fn main() -> Result<(), aes18::Refusal> {
/// # let circuits = [Circuit { address: 0x01, extension: None }];
/// # let mut store = [0; SENDER_STORE];
/// # let mut sender = Sender::list(&circuits)?;
/// # let mut bits = [0; 120];
/// # for block in bits.chunks_mut(40) {
/// #     sender.offer(&mut store, 0, 0, 0, b"charge 71%")?;
/// #     sender.block(&store, 320, 320, None, block)?;
/// # }
/// // Three blocks with a message of 10 bytes each, of which the second is torn.
/// bits[50] ^= 1;
///
/// let mut store = [0; RECEIVER_STORE];
/// let mut receiver = Receiver::list(&circuits)?;
/// let mut totals = Totals::empty();
/// let mut from = 0;
/// loop {
///     let read = receiver.read(&mut store, &bits, from, 960)?;
///     from += read.bits;
///     totals.note(&read.notice);
///     if read.notice == Notice::End {
///         break;
///     }
/// }
/// let figures = Figures { messages: 2, bytes: 20, lost: 1, orphaned: 0 };
/// assert_eq!(totals.circuit(0), Some(figures));
/// # Ok(())
/// # }
/// ```
#[derive(Clone, Copy, Debug, PartialEq, Eq)]
pub struct Totals {
    record: [u8; TOTALS_RECORD],
}

/// The figures of a circuit. Each is counted on its own up to 4,294,967,295 ([`u32::MAX`]), which stands for that many or more.
#[derive(Clone, Copy, Debug, Default, PartialEq, Eq)]
pub struct Figures {
    /// Messages whole.
    pub messages: u32,
    /// Their bytes.
    pub bytes: u32,
    /// Packets lost: the sum of the losses, whatever became of the packets behind them. Packets lost before the first that came or behind the last
    /// are in no figure.
    pub lost: u32,
    /// Packets orphaned. Wrong ones are not counted here.
    pub orphaned: u32,
}

impl Totals {
    /// Totals in which nothing is noted yet.
    pub const fn empty() -> Totals {
        Totals {
            record: [0; TOTALS_RECORD],
        }
    }

    /// Notes a notice: [`Notice::Circuit`] counts at its number, if that is not above 3; all others count nowhere.
    ///
    /// A message above 65,535 bytes, which no receiver tells, does not fit an answer and is not counted, nor is its loss.
    pub fn note(&mut self, notice: &Notice) {
        if let Some(answer) = notice.answer() {
            calls::totals_note(&mut self.record, &answer);
        }
    }

    /// The figures of a circuit number; none above 3.
    pub fn circuit(&self, number: usize) -> Option<Figures> {
        self.circuits().get(number).copied()
    }

    /// The figures of the circuit numbers 0 to 3.
    pub fn circuits(&self) -> [Figures; 4] {
        core::array::from_fn(|number| Figures::of(&self.record[CIRCUIT * number..][..CIRCUIT]))
    }

    /// The record's bytes. Their layout is no storage format: a later version may have another.
    pub fn as_bytes(&self) -> &[u8; TOTALS_RECORD] {
        &self.record
    }

    /// The totals of a record's bytes. Any bytes are some totals.
    pub fn from_bytes(record: [u8; TOTALS_RECORD]) -> Totals {
        Totals { record }
    }
}

/// [`Totals::empty`].
impl Default for Totals {
    fn default() -> Totals {
        Totals::empty()
    }
}

/// The bytes of a circuit's figures: four numbers of four bytes, lowest first.
const CIRCUIT: usize = 16;

impl Figures {
    /// The figures in a circuit's bytes.
    fn of(bytes: &[u8]) -> Figures {
        let figure = |at: usize| {
            u32::from_le_bytes([bytes[at], bytes[at + 1], bytes[at + 2], bytes[at + 3]])
        };
        Figures {
            messages: figure(0),
            bytes: figure(4),
            lost: figure(8),
            orphaned: figure(12),
        }
    }
}
