//! The change requests, "Ask 1": pass totals of each circuit, summed over lists of notices without any limit. Only when a record's bytes are asked for
//! is each figure the smaller of its total and the most.

use crate::receiver::{Fate, Notice};

/// Bytes of a record of totals.
pub const TOTALS_RECORD: usize = 64;
/// The most that a figure in a record is.
pub const MOST: u128 = 4_294_967_295;

/// Messages whole, their bytes, packets lost, packets orphaned.
pub type Figures = [u128; 4];

/// The totals at the circuit numbers 0 to 3.
#[derive(Clone, Debug, Default, PartialEq, Eq)]
pub struct Totals {
    pub circuits: [Figures; 4],
}

impl Totals {
    /// The totals that a record's 64 bytes tell.
    pub fn unpack(record: &[u8]) -> Totals {
        let mut totals = Totals::default();
        let figures = totals.circuits.iter_mut().flatten();
        for (figure, bytes) in figures.zip(record.chunks(4)) {
            *figure = number(bytes);
        }
        totals
    }

    /// The record's bytes.
    pub fn record(&self) -> [u8; TOTALS_RECORD] {
        let mut record = [0; TOTALS_RECORD];
        for (bytes, figure) in record.chunks_mut(4).zip(self.circuits.concat()) {
            bytes.copy_from_slice(&(figure.min(MOST) as u32).to_le_bytes());
        }
        record
    }

    /// Adds the totals over some more notices.
    pub fn add(&mut self, notices: &[Notice]) {
        for (circuit, figures) in self.circuits.iter_mut().enumerate() {
            let more = over(notices, circuit);
            *figures = [0, 1, 2, 3].map(|figure| figures[figure] + more[figure]);
        }
    }
}

/// The totals of one circuit number over a list of notices.
fn over(notices: &[Notice], circuit: usize) -> Figures {
    let told = || {
        notices.iter().filter_map(|notice| match *notice {
            Notice::Circuit { number, loss, fate } if number == circuit => Some((loss, fate)),
            _ => None,
        })
    };
    let whole = || {
        told().filter_map(|(_, fate)| match fate {
            Fate::Whole(length) => Some(length as u128),
            _ => None,
        })
    };
    let orphans = told().filter(|(_, fate)| *fate == Fate::Orphan);
    [
        whole().count() as u128,
        whole().sum(),
        told().map(|(loss, _)| u128::from(loss)).sum(),
        orphans.count() as u128,
    ]
}

fn number(low_first: &[u8]) -> u128 {
    let high_first = low_first.iter().rev();
    high_first.fold(0, |number, &byte| number << 8 | u128::from(byte))
}
