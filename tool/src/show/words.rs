//! Where a stretch lies and what it is, in words.

use aes18::Circuit;

use super::layout::Layout;
use super::tally::Place;
use crate::account::{self, gap_words, Unit};
use crate::extents::{Kind, Stretch};
use crate::output::count;

/// The circuits by number, and the layout, which words refer to.
#[derive(Clone, Copy)]
pub struct PictureWords<'a> {
    pub circuits: &'a [Circuit],
    pub layout: &'a Layout,
}

impl PictureWords<'_> {
    /// A place that went wrong.
    pub fn place(&self, place: &Place) -> String {
        match place {
            Place::Body(body) => self.stretch(body),
            Place::Gap(gap) => format!("{}{}", self.block(gap.from), gap_words(Unit::Bit, gap)),
        }
    }

    /// Where a stretch lies and what it is.
    pub fn stretch(&self, stretch: &Stretch) -> String {
        let bits = account::place(Unit::Bit, stretch.from, stretch.to);
        let block = self.block(stretch.from);
        match &stretch.kind {
            Kind::Before { .. } => format!("{block}{bits}: before the first flag"),
            Kind::Idle => format!("{block}{bits}: closing ones"),
            Kind::Void => format!("{block}{bits}: in no frame"),
            Kind::Flag => format!("{block}{bits}: flag"),
            Kind::Body(heard) => {
                let words = account::NoticeWords {
                    heard,
                    circuits: self.circuits,
                    unit: Unit::Bit,
                };
                format!("{block}{bits}: {words}")
            }
        }
    }

    /// The same, and of a frame that passes its stuffed zeros.
    pub fn frame(&self, stretch: &Stretch) -> String {
        let words = self.stretch(stretch);
        match stretch.zeros() {
            Some(zeros) => format!("{words}; {}", count(zeros, "stuffed zero")),
            None => words,
        }
    }

    /// The block that has the bit, where rows are blocks.
    fn block(&self, bit: u64) -> String {
        match self.layout.blocks {
            true => format!("block {}, ", bit / self.layout.row),
            false => String::new(),
        }
    }

    /// A circuit's number and address.
    pub fn circuit(&self, number: usize) -> String {
        format!("circuit {number} ({})", self.address(number))
    }

    pub fn address(&self, number: usize) -> String {
        self.circuits[number].to_string()
    }
}

/// What a mark says of a loss: how many were lost, and whether that is known only modulo 8.
pub fn lost(loss: u8, modulo: bool) -> String {
    match modulo {
        true => format!("{loss} modulo 8 lost"),
        false => format!("{loss} lost"),
    }
}
