//! A pass in rows of a fixed number of bits.

use std::ops::Range;

use crate::extents::Stretch;

/// How a pass is laid out, and which of its bits are shown.
#[derive(Clone, Copy, Debug)]
pub struct Layout {
    /// Bits of a row.
    pub row: u64,
    /// Whether a row is a block.
    pub blocks: bool,
    /// The first bit shown.
    pub from: u64,
    /// The bit behind the last one shown.
    pub to: u64,
}

/// The bits of a stretch that lie in one row and are shown.
pub struct Part<'a> {
    pub stretch: &'a Stretch,
    /// The row's number.
    pub row: u64,
    /// The first bit, counted from the row's start.
    pub from: u64,
    /// The bit behind the last one, counted so too.
    pub to: u64,
    /// Whether the stretch begins here.
    pub begins: bool,
}

impl Layout {
    /// Which of the bits `from..to` are shown.
    pub fn shown(&self, from: u64, to: u64) -> Range<u64> {
        from.max(self.from)..to.min(self.to)
    }

    /// The parts of a stretch that is shown, row by row.
    pub fn parts<'a>(&self, stretch: &'a Stretch) -> impl Iterator<Item = Part<'a>> {
        let length = self.row;
        let Range {
            start: from,
            end: to,
        } = self.shown(stretch.from, stretch.to);
        (from / length..to.div_ceil(length)).map(move |row| {
            let first = from.max(row * length);
            Part {
                stretch,
                row,
                from: first - row * length,
                to: to.min((row + 1) * length) - row * length,
                begins: first == stretch.from,
            }
        })
    }

    /// What a row is called: the block's number, or that of its first bit.
    pub fn label(&self, row: u64) -> u64 {
        match self.blocks {
            true => row,
            false => row * self.row,
        }
    }
}
