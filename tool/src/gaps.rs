//! Stretches in no frame, put together from what stands behind each other in a pass or on a serial line.

use std::mem;

/// Neighbouring bits, or bytes of a serial line, in no frame: `from..to`, numbered from 0.
#[derive(Clone, Copy, Debug, PartialEq, Eq)]
pub struct Gap {
    pub from: u64,
    pub to: u64,
    /// Whether it is what stands before the first flag.
    pub first: bool,
    /// Whether it is something that went wrong: all are but the first where a recording may begin with it.
    pub wrong: bool,
}

impl Gap {
    pub fn length(&self) -> u64 {
        self.to - self.from
    }
}

/// What was put in last.
#[derive(Clone, Copy, Debug, Default, PartialEq, Eq)]
enum Edge {
    #[default]
    Start,
    /// Something in no frame.
    Free,
    /// A flag that borders nothing before it but what is in no frame. It is in no frame too, unless it borders something else behind it.
    Flag { from: u64, to: u64 },
    /// Something that ends a stretch: a frame, closing ones, or a flag that borders one of these or another flag.
    Bound,
}

/// The stretches in no frame. What is put in goes on where the last one ended.
#[derive(Default)]
pub struct Gaps {
    edge: Edge,
    /// The stretch that goes on, without a flag that stands last.
    open: Option<Gap>,
    known: Vec<Gap>,
    total: u64,
}

impl Gaps {
    /// What stands before the first flag, a stretch of its own; `cut` says whether a recording may begin with it.
    pub fn before(&mut self, from: u64, to: u64, cut: bool) {
        self.known.push(Gap {
            from,
            to,
            first: true,
            wrong: !cut,
        });
        self.edge = Edge::Free;
    }

    /// Something in no frame.
    pub fn add(&mut self, from: u64, to: u64) {
        let from = self.open().unwrap_or(from);
        self.open = Some(Gap {
            from,
            to,
            first: false,
            wrong: true,
        });
        self.edge = Edge::Free;
    }

    /// A flag.
    pub fn flag(&mut self, from: u64, to: u64) {
        match self.edge {
            Edge::Start | Edge::Free => self.edge = Edge::Flag { from, to },
            Edge::Flag { .. } | Edge::Bound => self.bound(),
        }
    }

    /// A frame or closing ones, which need not have ended.
    pub fn bound(&mut self) {
        self.close();
        self.edge = Edge::Bound;
    }

    /// The end. A flag there borders only what stands before it, if anything does.
    pub fn end(&mut self) {
        if let Edge::Flag { from: 1.., to } = self.edge {
            self.add(to, to);
        }
        self.close();
    }

    fn close(&mut self) {
        if let Some(gap) = self.open.take() {
            self.total += gap.length();
            self.known.push(gap);
        }
    }

    /// How long the stretches are that ended so far; what stands before the first flag is not counted.
    pub fn total(&self) -> u64 {
        self.total
    }

    /// Where the stretch begins that has not ended, or may begin with the flag that stands last.
    pub fn open(&self) -> Option<u64> {
        match (self.open, self.edge) {
            (Some(open), _) => Some(open.from),
            (None, Edge::Flag { from, .. }) => Some(from),
            (None, _) => None,
        }
    }

    /// The stretches that ended since this was asked last.
    pub fn take(&mut self) -> Vec<Gap> {
        mem::take(&mut self.known)
    }
}

#[cfg(test)]
mod tests {
    use super::*;

    /// The stretches of a text in which each letter stands for one unit: `b` before the first flag, where a recording may begin with it, and `B` where none may, `-` in no frame, `f` a flag, `F` a frame's body,
    /// `i` closing ones. Each is answered as its first unit and the one behind its last, with `b` or `B` in front where it is the one before the first flag.
    fn gaps(text: &str) -> Vec<String> {
        let mut gaps = Gaps::default();
        for (at, letter) in (0..).zip(text.chars()) {
            match letter {
                'b' | 'B' => gaps.before(at, at + 1, letter == 'b'),
                '-' => gaps.add(at, at + 1),
                'f' => gaps.flag(at, at + 1),
                _ => gaps.bound(),
            }
        }
        gaps.end();
        let word = |gap: &Gap| {
            let first = match (gap.first, gap.wrong) {
                (true, false) => "b",
                (true, true) => "B",
                (false, true) => "",
                (false, false) => panic!("{gap:?}"),
            };
            format!("{first}{}..{}", gap.from, gap.to)
        };
        let known = gaps.take();
        let others = known.iter().filter(|gap| !gap.first);
        assert_eq!(gaps.total(), others.map(Gap::length).sum::<u64>());
        known.iter().map(word).collect()
    }

    #[test]
    fn neighbours_are_one() {
        assert_eq!(gaps(""), [""; 0]);
        assert_eq!(gaps("fFfFf"), [""; 0]);
        assert_eq!(gaps("fFfi--fFf"), ["4..6"]);
        assert_eq!(gaps("fFf-fFf-fFf"), ["3..4", "7..8"]);
    }

    /// A flag between two of them joins them; beside a frame, closing ones or another flag it is not in them.
    #[test]
    fn flags() {
        assert_eq!(gaps("fFf-f-f-fFf"), ["3..8"]);
        assert_eq!(gaps("fFf-ff-fFf"), ["3..4", "6..7"]);
        assert_eq!(gaps("fFf-fff-fFf"), ["3..4", "7..8"]);
        assert_eq!(gaps("fFf-fif-fFf"), ["3..4", "7..8"]);
        assert_eq!(gaps("fif-fif"), ["3..4"]);
    }

    /// A flag at an end has one neighbour.
    #[test]
    fn ends() {
        assert_eq!(gaps("f"), [""; 0]);
        assert_eq!(gaps("ff"), [""; 0]);
        assert_eq!(gaps("f-fFf"), ["0..2"]);
        assert_eq!(gaps("fFf-f"), ["3..5"]);
        assert_eq!(gaps("f-f"), ["0..3"]);
        assert_eq!(gaps("ff-ff"), ["2..3"]);
        assert_eq!(gaps("-"), ["0..1"]);
    }

    #[test]
    fn before_the_first_flag() {
        assert_eq!(gaps("bfFf"), ["b0..1"]);
        assert_eq!(gaps("bf-fFf"), ["b0..1", "1..3"]);
        assert_eq!(gaps("bff-"), ["b0..1", "3..4"]);
        assert_eq!(gaps("bf"), ["b0..1", "1..2"]);
        assert_eq!(gaps("BfFf"), ["B0..1"]);
        assert_eq!(gaps("Bf-fFf"), ["B0..1", "1..3"]);
    }
}
