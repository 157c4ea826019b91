//! What a picture shows, counted: the legend's figures and the places that went wrong.

use std::ops::Range;

use aes18::{Circuit, Fate, Notice};

use crate::account::{Account, Heard, Unit};
use crate::extents::{Kind, Stretch};
use crate::gaps::Gap;

/// A place that went wrong.
#[derive(Clone, Copy, Debug)]
pub enum Place {
    Body(Stretch),
    Gap(Gap),
}

impl Place {
    fn from(&self) -> u64 {
        match self {
            Place::Body(body) => body.from,
            Place::Gap(gap) => gap.from,
        }
    }
}

/// The figures of all that is shown.
pub struct Tally {
    pub account: Account,
    pub flags: u64,
    /// Closing ones.
    pub idle: u64,
    /// Stuffed zeros of the frames that pass.
    pub zeros: u64,
    /// The bit behind the last one.
    pub end: u64,
    /// What stands before the first flag, where it is shown and the recording may begin with it.
    pub before: Option<Gap>,
    /// The first places that went wrong, in the order of the bits, as many as are kept.
    pub places: Vec<Place>,
    /// How many places went wrong, without the messages that are open at the end.
    pub wrong: usize,
    /// The most places that are kept.
    most: usize,
}

impl Tally {
    /// Nothing shown yet of these circuits.
    pub fn new(circuits: &[Circuit], most: usize) -> Tally {
        Tally {
            account: Account::new(Unit::Bit, circuits),
            flags: 0,
            idle: 0,
            zeros: 0,
            end: 0,
            before: None,
            places: Vec::new(),
            wrong: 0,
            most,
        }
    }

    /// Counts a stretch of which these bits are shown.
    pub fn add(&mut self, stretch: &Stretch, shown: &Range<u64>) {
        self.end = stretch.to;
        match &stretch.kind {
            Kind::Before { .. } | Kind::Void => {}
            Kind::Idle => self.idle += shown.end - shown.start,
            Kind::Flag => self.flags += 1,
            Kind::Body(heard) => {
                self.account.notice(heard);
                self.zeros += stretch.zeros().unwrap_or(0);
                if went_wrong(heard) {
                    self.keep(Place::Body(*stretch));
                }
            }
        }
    }

    /// Counts a stretch in no frame, which is known when it has ended, as far as these bits of it, which are shown.
    pub fn add_gap(&mut self, gap: &Gap, shown: &Range<u64>) {
        self.account.gap(&Gap {
            from: shown.start,
            to: shown.end,
            ..*gap
        });
        match gap.wrong {
            true => self.keep(Place::Gap(*gap)),
            false => self.before = Some(*gap),
        }
    }

    /// Keeps a place before those that do not begin before it.
    fn keep(&mut self, place: Place) {
        self.wrong += 1;
        let before = |kept: &Place| kept.from() < place.from();
        let at = self.places.partition_point(before);
        self.places.insert(at, place);
        self.places.truncate(self.most);
    }
}

/// Whether a notice is of a place that went wrong: a body that is spoilt or malformed, a packet behind lost ones, or whose loss is known only modulo 8,
/// one that drops a message, or one of no use.
fn went_wrong(heard: &Heard) -> bool {
    match heard.notice {
        Notice::Circuit { loss, fate, .. } => {
            loss > 0
                || heard.doubt.is_some()
                || heard.dropped
                || matches!(fate, Fate::Orphan | Fate::Wrong)
        }
        notice => matches!(notice, Notice::Spoilt | Notice::Malformed),
    }
}
