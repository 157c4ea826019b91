//! What was seen: how many calls of each function, how often each answer, notice and fate.

mod enabling;
mod framings;
mod heard;
mod left;
mod lines;
mod long;
mod zeros;

use aes18_reference::calls::answered_notice;
use aes18_reference::lent::is_long;
use aes18_reference::receiver::{Fate, Notice};
use aes18_reference::totals::{Figures, Totals, MOST};
use enabling::Enabling;
use framings::Framings;
use left::Left;
use lines::Lines;
use long::Long;
use std::collections::BTreeMap;
use std::fmt;
use zeros::Zeros;

#[derive(Clone, Copy, Debug, PartialEq, Eq, PartialOrd, Ord)]
pub enum Function {
    SenderList,
    SenderOffer,
    SenderOfferBeside,
    SenderOfferLong,
    SenderBlock,
    SenderBlockBeside,
    ReceiverList,
    ReceiverRead,
    ReceiverReadBeside,
    FramingRead,
    TotalsNote,
    LineWrite,
    LineRead,
}

/// Each function with the numbers it can answer.
const ANSWERS: [(Function, &[u32]); 13] = [
    (Function::SenderList, &[0, 1, 2, 3, 4, 255]),
    (Function::SenderOffer, &[0, 5, 6, 7, 8, 9, 10, 14, 255]),
    (
        Function::SenderOfferBeside,
        &[0, 5, 6, 7, 8, 9, 10, 14, 19, 255],
    ),
    (
        Function::SenderOfferLong,
        &[0, 5, 6, 7, 8, 10, 14, 18, 19, 255],
    ),
    (Function::SenderBlock, &[0, 5, 11, 12, 13, 14, 255]),
    (
        Function::SenderBlockBeside,
        &[0, 5, 11, 12, 13, 14, 19, 255],
    ),
    (Function::ReceiverList, &[0, 1, 2, 3, 4, 255]),
    (Function::ReceiverRead, &[0, 5, 14, 15, 255]),
    (Function::ReceiverReadBeside, &[0, 5, 14, 15, 19, 255]),
    (Function::FramingRead, &[0, 14, 15, 255]),
    (Function::TotalsNote, &[0, 255]),
    (Function::LineWrite, &[0, 16, 17, 255]),
    (Function::LineRead, &[0, 255]),
];
const NOTICES: [&str; 6] = [
    "End",
    "Spoilt",
    "Malformed",
    "System",
    "Elsewhere",
    "circuit",
];
const FATES: [&str; 6] = ["Copy", "Begun", "Held", "Whole", "Orphan", "Wrong"];
/// What else an answer that is noted can be.
const ODD: [&str; 3] = ["no notice", "number above 3", "Whole of no bytes"];
const FIGURES: [&str; 4] = ["messages", "bytes", "lost", "orphaned"];
/// Where a frame is cut in two, and how many ones its first part leaves.
const PLACES: [&str; 3] = ["inside the packet", "before the FCS", "inside the FCS"];
const RUNS: [&str; 5] = ["none", "one", "two", "three", "four"];

/// What a call was lent, as far as a tally asks for it, and the number that it answered.
pub struct Lent<'a> {
    pub answered: u32,
    /// The record before the call.
    pub record: &'a [u8],
    /// The bytes of the store, and of the long buffer if one was given.
    pub store: usize,
    pub long: Option<usize>,
}

impl<'a> Lent<'a> {
    pub fn of(answered: u32, record: &'a [u8], store: &[u8], long: Option<&[u8]>) -> Lent<'a> {
        Lent {
            answered,
            record,
            store: store.len(),
            long: long.map(<[u8]>::len),
        }
    }

    /// Whether a long buffer was given.
    pub fn given(&self) -> bool {
        self.long.is_some()
    }
}

/// What was seen of demand 3.
#[derive(Default)]
pub struct Claim {
    /// Passes in which no body passes but those of frames that came whole, and the others.
    pub passes: u64,
    pub other_frames: u64,
    /// Addresses held against the claim in the former, and those at which more than six packets in a row were lost.
    pub addresses: u64,
    pub more_than_six: u64,
    /// Of the addresses held: those with packets lost in between, and with all packets of some message lost in between.
    pub with_packets_lost: u64,
    pub with_messages_gone: u64,
    /// Messages handed over.
    pub messages: u64,
    /// Of the passes: those in which enable bits of an earlier block held a frame back.
    pub held_back: u64,
    /// Of the addresses held: those that were sent long messages, and of these those of which some was lost or came in part.
    pub long: u64,
    pub long_lost: u64,
    /// Of the messages handed over: the long ones, those behind one that was long, and long ones behind one that was not.
    pub long_messages: u64,
    pub behind_long: u64,
    pub long_behind: u64,
    /// Addresses that were sent long messages, where the receiver has no buffer or another number for them: only the losses are held.
    pub losses_alone: u64,
}

impl Claim {
    /// Counts what is handed over at an address, in order.
    pub fn handed_over(&mut self, messages: &[Vec<u8>]) {
        let long: Vec<bool> = messages
            .iter()
            .map(|message| is_long(message.len()))
            .collect();
        self.long_messages += long.iter().filter(|long| **long).count() as u64;
        for pair in long.windows(2) {
            self.behind_long += u64::from(pair[0] && !pair[1]);
            self.long_behind += u64::from(!pair[0] && pair[1]);
        }
    }

    /// The counts of which a comparison that covers everything has enough.
    fn wanted(&self) -> [(&'static str, u64, u64); 11] {
        [
            ("passes", self.passes, 1000),
            ("messages handed over", self.messages, 5000),
            ("addresses with packets lost", self.with_packets_lost, 1000),
            (
                "addresses with whole messages lost",
                self.with_messages_gone,
                200,
            ),
            ("passes with a frame held back", self.held_back, 500),
            ("addresses with long messages", self.long, 20),
            (
                "addresses with long messages lost in part",
                self.long_lost,
                10,
            ),
            ("long messages handed over", self.long_messages, 30),
            ("short messages behind long ones", self.behind_long, 10),
            ("long messages behind short ones", self.long_behind, 10),
            (
                "addresses with long messages not taken",
                self.losses_alone,
                10,
            ),
        ]
    }
}

impl fmt::Display for Claim {
    fn fmt(&self, out: &mut fmt::Formatter<'_>) -> fmt::Result {
        write!(
            out,
            "demand 3: held at {} addresses of {} passes, at {} with packets lost, at {} with whole messages lost, {} messages handed over, \
             {} passes with a frame held back by enable bits of an earlier block; \
             long messages: {} addresses, {} with some lost in part, {} messages handed over, {} short ones behind them, {} behind short ones, \
             {} addresses at which they are not taken and only the losses are held; \
             not asked for: {} passes in which another frame passed, {} addresses with more than six lost in a row",
            self.addresses,
            self.passes,
            self.with_packets_lost,
            self.with_messages_gone,
            self.messages,
            self.held_back,
            self.long,
            self.long_lost,
            self.long_messages,
            self.behind_long,
            self.long_behind,
            self.losses_alone,
            self.other_frames,
            self.more_than_six
        )
    }
}

/// What was seen of the answers that were noted in totals.
#[derive(Default)]
pub struct Noted {
    notices: [u64; 6],
    /// Those of circuit numbers up to 3, by fate: all, and those with a loss above 0.
    fates: [u64; 6],
    losses: [u64; 6],
    odd: [u64; 3],
    /// How often each figure came to the most exactly, and how often its total passed it.
    reached: [u64; 4],
    passed: [u64; 4],
}

impl Noted {
    /// Counts an answer that is noted in these totals.
    pub fn add(&mut self, totals: &[u8], answer: &[u8]) {
        let Some(notice) = answered_notice(answer) else {
            self.odd[0] += 1;
            return;
        };
        self.notices[usize::from(answer[0])] += 1;
        let Notice::Circuit { number, loss, fate } = notice else {
            return;
        };
        if number > 3 {
            self.odd[1] += 1;
            return;
        }
        self.odd[2] += u64::from(fate == Fate::Whole(0));
        self.fates[usize::from(answer[3])] += 1;
        self.losses[usize::from(answer[3])] += u64::from(loss > 0);
        let before = Totals::unpack(totals);
        let mut after = before.clone();
        after.add(&[notice]);
        self.add_figures(before.circuits[number], after.circuits[number]);
    }

    fn add_figures(&mut self, before: Figures, after: Figures) {
        for figure in 0..4 {
            self.reached[figure] += u64::from(before[figure] < MOST && after[figure] == MOST);
            self.passed[figure] += u64::from(after[figure] > MOST);
        }
    }

    /// What a comparison that covers everything has seen, and this one has not.
    fn missing(&self) -> impl Iterator<Item = String> + '_ {
        let never = |what: &'static str, names, counts| {
            unseen(names, counts).map(move |never| format!("noting: {what}{never}"))
        };
        never("", &NOTICES, &self.notices)
            .chain(never("", &FATES, &self.fates))
            .chain(never("a loss with ", &FATES, &self.losses))
            .chain(never("", &ODD, &self.odd))
            .chain(never("the most of ", &FIGURES, &self.reached))
            .chain(never("more than the most of ", &FIGURES, &self.passed))
    }
}

impl fmt::Display for Noted {
    fn fmt(&self, out: &mut fmt::Formatter<'_>) -> fmt::Result {
        let (notices, odd) = (line(&NOTICES, &self.notices), line(&ODD, &self.odd));
        writeln!(out, "noted: {notices}; {odd}")?;
        let (fates, losses) = (line(&FATES, &self.fates), line(&FATES, &self.losses));
        writeln!(out, "noted fates: {fates}; with a loss: {losses}")?;
        let (reached, passed) = (line(&FIGURES, &self.reached), line(&FIGURES, &self.passed));
        write!(
            out,
            "figures that came to the most: {reached}; that passed it: {passed}"
        )
    }
}

/// What was seen of frames cut in two between their bytes: the cuts at each place, by the run of ones that the first part leaves.
#[derive(Default)]
pub struct Cuts([[u64; 5]; 3]);

impl Cuts {
    /// Counts a cut that leaves a run; one before the first byte or behind the last cuts nothing.
    pub fn add(&mut self, run: usize, first: &[u8], rest: &[u8]) {
        let place = match rest.len() {
            0 => return,
            1 => 2,
            2 => 1,
            _ => 0,
        };
        self.0[place][run] += u64::from(!first.is_empty());
    }

    /// What a comparison that covers everything has seen, and this one has not.
    fn missing(&self) -> impl Iterator<Item = String> + '_ {
        PLACES.iter().zip(&self.0).flat_map(|(place, runs)| {
            unseen(&RUNS, runs).map(move |never| format!("ones left by a cut {place}: {never}"))
        })
    }
}

impl fmt::Display for Cuts {
    fn fmt(&self, out: &mut fmt::Formatter<'_>) -> fmt::Result {
        let places = PLACES.iter().zip(&self.0);
        let parts: Vec<String> = places
            .map(|(place, runs)| format!("{place}: {}", line(&RUNS, runs)))
            .collect();
        write!(out, "ones left by a cut {}", parts.join("; "))
    }
}

#[derive(Default)]
pub struct Tally {
    answers: BTreeMap<(Function, u32), u64>,
    notices: [u64; 6],
    fates: [u64; 6],
    pub cuts: Cuts,
    pub enabling: Enabling,
    pub left: Left,
    pub long: Long,
    pub zeros: Zeros,
    pub framings: Framings,
    pub noted: Noted,
    pub lines: Lines,
    pub claim: Claim,
}

impl Tally {
    pub fn answered(&mut self, function: Function, number: u32) {
        *self.answers.entry((function, number)).or_default() += 1;
    }

    /// Counts the notice that the bytes of a read's answer tell.
    pub fn told(&mut self, answer: &[u8]) {
        self.notices[usize::from(answer[0])] += 1;
        if answer[0] == 5 {
            self.fates[usize::from(answer[3])] += 1;
        }
    }

    pub fn calls(&self) -> u64 {
        self.answers.values().sum()
    }

    /// What a comparison that covers everything has seen, and this one has not.
    pub fn missing(&self) -> Vec<String> {
        let answers = ANSWERS
            .iter()
            .flat_map(|(function, numbers)| numbers.iter().map(move |number| (*function, *number)))
            .filter(|answer| !self.answers.contains_key(answer))
            .map(|(function, number)| format!("{function:?} never answered {number}"));
        let notices = unseen(&NOTICES, &self.notices).chain(unseen(&FATES, &self.fates));
        let few = self
            .claim
            .wanted()
            .into_iter()
            .filter(|(_, count, wanted)| count < wanted);
        let few = few
            .map(|(name, count, wanted)| format!("demand 3: {count} {name}, fewer than {wanted}"));
        answers
            .chain(notices)
            .chain(self.cuts.missing())
            .chain(self.enabling.missing())
            .chain(self.left.missing())
            .chain(self.long.missing())
            .chain(self.zeros.missing())
            .chain(self.framings.missing())
            .chain(self.noted.missing())
            .chain(self.lines.missing())
            .chain(few)
            .collect()
    }
}

/// Adds 1 to each count of what was seen.
fn add<const N: usize>(counts: &mut [u64; N], seen: [bool; N]) {
    for (count, seen) in counts.iter_mut().zip(seen) {
        *count += u64::from(seen);
    }
}

fn unseen<'a>(names: &'a [&str], counts: &'a [u64]) -> impl Iterator<Item = String> + 'a {
    let never = names.iter().zip(counts).filter(|(_, count)| **count == 0);
    never.map(|(name, _)| format!("{name} never came"))
}

/// Names with their counts, in a line.
fn line(names: &[&str], counts: &[u64]) -> String {
    let parts: Vec<String> = names
        .iter()
        .zip(counts)
        .map(|(name, count)| format!("{name} {count}"))
        .collect();
    parts.join(", ")
}

impl fmt::Display for Tally {
    fn fmt(&self, out: &mut fmt::Formatter<'_>) -> fmt::Result {
        for (function, _) in ANSWERS {
            let of_function = self.answers.range((function, 0)..=(function, u32::MAX));
            let parts: Vec<String> = of_function
                .clone()
                .map(|((_, number), count)| format!("{number}: {count}"))
                .collect();
            let calls: u64 = of_function.map(|(_, count)| count).sum();
            writeln!(
                out,
                "{function:?}: {calls} calls; answers {}",
                parts.join(", ")
            )?;
        }
        writeln!(out, "notices: {}", line(&NOTICES, &self.notices))?;
        writeln!(out, "fates: {}", line(&FATES, &self.fates))?;
        writeln!(out, "{}", self.cuts)?;
        writeln!(out, "{}", self.enabling)?;
        writeln!(out, "{}", self.left)?;
        writeln!(out, "{}", self.long)?;
        writeln!(out, "{}", self.zeros)?;
        writeln!(out, "{}", self.framings)?;
        writeln!(out, "{}", self.noted)?;
        writeln!(out, "{}", self.lines)?;
        write!(out, "{}", self.claim)
    }
}
