//! What is told of a pass or a serial line, counted and named, for every subcommand alike.

mod history;
mod table;
mod words;

use aes18::{Circuit, Fate, Figures, Notice, Totals};

use crate::gaps::Gap;
use crate::output::count;
pub use history::{Heard, History, Unfinished};
pub use table::{figures, table};
pub use words::{
    fate_name, free_words, gap_words, modulo_words, place, unfinished_words, untraced,
    untraced_words, NoticeWords,
};

/// What places are counted in: the bits of user bits, the bytes of a serial line.
#[derive(Clone, Copy, Debug, PartialEq, Eq)]
pub enum Unit {
    Bit,
    Byte,
}

impl Unit {
    pub fn name(self) -> &'static str {
        match self {
            Unit::Bit => "bit",
            Unit::Byte => "byte",
        }
    }

    /// From how much in no frame on a loss is known only modulo 8: seven of the shortest bodies of a circuit, each a packet of 3 bytes and its FCS. One of
    /// 2 bytes has no segment and is Malformed; flags are not counted, as frames may share them.
    pub fn doubtful(self) -> u64 {
        match self {
            Unit::Bit => 7 * 40,
            Unit::Byte => 7 * 5,
        }
    }
}

/// Counts over all that is told.
pub struct Account {
    pub unit: Unit,
    pub system: u64,
    pub elsewhere: u64,
    pub malformed: u64,
    pub spoilt: u64,
    /// Stretches in no frame, and how long they are; what stands before the first flag is counted apart.
    pub gaps: u64,
    pub free: u64,
    pub before: u64,
    /// What of that no recording may begin with.
    noise: u64,
    /// Packets of circuits that are not listed whose loss, or which as a copy, is known only modulo 8, where these are surveyed.
    pub unlisted: u64,
    /// The messages open at the end.
    pub unfinished: Vec<Unfinished>,
    /// What the totals do not have of each circuit, by number.
    circuits: Vec<CircuitCounts>,
    totals: Totals,
}

/// The packets of a circuit.
#[derive(Clone, Copy, Debug)]
pub struct CircuitCounts {
    pub circuit: Circuit,
    /// Packets that came, copies not counted.
    pub came: u64,
    pub copies: u64,
    pub begun: u64,
    pub held: u64,
    pub wrong: u64,
    /// Messages begun and not handed over, without one that is open still.
    pub dropped: u64,
    /// Packets whose loss, or which as a copy, is known only modulo 8.
    pub modulo: u64,
}

impl Account {
    /// Nothing told yet at these circuits.
    pub fn new(unit: Unit, circuits: &[Circuit]) -> Account {
        Account {
            unit,
            system: 0,
            elsewhere: 0,
            malformed: 0,
            spoilt: 0,
            gaps: 0,
            free: 0,
            before: 0,
            noise: 0,
            unlisted: 0,
            unfinished: Vec::new(),
            circuits: circuits.iter().copied().map(CircuitCounts::new).collect(),
            totals: Totals::empty(),
        }
    }

    /// Counts a notice.
    pub fn notice(&mut self, heard: &Heard) {
        self.totals.note(&heard.notice);
        match heard.notice {
            Notice::End => {}
            Notice::Spoilt => self.spoilt += 1,
            Notice::Malformed => self.malformed += 1,
            Notice::System { .. } => self.system += 1,
            Notice::Elsewhere => self.elsewhere += 1,
            Notice::Circuit { number, fate, .. } => self.circuits[number].count(heard, fate),
        }
    }

    /// Counts a stretch in no frame.
    pub fn gap(&mut self, gap: &Gap) {
        match gap.first {
            true => {
                self.before += gap.length();
                self.noise += if gap.wrong { gap.length() } else { 0 };
            }
            false => {
                self.gaps += 1;
                self.free += gap.length();
            }
        }
    }

    /// The packets of each circuit, by number, and its figures in the totals.
    pub fn circuits(&self) -> impl Iterator<Item = (&CircuitCounts, Figures)> {
        self.circuits.iter().zip(self.totals.circuits())
    }

    /// The circuit of that number.
    pub fn circuit(&self, number: usize) -> Circuit {
        self.circuits[number].circuit
    }

    /// How many packets' losses and copies are known only modulo 8.
    pub fn modulo(&self) -> u64 {
        let listed = self.circuits.iter().map(|packets| packets.modulo);
        self.unlisted + listed.sum::<u64>()
    }

    /// What `--strict` does not let pass, in words; none where there is nothing.
    pub fn faults(&self) -> Option<String> {
        let figures = self.totals.circuits();
        let figures = |figure: fn(&Figures) -> u32| figures.iter().map(figure).map(u64::from).sum();
        let packets = |figure: fn(&CircuitCounts) -> u64| self.circuits.iter().map(figure).sum();
        let faults = [
            (figures(|of| of.lost), "packet", "lost"),
            (self.spoilt, "frame", "spoilt"),
            (self.malformed, "packet", "malformed"),
            (figures(|of| of.orphaned), "packet", "orphaned"),
            (packets(|of| of.wrong), "packet", "wrong"),
            (packets(|of| of.dropped), "message", "dropped"),
            (self.unfinished.len() as u64, "message", "open at the end"),
            (self.modulo(), "place", "known only modulo 8"),
            (self.noise, self.unit.name(), "before the first flag"),
            (self.free, self.unit.name(), "in no frame"),
        ];
        let words: Vec<String> = faults
            .into_iter()
            .filter(|(figure, ..)| *figure > 0)
            .map(|(figure, what, fault)| format!("{} {fault}", count(figure, what)))
            .collect();
        (!words.is_empty()).then(|| words.join(", "))
    }
}

impl CircuitCounts {
    fn new(circuit: Circuit) -> CircuitCounts {
        CircuitCounts {
            circuit,
            came: 0,
            copies: 0,
            begun: 0,
            held: 0,
            wrong: 0,
            dropped: 0,
            modulo: 0,
        }
    }

    fn count(&mut self, heard: &Heard, fate: Fate) {
        self.came += u64::from(fate != Fate::Copy);
        match fate {
            Fate::Copy => self.copies += 1,
            Fate::Begun => self.begun += 1,
            Fate::Held => self.held += 1,
            Fate::Wrong => self.wrong += 1,
            Fate::Whole(_) | Fate::Orphan => {}
        }
        self.dropped += u64::from(heard.dropped);
        self.modulo += u64::from(heard.doubt.is_some());
    }
}
