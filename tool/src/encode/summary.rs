//! What was made of a plan.

use aes18::Block;

use super::plan::Plan;
use super::sending::{Made, Sending};
use crate::enable::EnableBits;
use crate::output::{count, WARNING};

/// The lines so far, one for each block, and the sums over them.
#[derive(Default)]
pub struct Summary {
    lines: String,
    blocks: u64,
    bits: u64,
    used: u64,
    /// Stuffed zeros, which are among the bits used.
    zeros: u64,
}

impl Summary {
    /// Notes a block; blocks are numbered from 0. Where not all priorities are enabled, its line says which are; packets still to go
    /// come last.
    pub fn block(&mut self, plan: &Plan, made: &Made<'_>) {
        let enable = match made.enable {
            EnableBits::ALL => String::new(),
            bits => format!(", enable bits in force {bits}"),
        };
        let left = still_to_go(plan, made);
        let Block {
            placed,
            used,
            zeros,
        } = made.block;
        self.lines += &format!(
            "{}:{}: block {}: {} placed, {used} of {} bits used, {}{enable}{left}\n",
            plan.name,
            made.line,
            self.blocks,
            count(placed.into(), "frame"),
            made.n,
            of_them(zeros.into())
        );
        self.blocks += 1;
        self.bits += made.n;
        self.used += u64::from(used);
        self.zeros += u64::from(zeros);
    }

    /// The lines with the sums, the enable bits in force behind the last block and, for each circuit whose message is not placed in full, a warning.
    pub fn end(mut self, plan: &Plan, sending: &Sending) -> String {
        let (blocks, bits) = (count(self.blocks, "block"), count(self.bits, "bit"));
        let (used, enable) = (self.used_words(), sending.enable());
        self.lines += &format!("{blocks}, {bits}{used}; enable bits in force {enable}");
        for (number, circuit) in plan.circuits.iter().enumerate() {
            let left = sending.left(number);
            if left > 0 {
                let why = match sending.held_back(number) {
                    Some(why) => format!(": {why}"),
                    None => " in a later block".to_string(),
                };
                self.lines += &format!(
                    "\n{WARNING}circuit {number} ({circuit}): {} still to go{why}",
                    count(left, "packet")
                );
            }
        }
        self.lines
    }

    /// What is used of all blocks, and what stuffing cost of that. Every block uses some bits, so that nothing is said only where there is none.
    fn used_words(&self) -> String {
        match (self.used, self.zeros) {
            (0, _) => String::new(),
            (used, 0) => format!(", {used} used, {}", of_them(0)),
            (used, zeros) => {
                let share = share(zeros, used);
                format!(", {used} used, {} ({share})", of_them(zeros))
            }
        }
    }
}

/// How many of the bits used are stuffed zeros.
fn of_them(zeros: u64) -> String {
    match zeros {
        1 => "1 of them a stuffed zero".to_string(),
        zeros => format!("{zeros} of them stuffed zeros"),
    }
}

/// Some of all bits in percent, rounded to a tenth.
fn share(some: u64, all: u64) -> String {
    match (1000 * some + all / 2) / all {
        0 => "less than 0.1 %".to_string(),
        tenths => format!("{}.{} %", tenths / 10, tenths % 10),
    }
}

/// The end of a block's line: how many packets are still to go at each circuit where some are.
fn still_to_go(plan: &Plan, made: &Made<'_>) -> String {
    let circuits = plan.circuits.iter().zip(made.left);
    let left: Vec<String> = circuits
        .filter(|(_, left)| *left > 0)
        .map(|(circuit, left)| format!("{left} at {circuit}"))
        .collect();
    if left.is_empty() {
        return String::new();
    }
    format!(", packets still to go: {}", left.join(", "))
}
