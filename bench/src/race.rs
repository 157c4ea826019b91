//! The sides over the same case: what they leave is compared, and their best turns are timed.

use std::time::Instant;

/// The turns of each side; its best one counts.
pub const TURNS: usize = 1000;

/// A side's turn over a case `C`. What it answers and writes is left in `L`, which is not cleared between turns.
pub struct Turn<C, L> {
    pub side: &'static str,
    pub take: fn(&C, &mut L) -> Result<(), u32>,
}

/// The turns of some sides, by a function that is generic over the side. The library's is the first.
macro_rules! turns {
    ($take:ident: $($side:ident),+) => {
        [$($crate::race::Turn {
            side: <$side as $crate::sides::Side>::NAME,
            take: $take::<$side>,
        }),+]
    };
}
pub(crate) use turns;

/// A case, the turns of `N` sides over it, and what each left last. `count` says how many bits, bytes or calls a turn has.
pub struct Race<C, L, const N: usize = 4> {
    pub name: &'static str,
    pub case: C,
    pub count: u64,
    turns: [Turn<C, L>; N],
    left: [L; N],
}

impl<C, L: Default + PartialEq, const N: usize> Race<C, L, N> {
    pub fn new(name: &'static str, case: C, count: u64, turns: [Turn<C, L>; N]) -> Race<C, L, N> {
        Race {
            name,
            case,
            count,
            turns,
            left: std::array::from_fn(|_| L::default()),
        }
    }

    /// The names of the sides.
    pub fn sides(&self) -> [&'static str; N] {
        self.turns.each_ref().map(|turn| turn.side)
    }

    /// A turn of each side without a clock, an error where one is refused or they leave different things. It is made first, while all buffers are 0.
    pub fn check(&mut self) -> Result<(), String> {
        for side in 0..N {
            self.turn(side)?;
        }
        self.compare()
    }

    /// The nanoseconds of the best turn of each side. The sides take turns, in both orders, and are compared each time.
    pub fn best(&mut self) -> Result<[f64; N], String> {
        let mut best = [f64::INFINITY; N];
        (0..TURNS).try_for_each(|round| self.round(round, &mut best))?;
        Ok(best)
    }

    /// The same of two races, which take turns too, so that one can be set beside the other.
    pub fn best_of_both([one, other]: &mut [Race<C, L, N>; 2]) -> Result<[[f64; N]; 2], String> {
        let mut best = [[f64::INFINITY; N]; 2];
        for round in 0..TURNS {
            one.round(round, &mut best[0])?;
            other.round(round, &mut best[1])?;
        }
        Ok(best)
    }

    /// A turn of each side, with the best so far.
    fn round(&mut self, round: usize, best: &mut [f64; N]) -> Result<(), String> {
        for step in 0..N {
            let side = if round % 2 == 0 { step } else { N - 1 - step };
            let start = Instant::now();
            self.turn(side)?;
            best[side] = best[side].min(start.elapsed().as_nanos() as f64);
        }
        self.compare()
    }

    fn turn(&mut self, side: usize) -> Result<(), String> {
        let Turn { side: name, take } = self.turns[side];
        take(&self.case, &mut self.left[side])
            .map_err(|number| format!("{}: {name} is refused by {number}", self.name))
    }

    fn compare(&self) -> Result<(), String> {
        match (1..N).find(|&side| self.left[side] != self.left[0]) {
            None => Ok(()),
            Some(side) => Err(format!(
                "{}: {} does not give what the library gives",
                self.name, self.turns[side].side
            )),
        }
    }
}
