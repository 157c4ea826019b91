//! Enable bits, and the priorities that they enable.

use std::fmt::{self, Display, Formatter};

/// Enable bits: bit 3 for priority 3 down to bit 0 for priority 0. In words they are such as `5 (priorities 0 and 2)`.
#[derive(Clone, Copy, Debug, PartialEq, Eq)]
pub struct EnableBits(pub u8);

/// Priorities are numbered from 0 to this.
const HIGHEST: u8 = 3;

impl EnableBits {
    /// Those that enable all four priorities.
    pub const ALL: EnableBits = EnableBits(0b1111);

    /// Whether they enable that priority.
    pub fn enables(self, priority: u8) -> bool {
        self.0 >> priority & 1 == 1
    }

    /// The priorities that they enable, the lowest first.
    pub fn priorities(self) -> Vec<u8> {
        (0..=HIGHEST)
            .filter(|priority| self.enables(*priority))
            .collect()
    }
}

impl Display for EnableBits {
    fn fmt(&self, f: &mut Formatter<'_>) -> fmt::Result {
        let bits = self.0;
        match self.priorities().as_slice() {
            [] => write!(f, "{bits} (no priority)"),
            [one] => write!(f, "{bits} (priority {one})"),
            [a, b] => write!(f, "{bits} (priorities {a} and {b})"),
            [a, b, c] => write!(f, "{bits} (priorities {a}, {b} and {c})"),
            _ => write!(f, "{bits} (all priorities)"),
        }
    }
}

#[cfg(test)]
mod tests {
    use super::*;

    #[test]
    fn every_set_of_priorities() {
        let words = [
            "no priority",
            "priority 0",
            "priority 1",
            "priorities 0 and 1",
            "priority 2",
            "priorities 0 and 2",
            "priorities 1 and 2",
            "priorities 0, 1 and 2",
            "priority 3",
            "priorities 0 and 3",
            "priorities 1 and 3",
            "priorities 0, 1 and 3",
            "priorities 2 and 3",
            "priorities 0, 2 and 3",
            "priorities 1, 2 and 3",
            "all priorities",
        ];
        for (bits, words) in (0..).zip(words) {
            assert_eq!(EnableBits(bits).to_string(), format!("{bits} ({words})"));
        }
        assert_eq!(EnableBits(0).priorities(), [0; 0]);
        assert_eq!(EnableBits(0b1001).priorities(), [0, 3]);
        assert_eq!(EnableBits::ALL.priorities(), [0, 1, 2, 3]);
    }
}
