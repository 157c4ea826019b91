//! How far a long reading has come, on the standard error.

use std::io::{self, IsTerminal, Write};
use std::time::{Duration, Instant};

use crate::output;

/// When the bar is first drawn, and how often again.
const FIRST: Duration = Duration::from_millis(500);
const AGAIN: Duration = Duration::from_millis(100);

/// The most cells of the bar, and the fewest that are of use.
const CELLS: usize = 40;
const FEWEST: usize = 5;

/// A bar that is drawn where the standard error is a terminal, unless that is to be quiet. It is erased at the end.
pub struct Progress {
    wanted: bool,
    total: Option<u64>,
    done: u64,
    /// When the bar is next drawn.
    due: Instant,
    drawn: bool,
}

impl Progress {
    /// The progress of reading `total` bytes, or an unknown number, while nothing is written to the standard output.
    pub fn alone(total: Option<u64>) -> Progress {
        Progress {
            wanted: io::stderr().is_terminal() && !output::is_quiet(),
            total,
            done: 0,
            due: Instant::now() + FIRST,
            drawn: false,
        }
    }

    /// The same while the standard output is written, which must be no terminal then.
    pub fn beside_output(total: Option<u64>) -> Progress {
        let mut progress = Progress::alone(total);
        progress.wanted &= !io::stdout().is_terminal();
        progress
    }

    /// So many more bytes are read.
    pub fn add(&mut self, bytes: usize) {
        self.done += bytes as u64;
        if !self.wanted || Instant::now() < self.due {
            return;
        }
        let line = line(self.done, self.total, output::error_width());
        let _ = write!(io::stderr(), "\r\x1b[K{line}");
        self.drawn = true;
        self.due = Instant::now() + AGAIN;
    }
}

/// Erases the bar.
impl Drop for Progress {
    fn drop(&mut self) {
        if self.drawn {
            let _ = write!(io::stderr(), "\r\x1b[K");
        }
    }
}

/// The bar with its figures, or the figures alone where the total is not known or the terminal is too narrow for a bar. One column stays empty, so
/// that the terminal does not go on to the next line.
fn line(done: u64, total: Option<u64>, columns: usize) -> String {
    let megabytes = |bytes: u64| bytes as f64 / 1e6;
    let Some(total) = total.filter(|total| *total > 0) else {
        return format!("{:.1} MB", megabytes(done));
    };
    let share = done.min(total) as f64 / total as f64;
    let percent = format!("{:3.0} %", 100.0 * share);
    let figures = format!(
        "{percent}, {:.1} of {:.1} MB",
        megabytes(done),
        megabytes(total)
    );
    let cells = columns.saturating_sub("[] ".len() + figures.len() + 1);
    match cells.min(CELLS) {
        0..FEWEST if figures.len() < columns => figures,
        0..FEWEST => percent,
        cells => {
            let filled = (share * cells as f64) as usize;
            let (done, left) = ("#".repeat(filled), "-".repeat(cells - filled));
            format!("[{done}{left}] {figures}")
        }
    }
}

#[cfg(test)]
mod tests {
    use super::line;

    #[test]
    fn the_bar_fills() {
        let quarter = "##########------------------------------";
        assert_eq!(
            line(25_000_000, Some(100_000_000), 80),
            format!("[{quarter}]  25 %, 25.0 of 100.0 MB")
        );
        assert!(line(0, Some(1), 80).starts_with("[---"));
        assert!(line(3, Some(2), 80).ends_with("##] 100 %, 0.0 of 0.0 MB"));
        assert_eq!(line(1_500_000, None, 80), "1.5 MB");
        assert_eq!(line(0, Some(0), 80), "0.0 MB");
    }

    #[test]
    fn the_bar_fits() {
        let line = |columns| line(50_000_000, Some(100_000_000), columns);
        assert_eq!(line(40), "[######-------]  50 %, 50.0 of 100.0 MB");
        assert_eq!(line(32), "[##---]  50 %, 50.0 of 100.0 MB");
        for columns in [24, 31] {
            assert_eq!(line(columns), " 50 %, 50.0 of 100.0 MB");
        }
        assert_eq!(line(23), " 50 %");
        for columns in 6..200 {
            assert!(line(columns).len() < columns, "{columns}");
        }
    }
}
