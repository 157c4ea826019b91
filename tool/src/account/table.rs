//! The figures of the circuits, and their table.

use aes18::Figures;

use super::{Account, CircuitCounts};

/// Columns of the names, and of each circuit's figures.
const NAME: usize = 12;
const FIGURE: usize = 17;

/// A circuit's figures with their names.
pub fn figures(packets: &CircuitCounts, figures: Figures) -> [(&'static str, u64); 11] {
    [
        ("packets", packets.came),
        ("copies", packets.copies),
        ("lost", figures.lost.into()),
        ("modulo 8", packets.modulo),
        ("begun", packets.begun),
        ("held", packets.held),
        ("messages", figures.messages.into()),
        ("bytes", figures.bytes.into()),
        ("dropped", packets.dropped),
        ("orphans", figures.orphaned.into()),
        ("wrong", packets.wrong),
    ]
}

/// A line for each figure, with a column for each circuit, by number.
pub fn table(account: &Account) -> String {
    let mut lines: Vec<String> = Vec::new();
    for (packets, totals) in account.circuits() {
        let head = ("circuit", packets.circuit.to_string());
        let figures = figures(packets, totals);
        let cells = figures.map(|(name, figure)| (name, figure.to_string()));
        for (place, (name, cell)) in [head].into_iter().chain(cells).enumerate() {
            if lines.len() == place {
                lines.push(format!("{name:NAME$}"));
            }
            lines[place].push_str(&format!("{cell:>FIGURE$}"));
        }
    }
    lines.iter().map(|line| format!("{line}\n")).collect()
}

#[cfg(test)]
mod tests {
    use aes18::{Circuit, Totals};

    use super::super::Unit;
    use super::*;

    /// Every figure has its name, and the highest stand apart.
    #[test]
    fn highest_figures() {
        let circuit = |address| Circuit {
            address,
            extension: Some(0xFF),
        };
        let mut account = Account::new(Unit::Bit, &[1, 2, 3, 4].map(circuit));
        account.circuits[3] = CircuitCounts {
            circuit: circuit(0xFE),
            came: 999_999_999_999_991,
            copies: 999_999_999_999_992,
            begun: 3,
            held: 4,
            wrong: 5,
            dropped: 6,
            modulo: 7,
        };
        let mut totals = [0xFF; 64];
        (0..4).for_each(|figure| totals[48 + 4 * figure] -= figure as u8);
        account.totals = Totals::from_bytes(totals);
        let table = table(&account);
        assert!(table.lines().all(|line| line.len() == 80), "{table}");
        let last: Vec<(&str, &str)> = table
            .lines()
            .map(|line| (&line[..8], &line[64..]))
            .collect();
        assert_eq!(
            last,
            [
                ("circuit ", "           FE:FF"),
                ("packets ", " 999999999999991"),
                ("copies  ", " 999999999999992"),
                ("lost    ", "      4294967293"),
                ("modulo 8", "               7"),
                ("begun   ", "               3"),
                ("held    ", "               4"),
                ("messages", "      4294967295"),
                ("bytes   ", "      4294967294"),
                ("dropped ", "               6"),
                ("orphans ", "      4294967292"),
                ("wrong   ", "               5"),
            ]
        );
    }
}
