//! Text in colours.

use super::ink::Ink;

/// Whether colours are used.
#[derive(Clone, Copy, Debug)]
pub struct Paint(pub bool);

impl Paint {
    pub fn text(self, ink: Ink, text: &str) -> String {
        match self.0 && ink != Ink::Blank {
            true => format!("\x1b[{}m{text}\x1b[0m", ink.colours()),
            false => text.to_string(),
        }
    }
}
