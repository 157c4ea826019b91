//! Bytes as people read them, in the forms that a plan takes.

use std::fmt::{self, Display, Formatter, Write};
use std::str;

/// The bytes as text, if they are UTF-8 and hold nothing but printable characters, line feeds, carriage returns and tabs.
pub fn as_text(bytes: &[u8]) -> Option<&str> {
    let text = str::from_utf8(bytes).ok()?;
    text.chars().all(is_text).then_some(text)
}

/// A printable character is one that Rust's debugging form leaves as it is, or a quote or backslash.
fn is_text(c: char) -> bool {
    matches!(c, ' '..='~' | '\n' | '\r' | '\t') || c.escape_debug().len() == 1
}

/// Bytes as quoted text with escapes if they are text, or else as hex digits.
pub struct Quoted<'a>(pub &'a [u8]);

impl Display for Quoted<'_> {
    fn fmt(&self, f: &mut Formatter<'_>) -> fmt::Result {
        let Some(text) = as_text(self.0) else {
            return Hex(self.0).fmt(f);
        };
        f.write_char('"')?;
        for part in text.split_inclusive(['"', '\\', '\n', '\t', '\r']) {
            let escape = match part.as_bytes().last() {
                Some(b'"') => "\\\"",
                Some(b'\\') => "\\\\",
                Some(b'\n') => "\\n",
                Some(b'\t') => "\\t",
                Some(b'\r') => "\\x0D",
                _ => "",
            };
            let plain = part.len() - usize::from(!escape.is_empty());
            f.write_str(&part[..plain])?;
            f.write_str(escape)?;
        }
        f.write_char('"')
    }
}

/// Bytes as hex digits in pairs.
pub struct Hex<'a>(pub &'a [u8]);

impl Display for Hex<'_> {
    fn fmt(&self, f: &mut Formatter<'_>) -> fmt::Result {
        let digit = |value: u8| char::from(b"0123456789ABCDEF"[usize::from(value)]);
        let pairs = self
            .0
            .iter()
            .map(|byte| [digit(byte >> 4), digit(byte & 15)]);
        f.write_str(&pairs.flatten().collect::<String>())
    }
}

#[cfg(test)]
mod tests {
    use super::*;

    #[test]
    fn text_is_quoted() {
        assert_eq!(Quoted(b"").to_string(), r#""""#);
        assert_eq!(Quoted(b"it's 71%").to_string(), r#""it's 71%""#);
        assert_eq!(Quoted("\u{b0}C".as_bytes()).to_string(), "\"\u{b0}C\"");
        assert_eq!(Quoted(b"a\"\\\r\n\tb").to_string(), r#""a\"\\\x0D\n\tb""#);
    }

    #[test]
    fn other_bytes_are_hex() {
        assert_eq!(Quoted(b"a\0").to_string(), "6100");
        assert_eq!(Quoted(b"\x1b[2J").to_string(), "1B5B324A");
        assert_eq!(Quoted(b"\xFF\x7E").to_string(), "FF7E");
        assert_eq!(Quoted("\u{202e}".as_bytes()).to_string(), "E280AE");
    }
}
