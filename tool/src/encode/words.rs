//! The words of a plan's line.

use std::fs::File;
use std::io::Read;
use std::path::Path;

use aes18::LONGEST_LONG_MESSAGE;

/// A word: plain, a quoted text with its escapes undone, or a file's name behind `@`.
#[derive(Debug, PartialEq, Eq)]
pub enum Word<'a> {
    Plain(&'a str),
    Text(Vec<u8>),
    File(String),
}

/// The words of a line up to a comment; an error says what was expected.
pub fn split(line: &str) -> Result<Vec<Word<'_>>, String> {
    let mut words = Vec::new();
    let mut rest = line.trim_start();
    while !rest.is_empty() && !rest.starts_with('#') {
        let (word, behind) = first(rest)?;
        words.push(word);
        rest = behind.trim_start();
    }
    Ok(words)
}

/// The first word and what stands behind it.
fn first(rest: &str) -> Result<(Word<'_>, &str), String> {
    if let Some(text) = rest.strip_prefix('"') {
        let (text, behind) = quoted(text)?;
        return Ok((Word::Text(text), behind));
    }
    if let Some(name) = rest.strip_prefix("@\"") {
        let (name, behind) = quoted(name)?;
        let name = String::from_utf8(name).map_err(|_| "expected a file's name in UTF-8")?;
        return Ok((Word::File(name), behind));
    }
    let end = rest.find(char::is_whitespace).unwrap_or(rest.len());
    let (word, behind) = rest.split_at(end);
    Ok(match word.strip_prefix('@') {
        Some(name) => (Word::File(name.to_string()), behind),
        None => (Word::Plain(word), behind),
    })
}

/// The text up to the closing quote, and what stands behind that.
fn quoted(text: &str) -> Result<(Vec<u8>, &str), String> {
    let mut bytes = Vec::new();
    let mut rest = text;
    while let Some(c) = rest.chars().next() {
        let behind = &rest[c.len_utf8()..];
        rest = match c {
            '"' if behind.is_empty() || behind.starts_with(char::is_whitespace) => {
                return Ok((bytes, behind))
            }
            '"' => return Err("expected a space behind the closing \"".to_string()),
            '\\' => {
                let (byte, behind) = escape(behind)?;
                bytes.push(byte);
                behind
            }
            _ => {
                bytes.extend_from_slice(&rest.as_bytes()[..c.len_utf8()]);
                behind
            }
        };
    }
    Err("expected a closing \"".to_string())
}

/// The byte that an escape stands for, and what stands behind the escape.
fn escape(text: &str) -> Result<(u8, &str), String> {
    let escaped = match text.as_bytes() {
        [b'"', ..] => Some((b'"', 1)),
        [b'\\', ..] => Some((b'\\', 1)),
        [b'n', ..] => Some((b'\n', 1)),
        [b't', ..] => Some((b'\t', 1)),
        [b'x', high, low, ..] => hex_pair(*high, *low).map(|byte| (byte, 3)),
        _ => None,
    };
    match escaped {
        Some((byte, length)) => Ok((byte, &text[length..])),
        None => Err(r#"expected \", \\, \n, \t or \xHH behind a \"#.to_string()),
    }
}

/// The bytes that words stand for: hex digits in pairs, a text, a file's bytes, or none as `-`. A file's name starts at the plan's folder. Of a
/// file longer than any message one byte too many is kept, so that its offer is refused.
pub fn bytes(words: &[Word<'_>], folder: &Path) -> Result<Vec<u8>, String> {
    match words {
        [Word::Text(text)] => Ok(text.clone()),
        [Word::File(name)] => file(&folder.join(name)),
        [Word::Plain("-")] => Ok(Vec::new()),
        _ => hex(words)
            .ok_or_else(|| r#"expected hex digits in pairs, "text", @file or -"#.to_string()),
    }
}

/// The bytes of a file, as far as they are kept.
fn file(path: &Path) -> Result<Vec<u8>, String> {
    let mut bytes = Vec::new();
    File::open(path)
        .and_then(|file| {
            file.take(LONGEST_LONG_MESSAGE as u64 + 1)
                .read_to_end(&mut bytes)
        })
        .map_err(|error| {
            format!(
                "expected a file that can be read: {}: {error}",
                path.display()
            )
        })?;
    Ok(bytes)
}

/// The bytes of one or more words of hex digits in pairs.
fn hex(words: &[Word<'_>]) -> Option<Vec<u8>> {
    let mut bytes = Vec::new();
    for word in words {
        let Word::Plain(digits) = word else {
            return None;
        };
        bytes.extend(hex_pairs(digits)?);
    }
    (!words.is_empty()).then_some(bytes)
}

/// The bytes of a word of hex digits in pairs.
fn hex_pairs(digits: &str) -> Option<Vec<u8>> {
    let pairs = digits.as_bytes().chunks(2);
    pairs
        .map(|pair| match *pair {
            [high, low] => hex_pair(high, low),
            _ => None,
        })
        .collect()
}

/// The byte of two hex digits.
fn hex_pair(high: u8, low: u8) -> Option<u8> {
    let digit = |digit: u8| char::from(digit).to_digit(16);
    u8::try_from(16 * digit(high)? + digit(low)?).ok()
}

#[cfg(test)]
mod tests {
    use super::*;

    fn read(line: &str) -> Result<Vec<u8>, String> {
        bytes(&split(line)?, Path::new("."))
    }

    #[test]
    fn words_up_to_a_comment() {
        let words = vec![
            Word::Plain("offer"),
            Word::Text(b"a # b".to_vec()),
            Word::File("c d".to_string()),
            Word::File("e#".to_string()),
        ];
        assert_eq!(split("  offer\t\"a # b\" @\"c d\" @e# # \"f"), Ok(words));
        assert_eq!(split("   "), Ok(Vec::new()));
        assert_eq!(split("# offer"), Ok(Vec::new()));
    }

    #[test]
    fn escapes_are_undone() {
        let text = br#""charge 71%" \ "#;
        assert_eq!(read(r#""\"charge 71%\" \\ ""#), Ok(text.to_vec()));
        assert_eq!(read(r#""a\n\t\x00\xfF""#), Ok(b"a\n\t\x00\xff".to_vec()));
        assert_eq!(read("\"\u{b0}C\""), Ok("\u{b0}C".as_bytes().to_vec()));
        assert_eq!(read(r#""""#), Ok(Vec::new()));
    }

    #[test]
    fn hex_in_pairs() {
        assert_eq!(read("00fF7e"), Ok(vec![0x00, 0xFF, 0x7E]));
        assert_eq!(read("00 fF7e"), Ok(vec![0x00, 0xFF, 0x7E]));
        assert_eq!(read("-"), Ok(Vec::new()));
    }

    #[test]
    fn errors_say_what_was_expected() {
        for line in ["", "0", "0g", "00 0", "00 \"a\"", "- -", "+1", "00 -"] {
            let error = read(line).unwrap_err();
            assert_eq!(error, r#"expected hex digits in pairs, "text", @file or -"#);
        }
        for line in [r#""a"#, r#""a\""#, r#"@"a"#] {
            assert_eq!(read(line).unwrap_err(), "expected a closing \"");
        }
        for line in [r#""\a""#, r#""\x0""#, r#""\xg0""#, r#""\"#, r#""\x\u{b0}""#] {
            let error = read(line).unwrap_err();
            assert_eq!(
                error, r#"expected \", \\, \n, \t or \xHH behind a \"#,
                "{line}"
            );
        }
        let error = read(r#""a"b"#).unwrap_err();
        assert_eq!(error, "expected a space behind the closing \"");
        let error = read(r#"@"\xff""#).unwrap_err();
        assert_eq!(error, "expected a file's name in UTF-8");
    }
}
