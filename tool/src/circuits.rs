//! Circuits as text: `ADDR` or `ADDR:EXT`, each one or two hex digits, with or without 0x in front.

use std::ffi::OsStr;

use aes18::Circuit;

use crate::error::Error;

/// What is expected where a circuit stands.
const EXPECTED: &str =
    "a circuit ADDR or ADDR:EXT, each one or two hex digits, such as 01 or 02:07";

/// The most circuits that can be listed.
pub const MOST_CIRCUITS: usize = 4;
/// The address of system packets.
const SYSTEM: u8 = 0xFF;
/// The bit of a packet's control byte that says that an extension stands behind it.
const EXTENDED: u8 = 0x20;
/// The two highest bits of a control byte where the packet is a message's first.
const FIRST: u8 = 0b10;
/// A long message's header, 4,095 in two bytes, and the bits of the first byte that are looked at.
const LONG_HEADER: [u8; 2] = [0x1F, 0xFF];
const HEADER_BITS: u8 = 0x1F;

/// The circuits that the option `--circuits` names.
pub fn option(value: &OsStr) -> Result<Vec<Circuit>, Error> {
    parse_list(&value.to_string_lossy())
        .map_err(|expected| Error::Usage(format!("--circuits: {expected}")))
}

/// The circuit of a packet that is of some circuit: the extension stands behind the control byte, whose bit A5 says whether there is one.
pub fn of_packet(packet: &[u8]) -> Option<Circuit> {
    let (address, control) = (*packet.first()?, *packet.get(1)?);
    Some(Circuit {
        address,
        extension: match control & EXTENDED {
            0 => None,
            _ => Some(*packet.get(2)?),
        },
    })
}

/// Whether a packet of some circuit is a first one with the header of a long message.
pub fn begins_long(packet: &[u8]) -> bool {
    let (control, segment) = match packet {
        [_, control, segment @ ..] if control & EXTENDED == 0 => (control, segment),
        [_, control, _, segment @ ..] => (control, segment),
        _ => return false,
    };
    let header = |[high, low]: [u8; 2]| [high & HEADER_BITS, low] == LONG_HEADER;
    control >> 6 == FIRST && segment.first_chunk().copied().is_some_and(header)
}

/// The circuits of a list, separated by commas or spaces, such as a listing takes; an error says what was expected.
pub fn parse_list(text: &str) -> Result<Vec<Circuit>, String> {
    let circuits: Vec<Circuit> = text
        .split([',', ' ', '\t'])
        .filter(|word| !word.is_empty())
        .map(parse)
        .collect::<Result<_, _>>()?;
    match circuits.len() {
        0 => Err(format!("expected {EXPECTED}")),
        1..=MOST_CIRCUITS => check(&circuits).map(|()| circuits),
        more => Err(format!("expected one to four circuits, not {more}")),
    }
}

/// Circuits of which a listing refuses one are told in its order: an address FF hex, then two alike.
fn check(circuits: &[Circuit]) -> Result<(), String> {
    if let Some(circuit) = circuits.iter().find(|circuit| circuit.address == SYSTEM) {
        return Err(format!(
            "expected an address from 00 to FE, not {circuit}: FF is that of system packets"
        ));
    }
    let again = |place: &usize| circuits[..*place].contains(&circuits[*place]);
    match (0..circuits.len()).find(again) {
        Some(place) => Err(format!("{} is listed twice", circuits[place])),
        None => Ok(()),
    }
}

/// One circuit.
fn parse(word: &str) -> Result<Circuit, String> {
    let (address, extension) = match word.split_once(':') {
        Some((address, extension)) => (address, Some(extension)),
        None => (word, None),
    };
    let wrong = || format!("expected {EXPECTED}, not '{word}'");
    Ok(Circuit {
        address: hex_byte(address).ok_or_else(wrong)?,
        extension: match extension {
            Some(extension) => Some(hex_byte(extension).ok_or_else(wrong)?),
            None => None,
        },
    })
}

/// A byte of one or two hex digits, with or without 0x in front.
fn hex_byte(word: &str) -> Option<u8> {
    let digits = word
        .strip_prefix("0x")
        .or_else(|| word.strip_prefix("0X"))
        .unwrap_or(word);
    let hex =
        (1..=2).contains(&digits.len()) && digits.bytes().all(|digit| digit.is_ascii_hexdigit());
    hex.then(|| u8::from_str_radix(digits, 16).ok())?
}

#[cfg(test)]
mod tests {
    use aes18::Receiver;

    use super::*;

    fn circuit(address: u8, extension: Option<u8>) -> Circuit {
        Circuit { address, extension }
    }

    #[test]
    fn lists_in_every_form() {
        let both = vec![circuit(0x01, None), circuit(0x02, Some(0x07))];
        for text in [
            "01,02:07",
            "01 02:07",
            "1,2:7",
            "0x01, 0x02:0x07",
            "0X1,,2:07 ",
        ] {
            assert_eq!(parse_list(text), Ok(both.clone()), "{text}");
        }
        assert_eq!(parse_list("fE:Ab"), Ok(vec![circuit(0xFE, Some(0xAB))]));
    }

    #[test]
    fn wrong_words_are_named() {
        for word in ["1g", "100", "01:", ":07", "01:02:03", "0x", "+1", "-1"] {
            let error = parse_list(&format!("01,{word}")).unwrap_err();
            assert!(error.starts_with("expected a circuit ADDR"), "{error}");
            assert!(error.ends_with(&format!("not '{word}'")), "{error}");
        }
        for text in ["", " ", ",,"] {
            assert!(parse_list(text).is_err(), "{text:?}");
        }
    }

    /// What a listing refuses, in its order, in other words.
    #[test]
    fn lists_that_a_listing_refuses() {
        let four = "expected one to four circuits, not";
        let system = "expected an address from 00 to FE, not";
        for (text, error) in [
            ("1 2 3 4 5", format!("{four} 5")),
            ("FF 1 1 1 1 1", format!("{four} 6")),
            (
                "1 1 FF",
                format!("{system} FF: FF is that of system packets"),
            ),
            (
                "ff:7",
                format!("{system} FF:07: FF is that of system packets"),
            ),
            ("1 2:7 3 2:07", "02:07 is listed twice".to_string()),
            ("1 0x01", "01 is listed twice".to_string()),
        ] {
            assert_eq!(parse_list(text), Err(error), "{text}");
            let circuits: Vec<Circuit> = text.split(' ').map(|word| parse(word).unwrap()).collect();
            assert!(Receiver::list(&circuits).is_err(), "{text}");
        }
        for text in ["1 1:0", "1:0 1:1", "0 fe"] {
            assert!(Receiver::list(&parse_list(text).unwrap()).is_ok(), "{text}");
        }
    }

    #[test]
    fn circuits_of_packets() {
        let of = |packet: &[u8]| of_packet(packet).map(|circuit| circuit.to_string());
        assert_eq!(of(b"\x01\x81\x02hi").as_deref(), Some("01"));
        assert_eq!(of(b"\x7E\xA1\x07\x02hi").as_deref(), Some("7E:07"));
        assert_eq!(of(b"\x01\xDF\x02").as_deref(), Some("01"));
        assert_eq!((of(b"\x01"), of(b"\x01\x20")), (None, None));
    }

    /// The reserved bits of the header are not looked at; control and extension are no header.
    #[test]
    fn headers_of_long_messages() {
        for packet in [
            &b"\x01\x80\x1F\xFFa long one"[..],
            b"\x01\xA0\x07\x1F\xFFa long one",
            b"\x01\x9F\xFF\xFF",
        ] {
            assert!(begins_long(packet), "{packet:?}");
        }
        for packet in [
            &b"\x01\x80\x1F\xFEa short one"[..],
            b"\x01\x80\x0F\xFFa shorter one",
            b"\x01\x40\x1F\xFFa last one",
            b"\x01\x00\x1F\xFFa packet between",
            b"\x01\xA0\x1F\xFFan extension",
            b"\x01\x80\x1F",
            b"\x01\xA0\x07\x1F",
            b"\x1F\xFF",
        ] {
            assert!(!begins_long(packet), "{packet:?}");
        }
    }
}
