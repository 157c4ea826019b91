//! The circuits to listen to where the command line lists none.

use std::ffi::OsStr;
use std::fmt::{self, Display, Formatter};
use std::fs;

use aes18::{Circuit, LineReader};
use serde::ser::{Serialize, SerializeMap, Serializer};
use serde_json::json;

use super::survey::Survey;
use crate::circuits::MOST_CIRCUITS;
use crate::error::Error;
use crate::formats::Formats;
use crate::frames;
use crate::input::{Chunk, Content, Input};
use crate::json::Members;
use crate::output::count;
use crate::progress::Progress;

/// The most circuits not listened to that are named to people.
const NAMED: usize = 8;

/// The circuits of a file that was scanned, each with its packets: those listened to, by number, and the others.
pub struct Listening {
    to: Vec<(Circuit, u64)>,
    not_to: Vec<(Circuit, u64)>,
}

impl Listening {
    /// Scans a file of user bits: the four circuits with most packets are listened to, of those with as many those heard first. A circuit that sends
    /// long messages, of several the one with most packets, is number 0 before all others, since only that number takes them.
    pub fn in_bits(file: &OsStr, formats: Formats) -> Result<Listening, Error> {
        survey(file, Content::Bits(formats), |survey, chunk| {
            survey.read(chunk.bytes, chunk.bits).map(|_| ())
        })
    }

    /// Scans a file of a serial line in the same way.
    pub fn on_line(file: &OsStr) -> Result<Listening, Error> {
        let mut reader = LineReader::new();
        survey(file, Content::Line, |survey, chunk| {
            let mut at = 0;
            loop {
                let read = reader.read(&chunk.bytes[at..]);
                at += read.bytes;
                let Some(packet) = read.packet else {
                    return Ok(());
                };
                let checked = frames::with_fcs(&packet);
                let checked = checked.map_err(|refusal| Error::Data(refusal.to_string()))?;
                let frame = frames::in_bits(&checked);
                survey.read(&frame.bytes, frame.count)?;
            }
        })
    }

    /// The circuits listened to; none where no packet of a circuit passes.
    pub fn circuits(&self) -> Vec<Circuit> {
        self.to.iter().map(|(circuit, _)| *circuit).collect()
    }
}

/// An object with the circuits listened to and the others.
impl Serialize for Listening {
    fn serialize<S: Serializer>(&self, serializer: S) -> Result<S::Ok, S::Error> {
        let all = |circuits: &[(Circuit, u64)]| -> Vec<CircuitObject> {
            circuits.iter().copied().map(CircuitObject).collect()
        };
        let mut members = serializer.serialize_map(None)?;
        members.serialize_entry("to", &all(&self.to))?;
        members.serialize_entry("not", &all(&self.not_to))?;
        members.end()
    }
}

/// A circuit with its packets.
struct CircuitObject((Circuit, u64));

impl Serialize for CircuitObject {
    fn serialize<S: Serializer>(&self, serializer: S) -> Result<S::Ok, S::Error> {
        let (circuit, packets) = self.0;
        let members = [
            ("circuit", json!(circuit.to_string())),
            ("packets", json!(packets)),
        ];
        Members(&members).serialize(serializer)
    }
}

/// Such as `listening to 01, 02:07; not to 7E (12 packets)`.
impl Display for Listening {
    fn fmt(&self, f: &mut Formatter<'_>) -> fmt::Result {
        if self.to.is_empty() {
            return f.write_str("listening to no circuit: no packet of one passes");
        }
        let names = |circuits: &[(Circuit, u64)], name: fn(&(Circuit, u64)) -> String| {
            let names: Vec<String> = circuits.iter().map(name).collect();
            names.join(", ")
        };
        let to = names(&self.to, |(circuit, _)| circuit.to_string());
        write!(f, "listening to {to}")?;
        let (named, more) = self.not_to.split_at(self.not_to.len().min(NAMED));
        if !named.is_empty() {
            let others = names(named, |(circuit, packets)| {
                format!("{circuit} ({})", count(*packets, "packet"))
            });
            write!(f, "; not to {others}")?;
        }
        match more.len() {
            0 => Ok(()),
            more => write!(f, " and {more} more (aes18 scan lists them)"),
        }
    }
}

/// Surveys a file, of which `read` reads one chunk after the other. That a capture ends inside a word is said by the reading that tells it.
fn survey(
    file: &OsStr,
    content: Content,
    mut read: impl FnMut(&mut Survey, &Chunk<'_>) -> Result<(), Error>,
) -> Result<Listening, Error> {
    if is_stream(file) {
        return Err(Error::Usage(
            "expected --circuits ADDR[:EXT],..: only a file can be scanned for circuits\n\
             before it is told; the standard input, a pipe or a device is told as it comes"
                .to_string(),
        ));
    }
    let mut input = Input::open(file, content)?;
    let mut progress = Progress::alone(input.length());
    let mut survey = Survey::new(None, false)?;
    while let Some(chunk) = input.chunk()? {
        read(&mut survey, &chunk)?;
        progress.add(chunk.read);
    }
    let mut heard = survey.ranked();
    if let Some(place) = heard.iter().position(|heard| heard.long) {
        heard[..=place].rotate_right(1);
    }
    let mut to: Vec<(Circuit, u64)> = heard
        .iter()
        .map(|heard| (heard.circuit, heard.packets))
        .collect();
    let not_to = to.split_off(to.len().min(MOST_CIRCUITS));
    Ok(Listening { to, not_to })
}

/// Whether a file is read once, as it comes.
fn is_stream(file: &OsStr) -> bool {
    let stream = |found: fs::Metadata| !found.is_file() && !found.is_dir();
    file == "-" || fs::metadata(file).is_ok_and(stream)
}

#[cfg(test)]
mod tests {
    use super::*;

    fn listening(to: usize, not_to: usize) -> Listening {
        let circuits = |from: usize, number: usize| {
            let circuit = |address: usize| Circuit {
                address: address as u8,
                extension: None,
            };
            (from..from + number)
                .map(|address| (circuit(address), 100 - address as u64))
                .collect()
        };
        Listening {
            to: circuits(1, to),
            not_to: circuits(99 - not_to + 1, not_to),
        }
    }

    #[test]
    fn in_words() {
        let none = "listening to no circuit: no packet of one passes";
        assert_eq!(listening(0, 0).to_string(), none);
        assert_eq!(listening(1, 0).to_string(), "listening to 01");
        assert_eq!(
            listening(4, 2).to_string(),
            "listening to 01, 02, 03, 04; not to 62 (2 packets), 63 (1 packet)"
        );
        let nine = listening(4, 9).to_string();
        assert!(
            nine.ends_with("62 (2 packets) and 1 more (aes18 scan lists them)"),
            "{nine}"
        );
    }

    #[test]
    fn as_json() {
        let expected =
            r#"{"to":[{"circuit":"01","packets":99}],"not":[{"circuit":"63","packets":1}]}"#;
        let written = serde_json::to_string(&listening(1, 1)).unwrap();
        assert_eq!(written, expected);
    }
}
