//! One JSON object a line, for programs.

use std::io;

use aes18::{Circuit, Figures, Notice};
use serde::ser::{Serialize, SerializeMap, Serializer};

use super::form::{Form, Sum, Told};
use crate::account::{
    fate_name, figures, untraced, Account, CircuitCounts, Heard, Unfinished, Unit,
};
use crate::enable::EnableBits;
use crate::gaps::Gap;
use crate::json::{line, with_unit, GapObject, Only};
use crate::quote::{as_text, Hex};
use crate::scan::Listening;

/// An object for each notice and each stretch in no frame, then one with the counts.
pub struct Json;

impl Form for Json {
    fn listening(&self, out: &mut Vec<u8>, listening: &Listening) -> io::Result<()> {
        line(out, &Only("listening", listening))
    }

    fn notice(&self, out: &mut Vec<u8>, told: &Told<'_>) -> io::Result<()> {
        line(out, &NoticeObject(told))
    }

    fn gap(&self, out: &mut Vec<u8>, unit: Unit, gap: &Gap) -> io::Result<()> {
        line(out, &Only("gap", GapObject(unit, gap)))
    }

    fn sum(&self, out: &mut Vec<u8>, sum: &Sum<'_>) -> io::Result<()> {
        line(out, &Only("totals", SumObject(sum)))
    }
}

/// A notice with its place, and the message or the information.
struct NoticeObject<'a>(&'a Told<'a>);

impl Serialize for NoticeObject<'_> {
    fn serialize<S: Serializer>(&self, serializer: S) -> Result<S::Ok, S::Error> {
        let told = self.0;
        let mut members = serializer.serialize_map(None)?;
        members.serialize_entry(told.unit.name(), &told.place)?;
        notice(&mut members, told)?;
        if let Some(bytes) = told.bytes {
            members.serialize_entry("length", &bytes.len())?;
            members.serialize_entry("hex", &Hex(bytes).to_string())?;
            if let Some(text) = as_text(bytes) {
                members.serialize_entry("text", text)?;
            }
        }
        if let Some(file) = told.file {
            members.serialize_entry("file", file)?;
        }
        members.end()
    }
}

/// The members of a notice.
fn notice<M: SerializeMap>(members: &mut M, told: &Told<'_>) -> Result<(), M::Error> {
    let mut name = |name: &str| members.serialize_entry("notice", name);
    match told.heard.notice {
        Notice::End => name("End"),
        Notice::Spoilt => name("Spoilt"),
        Notice::Malformed => name("Malformed"),
        Notice::System { enable, code, .. } => {
            name("System")?;
            members.serialize_entry("enable", &enable)?;
            members.serialize_entry("priorities", &EnableBits(enable).priorities())?;
            members.serialize_entry("code", &code)
        }
        Notice::Elsewhere => {
            name("Elsewhere")?;
            match told.heard.elsewhere {
                Some(circuit) => members.serialize_entry("circuit", &circuit.to_string()),
                None => Ok(()),
            }
        }
        Notice::Circuit { number, loss, fate } => {
            name("Circuit")?;
            circuit(members, number, told.circuits[number])?;
            members.serialize_entry("loss", &loss)?;
            doubts(members, told.unit, told.heard)?;
            members.serialize_entry("fate", fate_name(fate))
        }
    }
}

/// The members that name a circuit.
fn circuit<M: SerializeMap>(
    members: &mut M,
    number: usize,
    circuit: Circuit,
) -> Result<(), M::Error> {
    members.serialize_entry("number", &number)?;
    members.serialize_entry("circuit", &circuit.to_string())
}

/// What is said of a loss.
fn doubts<M: SerializeMap>(members: &mut M, unit: Unit, heard: &Heard) -> Result<(), M::Error> {
    if let Some(free) = heard.doubt {
        members.serialize_entry("modulo8", &true)?;
        members.serialize_entry(&with_unit("gap_", unit), &free)?;
    }
    match heard.dropped {
        true => members.serialize_entry("dropped", &true),
        false => Ok(()),
    }
}

/// The counts.
struct SumObject<'a>(&'a Sum<'a>);

impl Serialize for SumObject<'_> {
    fn serialize<S: Serializer>(&self, serializer: S) -> Result<S::Ok, S::Error> {
        let sum = self.0;
        let account = sum.account;
        let mut members = serializer.serialize_map(None)?;
        members.serialize_entry(&with_unit("", account.unit), &sum.read)?;
        members.serialize_entry("before", &account.before)?;
        if let Some(rest) = sum.rest {
            members.serialize_entry("behind", &rest.behind)?;
        }
        members.serialize_entry("gaps", &account.gaps)?;
        members.serialize_entry(&with_unit("gap_", account.unit), &account.free)?;
        members.serialize_entry("modulo8", &account.modulo())?;
        members.serialize_entry("system", &account.system)?;
        let (damaged, number) = sum.damaged();
        members.serialize_entry(&damaged.to_ascii_lowercase().replace(' ', "_"), &number)?;
        members.serialize_entry("malformed", &account.malformed)?;
        members.serialize_entry("elsewhere", &account.elsewhere)?;
        let circuits = account.circuits().enumerate();
        let circuits = circuits.map(|(number, (packets, figures))| CircuitObject {
            number,
            packets,
            figures,
        });
        members.serialize_entry("circuits", &circuits.collect::<Vec<_>>())?;
        let open = account
            .unfinished
            .iter()
            .map(|message| OpenObject(account, message));
        members.serialize_entry("open", &open.collect::<Vec<_>>())?;
        members.serialize_entry("untraced", &untraced(account.unit, sum.block))?;
        members.end()
    }
}

/// A circuit's counts.
struct CircuitObject<'a> {
    number: usize,
    packets: &'a CircuitCounts,
    figures: Figures,
}

impl Serialize for CircuitObject<'_> {
    fn serialize<S: Serializer>(&self, serializer: S) -> Result<S::Ok, S::Error> {
        let mut members = serializer.serialize_map(None)?;
        circuit(&mut members, self.number, self.packets.circuit)?;
        for (name, figure) in figures(self.packets, self.figures) {
            members.serialize_entry(&name.replace(' ', ""), &figure)?;
        }
        members.end()
    }
}

/// A message that is open at the end.
struct OpenObject<'a>(&'a Account, &'a Unfinished);

impl Serialize for OpenObject<'_> {
    fn serialize<S: Serializer>(&self, serializer: S) -> Result<S::Ok, S::Error> {
        let OpenObject(account, message) = *self;
        let mut members = serializer.serialize_map(None)?;
        let number = message.number;
        circuit(&mut members, number, account.circuit(number))?;
        members.serialize_entry("received", &message.open.received)?;
        let length = match message.open.is_long() {
            true => "at_most",
            false => "length",
        };
        members.serialize_entry(length, &message.open.length)?;
        members.serialize_entry(account.unit.name(), &message.begun)?;
        members.end()
    }
}
