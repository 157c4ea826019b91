//! One JSON object a line. Members stand in the order in which they are written.

use std::io::{self, Write};

use serde::ser::{Serialize, SerializeMap, Serializer};
use serde_json::Value;

use crate::account::Unit;
use crate::gaps::Gap;

/// Writes an object as a line.
pub fn line(out: &mut impl Write, object: &impl Serialize) -> io::Result<()> {
    serde_json::to_writer(&mut *out, object)?;
    writeln!(out)
}

/// A name with the unit, such as `gap_bits`.
pub fn with_unit(start: &str, unit: Unit) -> String {
    format!("{start}{}s", unit.name())
}

/// An object with one member.
pub struct Only<T>(pub &'static str, pub T);

impl<T: Serialize> Serialize for Only<T> {
    fn serialize<S: Serializer>(&self, serializer: S) -> Result<S::Ok, S::Error> {
        let mut members = serializer.serialize_map(None)?;
        members.serialize_entry(self.0, &self.1)?;
        members.end()
    }
}

/// An object of members that are plain values.
pub struct Members<'a>(pub &'a [(&'a str, Value)]);

impl Serialize for Members<'_> {
    fn serialize<S: Serializer>(&self, serializer: S) -> Result<S::Ok, S::Error> {
        serializer.collect_map(self.0.iter().map(|(name, value)| (name, value)))
    }
}

/// A stretch in no frame.
pub struct GapObject<'a>(pub Unit, pub &'a Gap);

impl Serialize for GapObject<'_> {
    fn serialize<S: Serializer>(&self, serializer: S) -> Result<S::Ok, S::Error> {
        let GapObject(unit, gap) = *self;
        let mut members = serializer.serialize_map(None)?;
        members.serialize_entry("from", &gap.from)?;
        members.serialize_entry("to", &gap.to)?;
        members.serialize_entry(&with_unit("", unit), &gap.length())?;
        if gap.first {
            members.serialize_entry("before_first_flag", &true)?;
        }
        members.end()
    }
}
