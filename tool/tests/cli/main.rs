//! The tool as a person uses it: the built program run on real files.

mod captures;
mod decode;
mod encode;
// Made by hand as for the library's tests, of which not all is needed here.
#[allow(dead_code)]
#[path = "../../../rust/tests/library/frames.rs"]
mod frames;
mod gaps;
mod left;
mod line;
mod long;
mod long_messages;
mod runs;
mod scan;
mod signals;
#[cfg(target_os = "linux")]
mod terminal;
mod usage;
mod zeros;
