//! The signals that end the tool: files that are not complete are removed first.

use std::sync::OnceLock;
use std::{fs, io, thread};

use signal_hook::consts::{SIGHUP, SIGINT, SIGTERM};
use signal_hook::iterator::Signals;
use signal_hook::low_level::emulate_default_handler;

use crate::scratch;

/// Whether the signals are watched.
static WATCHED: OnceLock<()> = OnceLock::new();

/// Watches for the signals from the first call on.
pub fn watch() -> io::Result<()> {
    if WATCHED.set(()).is_err() {
        return Ok(());
    }
    let ignored = ignored();
    let ending = [SIGINT, SIGTERM, SIGHUP];
    let ending = ending
        .iter()
        .filter(|signal| ignored >> (*signal - 1) & 1 == 0);
    let mut signals = Signals::new(ending)?;
    thread::spawn(move || {
        for signal in signals.forever() {
            let _folders = scratch::remove_all();
            let _ = emulate_default_handler(signal);
        }
    });
    Ok(())
}

/// The signals that whoever started the tool made it ignore, as `nohup` does, signal 1 in the lowest bit. They stay ignored. Where the system does
/// not tell, there are none.
fn ignored() -> u64 {
    let status = fs::read_to_string("/proc/self/status").unwrap_or_default();
    let mask = status.lines().find_map(|line| line.strip_prefix("SigIgn:"));
    mask.and_then(|mask| u64::from_str_radix(mask.trim(), 16).ok())
        .unwrap_or(0)
}
