//! Compares the proved library with the reference, call by call.
//!
//!     compare                         the gate: fixed seeds, everything must have been seen
//!     compare soak [SECONDS] [SEED]   other seeds until the time is up; a SEED that showed a difference shows it again

mod both;
mod damage;
mod ends;
mod inputs;
mod library;
mod random;
mod read_back;
mod stream;
mod stuffing;
mod tally;
mod trials;

use both::{Both, Compared, Difference};
use random::Random;
use std::env;
use std::process::ExitCode;
use std::time::{Duration, Instant, SystemTime, UNIX_EPOCH};
use trials::{
    cuts, enabling, framings, left, lengths, lines, listing, long, long_slots, packets, passes,
    reading, records, sending, totals, zeros,
};

/// A trial under its name, and how often it is made in a lap.
type Trial = (
    &'static str,
    usize,
    fn(&mut Both, &mut Random) -> Compared<()>,
);

const TRIALS: [Trial; 33] = [
    ("listing", 10, listing::any),
    ("sending", 20, sending::run),
    ("few system packets", 20, enabling::few),
    ("packets still to go", 20, left::any),
    ("reading", 10, reading::run),
    ("noise", 5, reading::noise),
    ("cuts", 1, cuts::every_place),
    ("any sender's record", 60, records::any_sender),
    ("any receiver's record", 60, records::any_receiver),
    ("edges of a sender's slot", 4, records::sender_edges),
    ("edges of a receiver's slot", 4, records::receiver_edges),
    ("exact fit", 10, records::exact_fit),
    (
        "every byte of a sender's record",
        1,
        records::every_sender_byte,
    ),
    (
        "every byte of a receiver's record",
        1,
        records::every_receiver_byte,
    ),
    ("any totals", 60, totals::any),
    ("a list of notices near the most", 20, totals::near_the_most),
    ("passes", 180, passes::pass),
    ("long messages offered", 4, long::sending),
    ("reading beside a long buffer", 2, long::reading),
    (
        "any sender's slot of a long message",
        10,
        long_slots::any_sender,
    ),
    (
        "any receiver's slot of a long message",
        20,
        long_slots::any_receiver,
    ),
    ("passes with long messages", 6, passes::long_pass),
    ("writing to a line", 10, lines::writing),
    ("packets written and read back", 30, lines::read_back),
    ("any line", 60, lines::any_line),
    ("any line behind any record", 60, lines::any_record),
    ("a line cut at every place", 2, lines::every_place),
    ("any framing in pieces", 20, framings::any),
    ("a framing cut at every place", 1, framings::every_place),
    ("any framing's record", 60, framings::any_record),
    (
        "every byte of a framing's record",
        1,
        framings::every_record_byte,
    ),
    ("the framing of a receiver", 20, framings::of_receiver),
    ("stuffed zeros", 20, zeros::any),
];
/// Laps of the gate.
const LAPS: u64 = 16;

fn show(seed: u64, trial: &str, round: usize, difference: &Difference) -> String {
    let Difference {
        call,
        part,
        library,
        reference,
    } = difference;
    format!("seed {seed}, {trial}, round {round}: difference in {part}\n{call}\n  library:   {library}\n  reference: {reference}")
}

/// Makes every trial as often as a lap has it, with values that follow from the seed.
fn lap(both: &mut Both, seed: u64) -> Result<(), String> {
    for (number, (name, times, trial)) in TRIALS.iter().enumerate() {
        for round in 0..*times {
            let mixed = Random::new(seed).next() ^ (number << 32 | round) as u64;
            trial(both, &mut Random::new(mixed))
                .map_err(|difference| show(seed, name, round, &difference))?;
        }
    }
    Ok(())
}

fn gate() -> Result<(), String> {
    let mut both = Both::default();
    listing::all(&mut both).map_err(|difference| show(0, "every circuit", 0, &difference))?;
    packets::all(&mut both).map_err(|difference| show(0, "every packet", 0, &difference))?;
    enabling::all(&mut both).map_err(|difference| show(0, "every enable byte", 0, &difference))?;
    left::all(&mut both)
        .map_err(|difference| show(0, "every field of packets still to go", 0, &difference))?;
    zeros::all(&mut both).map_err(|difference| show(0, "every byte stuffed", 0, &difference))?;
    framings::all(&mut both).map_err(|difference| show(0, "every framing", 0, &difference))?;
    totals::all(&mut both).map_err(|difference| show(0, "every answer", 0, &difference))?;
    lines::all(&mut both).map_err(|difference| show(0, "every byte of a line", 0, &difference))?;
    lengths::all(&mut both, &mut Random::new(0))
        .map_err(|difference| show(0, "every length", 0, &difference))?;
    long::all(&mut both, &mut Random::new(0))
        .map_err(|difference| show(0, "long messages", 0, &difference))?;
    long_slots::all(&mut both, &mut Random::new(0))
        .map_err(|difference| show(0, "slots of long messages", 0, &difference))?;
    for seed in 1..=LAPS {
        lap(&mut both, seed)?;
    }
    println!("{}", both.tally);
    let missing = both.tally.missing();
    if missing.is_empty() {
        println!("no difference in {} calls", both.tally.calls());
        return Ok(());
    }
    Err(missing.join("\n"))
}

fn soak(seconds: u64, seed: u64) -> Result<(), String> {
    println!("from seed {seed}, for {seconds} seconds");
    let mut both = Both::default();
    let (start, mut next) = (Instant::now(), seed);
    while next == seed || start.elapsed() < Duration::from_secs(seconds) {
        lap(&mut both, next)?;
        next = next.wrapping_add(1);
    }
    println!("{}", both.tally);
    println!(
        "no difference in {} calls, seeds {seed} to {}",
        both.tally.calls(),
        next.wrapping_sub(1)
    );
    Ok(())
}

/// A number among the arguments, or `otherwise` where there is none.
fn number(argument: Option<&String>, otherwise: u64) -> Result<u64, String> {
    argument.map_or(Ok(otherwise), |text| {
        text.parse()
            .map_err(|_| format!("'{text}' is not a number"))
    })
}

fn run(arguments: &[String]) -> Result<(), String> {
    let now = SystemTime::now()
        .duration_since(UNIX_EPOCH)
        .map_or(0, |time| time.as_secs());
    match arguments {
        [] => gate(),
        [word, rest @ ..] if word == "soak" && rest.len() <= 2 => {
            soak(number(rest.first(), 60)?, number(rest.get(1), now)?)
        }
        _ => Err("usage: compare, or compare soak [SECONDS] [SEED]".to_string()),
    }
}

fn main() -> ExitCode {
    let arguments: Vec<String> = env::args().skip(1).collect();
    match run(&arguments) {
        Ok(()) => ExitCode::SUCCESS,
        Err(message) => {
            eprintln!("compare: {message}");
            ExitCode::FAILURE
        }
    }
}
