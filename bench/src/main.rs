//! The benchmark: the library, plain C, fast C and the reference on the same data, side by side.

mod blocks;
mod calls;
mod framings;
mod lines;
mod longs;
mod noise;
mod notes;
mod race;
mod reads;
mod sides;
mod stack;
mod table;

use aes18::{
    FRAMING_RECORD, LINE_RECORD, LONG_BUFFER, RECEIVER_RECORD, RECEIVER_STORE, SENDER_RECORD,
    SENDER_STORE, TOTALS_RECORD,
};
use noise::Noise;
use race::{Race, TURNS};
use reads::Channel;
use sides::{FramingSide, Library, LineSide, Plain};
use stack::Work;
use std::fs;
use std::process::ExitCode;
use std::time::Instant;
use table::say;

fn main() -> ExitCode {
    match run() {
        Ok(()) => ExitCode::SUCCESS,
        Err(message) => {
            eprintln!("bench: {message}");
            ExitCode::FAILURE
        }
    }
}

fn run() -> Result<(), String> {
    let started = Instant::now();
    let plain_records = Plain::record_sizes()?;
    let mut noise = Noise::new();
    let mut making = blocks::races(&mut noise);
    let clean = Channel::clean(&making[0].case).map_err(refused)?;
    let mut reading = reads::races(&clean, &mut noise).map_err(refused)?;
    let mut scanning = framings::races(&reading);
    let mut noting = notes::races(&reading[1].case).map_err(refused)?;
    let mut calling = calls::races(&clean);
    let mut writing = lines::writing(&mut noise).map_err(refused)?;
    let mut taking = lines::reading(&writing[0].case, &mut noise).map_err(refused)?;
    let mut making_long = longs::making(&mut noise);
    let mut reading_long = longs::reading(&making_long).map_err(refused)?;
    head()?;
    check(&mut making)?;
    check(&mut reading)?;
    check(&mut scanning)?;
    check(&mut noting)?;
    check(&mut calling)?;
    check(&mut writing)?;
    check(&mut taking)?;
    check(&mut making_long)?;
    check(&mut reading_long)?;
    say("Checked: the sides give the same blocks, answers, messages, stores, long buffers, totals, lines and packets in every case, and again after every turn.")?;
    time("Block making", "bit", &mut making)?;
    time("Reading", "bit", &mut reading)?;
    time_long("Long messages, making", &mut making_long)?;
    time_long("Long messages, reading", &mut reading_long)?;
    time("Framing alone", "bit", &mut scanning)?;
    time("Noting", "call", &mut noting)?;
    time("Calls without work", "call", &mut calling)?;
    time("Line writing", "byte", &mut writing)?;
    time("Line reading", "byte", &mut taking)?;
    sizes(plain_records)?;
    depths(Work {
        traffic: &making[0].case,
        channel: &reading[1].case,
        packets: &writing[0].case,
        line: &taking[0].case,
        messages: making_long.each_ref().map(|race| &race.case),
        beside: &reading_long[1].case,
    })?;
    let seconds = started.elapsed().as_secs_f64();
    say(&format!("\nThe run took {seconds:.0} s."))
}

fn refused(number: u32) -> String {
    format!("the library refuses a call by {number}")
}

/// What is compared, and how.
fn head() -> Result<(), String> {
    let (gcc, flags, rustc) = (env!("BENCH_GCC"), env!("BENCH_FLAGS"), env!("BENCH_RUSTC"));
    say(&format!(
        "The figures are of this run on this machine{}.",
        processor()
    ))?;
    say("library    libaes18.a through its functions in C; a record is bytes, checked in every call")?;
    say(
        "plain C    bench/plain.c; a record is a struct, checked in every call but for its framing",
    )?;
    say("fast C     bench/fast.c, by words and tables, on the records of plain C, which lists and offers for it; not timed at long messages, noting and the serial line")?;
    say(&format!("           {gcc}, {flags}"))?;
    say("reference  package reference/; an end is a value of its own, not checked; not timed at long messages, the framing alone and the serial line")?;
    say(&format!("           {rustc}, --release"))?;
    say(&format!(
        "Each figure is the best of {TURNS} turns. The sides take turns, in both orders."
    ))?;
    say("Blocks, answers, stores, long buffers and lines are not cleared between turns: each turn writes over those of the one before.")
}

/// The processor's name, where the system tells it.
fn processor() -> String {
    let told = fs::read_to_string("/proc/cpuinfo").unwrap_or_default();
    let name = told.lines().find_map(|line| {
        let (key, value) = line.split_once(':')?;
        (key.trim() == "model name").then(|| format!(" ({})", value.trim()))
    });
    name.unwrap_or_default()
}

/// Stops where the sides differ.
fn check<C, L: Default + PartialEq, const N: usize>(
    races: &mut [Race<C, L, N>],
) -> Result<(), String> {
    races.iter_mut().try_for_each(Race::check)
}

/// Times the races and prints their table.
fn time<C, L: Default + PartialEq, const N: usize>(
    title: &str,
    unit: &str,
    races: &mut [Race<C, L, N>],
) -> Result<(), String> {
    for (row, race) in races.iter_mut().enumerate() {
        let sides = race.sides();
        if row == 0 {
            table::times_head(title, unit, &sides)?;
        }
        let best = race.best()?;
        let each = best.map(|nanos| nanos / race.count as f64);
        table::times(race.name, race.count, &sides, &each)?;
    }
    Ok(())
}

/// The same of short messages and a long one, with what a bit of this costs to a bit of those.
fn time_long<C, L: Default + PartialEq, const N: usize>(
    title: &str,
    races: &mut [Race<C, L, N>; 2],
) -> Result<(), String> {
    let sides = races[0].sides();
    table::times_head(title, "bit", &sides)?;
    let mut rows = Race::best_of_both(races)?;
    for (race, each) in races.iter().zip(&mut rows) {
        *each = each.map(|nanos| nanos / race.count as f64);
        table::times(race.name, race.count, &sides, each)?;
    }
    let [short, long] = rows;
    table::ratios_of_rows("65,535 bytes to 4,094 bytes", [&long, &short])
}

/// The bytes that a caller lends.
fn sizes([plain_sender, plain_receiver]: [usize; 2]) -> Result<(), String> {
    table::bytes_head("Lent by the caller, bytes")?;
    table::bytes("sender's record", SENDER_RECORD, plain_sender)?;
    table::bytes("receiver's record", RECEIVER_RECORD, plain_receiver)?;
    let plain_framing = size_of::<<Plain as FramingSide>::Framing>();
    table::bytes("framing", FRAMING_RECORD, plain_framing)?;
    table::bytes("record of totals", TOTALS_RECORD, TOTALS_RECORD)?;
    let plain_line = size_of::<<Plain as LineSide>::Line>();
    table::bytes("record of a line's reader", LINE_RECORD, plain_line)?;
    table::bytes("sender's store", SENDER_STORE, SENDER_STORE)?;
    table::bytes("receiver's store", RECEIVER_STORE, RECEIVER_STORE)?;
    table::bytes("long buffer, of either end", LONG_BUFFER, LONG_BUFFER)
}

/// The stack that the calls touch.
fn depths(work: Work<'_>) -> Result<(), String> {
    let library = stack::depths::<Library>(work).map_err(refused)?;
    let plain = stack::depths::<Plain>(work).map_err(refused)?;
    table::bytes_head("Stack, deepest call with its arguments, bytes")?;
    for (call, name) in stack::CALLS.into_iter().enumerate() {
        table::bytes(name, library[call], plain[call])?;
    }
    Ok(())
}
