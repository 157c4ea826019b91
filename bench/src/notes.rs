//! Noting: the answers of a channel's reads are noted in totals, one after the other.

use crate::race::{turns, Race};
use crate::reads::{hear, Channel, Heard};
use crate::sides::{Library, Plain, ReadAnswer, Reference, Side, Totals, TotalsSide};

/// The answers of a channel's reads.
pub fn answers<S: Side>(channel: &Channel) -> Result<Vec<ReadAnswer>, u32> {
    let mut heard = Heard::default();
    hear::<S>(channel, &mut heard)?;
    Ok(heard.answers)
}

/// What noting leaves.
#[derive(Default, PartialEq)]
pub struct Noted {
    record: Vec<u8>,
}

/// Notes the answers in empty totals.
pub fn note<S: TotalsSide>(answers: &Vec<ReadAnswer>, noted: &mut Noted) -> Result<(), u32> {
    let mut totals = S::Totals::default();
    for answer in answers {
        totals.note(answer)?;
    }
    noted.record.clear();
    noted.record.extend(totals.record());
    Ok(())
}

/// The race of noting; `torn` is a torn telemetry channel.
pub fn races(torn: &Channel) -> Result<[Race<Vec<ReadAnswer>, Noted, 3>; 1], u32> {
    let answers = answers::<Library>(torn)?;
    let count = answers.len() as u64;
    let turns = turns!(note: Library, Plain, Reference);
    Ok([Race::new(
        "notices of torn telemetry",
        answers,
        count,
        turns,
    )])
}
