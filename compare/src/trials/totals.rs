//! Totals of any bytes, in which answers of every kind and bytes that are no answer are noted.

use crate::both::{differ, hex, Both, Compared};
use crate::inputs::{any_length, every_byte};
use crate::random::Random;
use aes18_reference::calls::{read_answer, READ_ANSWER};
use aes18_reference::receiver::{Fate, Notice, Read};
use aes18_reference::totals::{Totals, TOTALS_RECORD};

/// Each value of each of the eight bytes that tell the notice, with each kind and each fate; each length of totals, and each of an answer.
pub fn all(both: &mut Both) -> Compared<()> {
    let totals: Vec<u8> = (100..180).collect();
    for start in 0..64 {
        for (at, value) in every_byte(8) {
            let mut answer = [0; READ_ANSWER];
            (answer[0], answer[3]) = (start / 8, start % 8);
            answer[at] = value;
            both.totals_note(&mut totals.clone(), &answer)?;
        }
    }
    let answer = [5, 1, 2, 3, 4, 5, 0, 0, 9, 9, 9, 9, 9, 9, 9, 9, 0x5A, 0x5A];
    for length in 0..=totals.len() {
        both.totals_note(&mut totals[..length].to_vec(), &answer)?;
    }
    for length in 0..=answer.len() {
        both.totals_note(&mut totals.clone(), &answer[..length])?;
    }
    Ok(())
}

/// Any totals, any answers and any lengths.
pub fn any(both: &mut Both, random: &mut Random) -> Compared<()> {
    for _ in 0..40 {
        let totals = any_totals(random);
        let mut totals = any_length(random, &totals);
        let answer = any_answer(random);
        let answer = any_length(random, &answer);
        both.totals_note(&mut totals, &answer)?;
    }
    Ok(())
}

/// A list of notices, noted one by one in totals near the most: each figure is that of the whole list.
pub fn near_the_most(both: &mut Both, random: &mut Random) -> Compared<()> {
    let start = any_totals(random);
    let mut totals = start.clone();
    let mut list = vec![];
    for _ in 0..random.below(200) {
        let notice = notice(random);
        both.totals_note(&mut totals, &answer(random, notice))?;
        list.push(notice);
    }
    let mut whole = Totals::unpack(&start);
    whole.add(&list);
    if totals == whole.record() {
        return Ok(());
    }
    let call = format!("a list of notices in totals {}: {list:?}", hex(&start));
    differ(call, "the totals", hex(&totals), hex(&whole.record()))
}

/// Figures of which some are 0, some near the most, some anything.
fn any_totals(random: &mut Random) -> Vec<u8> {
    let mut totals = vec![];
    for _ in 0..TOTALS_RECORD / 4 {
        let figure = match random.below(8) {
            0 => 0,
            1 => random.next() as u32,
            2 => u32::MAX,
            3..=4 => u32::MAX - 1,
            5 => u32::MAX - random.below(10) as u32,
            6 => u32::MAX - random.below(300) as u32,
            _ => u32::MAX - random.below(70_000) as u32,
        };
        totals.extend(figure.to_le_bytes());
    }
    totals
}

/// A notice with any values that an answer has room for.
fn notice(random: &mut Random) -> Notice {
    match random.below(16) {
        0 => Notice::End,
        1 => Notice::Spoilt,
        2 => Notice::Malformed,
        3 => Notice::System {
            enable: random.next() & 255,
            code: random.next() & 255,
            length: random.below(256),
        },
        4 => Notice::Elsewhere,
        _ => Notice::Circuit {
            number: random.pick(&[0, 1, 2, 3, 0, 1, 2, 3, 4, 5, 128, 255]),
            loss: match random.below(8) {
                0 => random.byte(),
                _ => random.pick(&[0, 0, 0, 1, 2, 6, 7, 9]),
            },
            fate: fate(random),
        },
    }
}

fn fate(random: &mut Random) -> Fate {
    match random.below(8) {
        0 => Fate::Copy,
        1 => Fate::Begun,
        2 => Fate::Held,
        3 => Fate::Whole(random.below(65_536)),
        4..=5 => Fate::Whole(random.pick(&[0, 1, 2, 9, 255, 256, 4094, 65_535])),
        6 => Fate::Orphan,
        _ => Fate::Wrong,
    }
}

/// The answer with this notice and any bits read.
fn answer(random: &mut Random, notice: Notice) -> Vec<u8> {
    let bits = random.pick(&[0, 1, 176, u64::MAX]);
    read_answer(&Read { notice, bits }).to_vec()
}

/// An answer, or one with bytes changed, or noise.
fn any_answer(random: &mut Random) -> Vec<u8> {
    let notice = notice(random);
    let mut answer = answer(random, notice);
    match random.below(8) {
        0 => random.bytes(READ_ANSWER),
        1..=3 => {
            for _ in 0..1 + random.below(2) {
                answer[random.below(8)] = random.pick(&[0, 1, 2, 3, 4, 5, 6, 7, 128, 255]);
            }
            answer
        }
        _ => answer,
    }
}
