//! One stream cut at every place, and read one bit a call.

use crate::both::{differ, Both, Compared};
use crate::ends::Reading;
use crate::inputs;
use crate::random::Random;
use crate::stream::stream;
use aes18_reference::bits::bytes_of;
use aes18_reference::calls::ReadCall;
use aes18_reference::receiver::Notice;

/// The notices are those of the uncut stream wherever it is cut.
pub fn every_place(both: &mut Both, random: &mut Random) -> Compared<()> {
    let list = inputs::list(random);
    let mut bits = stream(random, &inputs::circuits(&list));
    bits.truncate(700);
    let bytes = bytes_of(&bits);
    let end = bits.len() as u64;
    let uncut = notices(both, random, &list, &bytes, &[end])?;
    for cut in 0..end {
        let told = notices(both, random, &list, &bytes, &[cut, end])?;
        same(&format!("cut at {cut}"), &told, &uncut)?;
    }
    let single: Vec<u64> = (1..=end).collect();
    let told = notices(both, random, &list, &bytes, &single)?;
    same("one bit a call", &told, &uncut)
}

fn same(cut: &str, told: &[Notice], uncut: &[Notice]) -> Compared<()> {
    if told == uncut {
        return Ok(());
    }
    let call = format!("a stream {cut}, and beside it the same uncut");
    differ(
        call,
        "the notices",
        format!("{told:?}"),
        format!("{uncut:?}"),
    )
}

/// The notices of a fresh receiver that reads up to each of these ends.
fn notices(
    both: &mut Both,
    random: &mut Random,
    list: &[u8],
    bytes: &[u8],
    ends: &[u64],
) -> Compared<Vec<Notice>> {
    let mut reading = Reading::list(both, random, list)?;
    let mut told = vec![];
    let mut from = 0;
    for &to in ends {
        let call = ReadCall {
            bits: bytes,
            from,
            to,
        };
        reading.read_all(both, call, &mut |notice, _| told.push(notice))?;
        from = to;
    }
    Ok(told)
}
