//! Bytes stuffed in two parts (02, ask 2).

use aes18_reference::bits::bits_of;
use aes18_reference::hdlc::{fcs, frame, run_left, stuff, stuff_on, stuffed_in_two};

#[test]
fn the_run_is_that_of_the_stuffed_part() {
    let first: [&[u8]; 6] = [&[], &[0xFF], &[0xF0], &[0xF8], &[0xFF, 0xFF], &[0x7F]];
    assert_eq!(first.map(run_left), [0, 3, 4, 0, 1, 0]);
}

#[test]
fn every_run_is_gone_on_from() {
    let bits = |text: &str| text.chars().map(|bit| bit == '1').collect::<Vec<_>>();
    let ones = [
        "111110111",
        "111101111",
        "1110111110",
        "1101111101",
        "1011111011",
    ];
    for (run, stuffed) in ones.into_iter().enumerate() {
        assert_eq!(stuff_on(run, &bits_of(&[0xFF])), bits(stuffed), "{run}");
        assert_eq!(stuff_on(run, &bits_of(&[0x00])), bits("00000000"));
    }
}

#[test]
fn two_bytes_cut_between_them() {
    for first in 0..=255 {
        for rest in 0..=255 {
            let whole = stuff(&bits_of(&[first, rest]));
            assert_eq!(
                stuffed_in_two(&[first], &[rest]),
                whole,
                "{first:x} {rest:x}"
            );
        }
    }
}

#[test]
fn frames_cut_between_any_two_bytes() {
    for length in 2..=19 {
        for byte in [0x00, 0x7E, 0xF0, 0xF8, 0xFF] {
            let packet = vec![byte; length];
            let with_fcs = [&packet[..], &fcs(&packet)].concat();
            for cut in 0..=with_fcs.len() {
                let (first, rest) = with_fcs.split_at(cut);
                let in_two = stuffed_in_two(first, rest);
                assert_eq!(in_two, frame(&packet), "{byte:x} {length} {cut}");
            }
        }
    }
}

/// Behind FF hex every run but three gives other bits.
#[test]
fn other_runs_give_other_bits() {
    let whole = stuff(&bits_of(&[0xFF, 0xFF]));
    let first = stuff(&bits_of(&[0xFF]));
    let same = |run| [first.clone(), stuff_on(run, &bits_of(&[0xFF]))].concat() == whole;
    assert_eq!(
        [0, 1, 2, 3, 4].map(same),
        [false, false, false, true, false]
    );
}
