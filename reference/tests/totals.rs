//! The totals of the change requests' "Ask 1", by their words.

use aes18_reference::calls::{answered_notice, read_answer, totals_note, READ_ANSWER, TOO_SHORT};
use aes18_reference::receiver::{Fate, Notice, Read};
use aes18_reference::totals::{Totals, MOST, TOTALS_RECORD};

fn told(number: usize, loss: u8, fate: Fate) -> Notice {
    Notice::Circuit { number, loss, fate }
}

/// Every kind of notice, each with values that no receiver gives among them.
fn notices() -> Vec<Notice> {
    let system = |length| Notice::System {
        enable: 15,
        code: 8,
        length,
    };
    vec![
        Notice::End,
        Notice::Spoilt,
        Notice::Malformed,
        system(0),
        system(255),
        Notice::Elsewhere,
        told(0, 0, Fate::Whole(0)),
        told(0, 6, Fate::Whole(4094)),
        told(1, 9, Fate::Copy),
        told(1, 1, Fate::Begun),
        told(1, 0, Fate::Held),
        told(1, 255, Fate::Whole(65_535)),
        told(3, 2, Fate::Orphan),
        told(3, 3, Fate::Orphan),
        told(3, 4, Fate::Wrong),
        told(4, 5, Fate::Whole(10)),
        told(255, 5, Fate::Orphan),
    ]
}

#[test]
fn over_a_list() {
    let mut totals = Totals::default();
    totals.add(&notices());
    let figures = [[2, 4094, 6, 0], [1, 65_535, 265, 0], [0; 4], [0, 0, 9, 2]];
    assert_eq!(totals.circuits, figures);
    totals.add(&notices());
    assert_eq!(
        totals.circuits,
        figures.map(|of| of.map(|figure| 2 * figure))
    );
}

/// Lengths that no answer has room for are added as they are.
#[test]
fn wide_numbers() {
    let mut totals = Totals::default();
    totals.add(&[told(2, 0, Fate::Whole(usize::MAX)); 3]);
    assert_eq!(totals.circuits[2], [3, 3 * usize::MAX as u128, 0, 0]);
    assert_eq!(totals.record()[32..40], [3, 0, 0, 0, 255, 255, 255, 255]);
}

/// A total is cut down when a record is asked for, and not before.
#[test]
fn the_most() {
    let mut totals = Totals::unpack(&[0xFF; TOTALS_RECORD]);
    assert_eq!(totals.circuits, [[MOST; 4]; 4]);
    totals.add(&notices());
    assert_eq!(totals.record(), [0xFF; TOTALS_RECORD]);
    assert_eq!(totals.circuits[3], [MOST, MOST, MOST + 9, MOST + 2]);
}

#[test]
fn records_go_through_bytes() {
    let record: [u8; TOTALS_RECORD] = std::array::from_fn(|at| 255 - at as u8);
    let totals = Totals::unpack(&record);
    assert_eq!(totals.circuits[1][2], 0xE4E5_E6E7);
    assert_eq!(totals.record(), record);
}

/// The notice of each answer, with any bits read; and with one of the eight bytes before them changed, that notice no more.
#[test]
fn notices_of_answers() {
    for notice in notices() {
        let bits = u64::MAX;
        let answer = read_answer(&Read { notice, bits });
        assert_eq!(answered_notice(&answer), Some(notice));
        for at in 0..8 {
            let mut other = answer;
            other[at] ^= 0x80;
            assert_ne!(answered_notice(&other), Some(notice), "byte {at}");
        }
    }
}

#[test]
fn answers_of_no_notice() {
    let answers: [[u8; 8]; 13] = [
        [6, 0, 0, 0, 0, 0, 0, 0],
        [255, 0, 0, 0, 0, 0, 0, 0],
        [0, 1, 0, 0, 0, 0, 0, 0],
        [1, 0, 1, 0, 0, 0, 0, 0],
        [2, 0, 0, 1, 0, 0, 0, 0],
        [4, 0, 0, 0, 1, 0, 0, 0],
        [3, 0, 0, 0, 0, 1, 0, 0],
        [0, 0, 0, 0, 0, 0, 0, 1],
        [5, 0, 0, 6, 0, 0, 0, 0],
        [5, 0, 0, 2, 1, 0, 0, 0],
        [5, 0, 0, 4, 0, 1, 0, 0],
        [5, 0, 0, 3, 1, 1, 1, 0],
        [5, 0, 0, 3, 1, 1, 0, 1],
    ];
    for start in answers {
        let answer = [start, [7; 8]].concat();
        assert_eq!(answered_notice(&answer), None, "{start:?}");
        let mut record = [1; TOTALS_RECORD];
        assert_eq!(totals_note(&mut record, &answer), 0);
        assert_eq!(record, [1; TOTALS_RECORD]);
    }
}

#[test]
fn the_call() {
    let notice = told(1, 2, Fate::Whole(300));
    let answer = read_answer(&Read { notice, bits: 99 });
    let mut record = [0; TOTALS_RECORD + 1];
    record[TOTALS_RECORD] = 0xAA;
    for room in [0, TOTALS_RECORD - 1] {
        assert_eq!(totals_note(&mut record[..room], &answer), TOO_SHORT);
    }
    for length in [0, READ_ANSWER - 1] {
        assert_eq!(totals_note(&mut record, &answer[..length]), TOO_SHORT);
    }
    assert_eq!(record[..TOTALS_RECORD], [0; TOTALS_RECORD]);
    let longer = [&answer[..], &[0xBB]].concat();
    assert_eq!(totals_note(&mut record, &longer), 0);
    let noted = [1, 0, 0, 0, 44, 1, 0, 0, 2, 0, 0, 0, 0, 0, 0, 0];
    assert_eq!(record[16..32], noted);
    assert_eq!(record[..16], [0; 16]);
    assert_eq!(record[32..], [&[0; 32][..], &[0xAA]].concat());
}
