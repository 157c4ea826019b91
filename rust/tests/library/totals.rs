//! Totals: what each notice adds, and where a figure ends.

use aes18::{ffi, Fate, Figures, Notice, Totals, TOTALS_RECORD};

/// The highest figure.
const MOST: u32 = 4_294_967_295;

/// Totals with these figures at each circuit, in the order of the record: messages, bytes, lost, orphaned.
fn totals(circuits: [[u32; 4]; 4]) -> Totals {
    let mut record = [0; TOTALS_RECORD];
    for (place, figure) in record.chunks_mut(4).zip(circuits.concat()) {
        place.copy_from_slice(&figure.to_le_bytes());
    }
    Totals::from_bytes(record)
}

/// A notice of a circuit.
fn told(number: usize, loss: u8, fate: Fate) -> Notice {
    Notice::Circuit { number, loss, fate }
}

/// Totals with these figures at circuit 2 alone, after a notice of it.
fn noted(figures: [u32; 4], loss: u8, fate: Fate) -> Totals {
    let mut totals = at_2(figures);
    totals.note(&told(2, loss, fate));
    totals
}

/// Totals with these figures at circuit 2, and others at the other circuits.
fn at_2(figures: [u32; 4]) -> Totals {
    totals([[1, 2, 3, 4], [5, 6, 7, 8], figures, [9, 10, 11, 12]])
}

#[test]
fn empty() {
    let totals = Totals::empty();
    assert_eq!(totals, Totals::default());
    assert_eq!(totals.as_bytes(), &[0; TOTALS_RECORD]);
    let figures = [0, 1, 2, 3, 4, usize::MAX].map(|number| totals.circuit(number));
    let zero = Some(Figures::default());
    assert_eq!(figures, [zero, zero, zero, zero, None, None]);
}

#[test]
fn figures_stand_in_their_places() {
    let record: [u8; TOTALS_RECORD] = core::array::from_fn(|at| at as u8);
    let totals = Totals::from_bytes(record);
    assert_eq!(totals.as_bytes(), &record);
    let figures = Figures {
        messages: 0x1312_1110,
        bytes: 0x1716_1514,
        lost: 0x1B1A_1918,
        orphaned: 0x1F1E_1D1C,
    };
    assert_eq!(totals.circuit(1), Some(figures));
    assert_eq!(totals.circuit(4), None);
    let messages = totals.circuits().map(|figures| figures.messages);
    assert_eq!(
        messages,
        [0x0302_0100, 0x1312_1110, 0x2322_2120, 0x3332_3130]
    );
}

/// Each fate with a loss: the loss counts whatever the fate, also at a copy, where no receiver tells one.
#[test]
fn every_fate() {
    let cases = [
        (Fate::Copy, [20, 300, 49, 50]),
        (Fate::Begun, [20, 300, 49, 50]),
        (Fate::Held, [20, 300, 49, 50]),
        (Fate::Whole(0), [21, 300, 49, 50]),
        (Fate::Whole(4094), [21, 4394, 49, 50]),
        (Fate::Whole(65_535), [21, 65_835, 49, 50]),
        (Fate::Orphan, [20, 300, 49, 51]),
        (Fate::Wrong, [20, 300, 49, 50]),
    ];
    for (fate, figures) in cases {
        assert_eq!(noted([20, 300, 40, 50], 9, fate), at_2(figures), "{fate:?}");
    }
}

#[test]
fn every_circuit() {
    for number in 0..4 {
        let mut totals = Totals::empty();
        totals.note(&told(number, 255, Fate::Whole(7)));
        for other in 0..4 {
            let figures = Figures {
                messages: u32::from(other == number),
                bytes: 7 * u32::from(other == number),
                lost: 255 * u32::from(other == number),
                orphaned: 0,
            };
            assert_eq!(totals.circuit(other), Some(figures));
        }
    }
}

/// A figure that would pass the most is the most, and stays it; the others count on.
#[test]
fn each_figure_saturates_on_its_own() {
    let cases = [
        ([MOST - 1, 5, 5, 5], Fate::Whole(1), [MOST, 6, 7, 5]),
        ([MOST, 5, 5, 5], Fate::Whole(1), [MOST, 6, 7, 5]),
        ([5, MOST - 3, 5, 5], Fate::Whole(3), [6, MOST, 7, 5]),
        ([5, MOST - 3, 5, 5], Fate::Whole(4), [6, MOST, 7, 5]),
        ([5, MOST, 5, 5], Fate::Whole(65_535), [6, MOST, 7, 5]),
        ([5, 5, MOST - 2, 5], Fate::Copy, [5, 5, MOST, 5]),
        ([5, 5, MOST - 1, 5], Fate::Begun, [5, 5, MOST, 5]),
        ([5, 5, MOST, 5], Fate::Orphan, [5, 5, MOST, 6]),
        ([5, 5, 5, MOST - 1], Fate::Orphan, [5, 5, 7, MOST]),
        ([5, 5, 5, MOST], Fate::Orphan, [5, 5, 7, MOST]),
        ([MOST; 4], Fate::Whole(9), [MOST; 4]),
    ];
    for (before, fate, after) in cases {
        assert_eq!(noted(before, 2, fate), at_2(after), "{before:?} {fate:?}");
    }
}

/// Notices without a circuit, circuit numbers above 3, and notices that no answer can tell.
#[test]
fn what_counts_nowhere() {
    let system = |length| Notice::System {
        enable: 1,
        code: 2,
        length,
    };
    let notices = [
        Notice::End,
        Notice::Spoilt,
        Notice::Malformed,
        system(15),
        system(255),
        system(256),
        Notice::Elsewhere,
        told(4, 3, Fate::Whole(10)),
        told(255, 3, Fate::Orphan),
        told(256, 3, Fate::Whole(10)),
        told(258, 3, Fate::Orphan),
        told(usize::MAX, 3, Fate::Copy),
        told(2, 3, Fate::Whole(65_536)),
        told(2, 3, Fate::Whole(usize::MAX)),
    ];
    let before = at_2([20, 300, 40, 50]);
    for notice in notices {
        let mut totals = before;
        totals.note(&notice);
        assert_eq!(totals, before, "{notice:?}");
    }
}

/// What the safe types cannot pass: lengths that are too short, and bytes that are the answer of no notice.
#[test]
fn raw_calls() {
    let mut record = [0xAA; TOTALS_RECORD];
    let mut note = |room: usize, answer: &[u8]| {
        // SAFETY: both slices are valid for their lengths, and `room` is not above the record's.
        unsafe { ffi::aes18_totals_note(record.as_mut_ptr(), room, answer.as_ptr(), answer.len()) }
    };
    let answer = [5, 0, 1, 3, 9, 0, 0, 0, 0, 0, 0, 0, 0, 0, 0, 0];
    assert_eq!(note(TOTALS_RECORD - 1, &answer), 255);
    assert_eq!(note(TOTALS_RECORD, &answer[..15]), 255);
    for start in [
        [6, 0, 1, 3, 9, 0, 0, 0],
        [5, 0, 1, 6, 0, 0, 0, 0],
        [5, 0, 1, 2, 9, 0, 0, 0],
        [5, 0, 1, 4, 0, 1, 0, 0],
        [5, 0, 1, 3, 9, 0, 1, 0],
        [5, 0, 1, 3, 9, 0, 0, 128],
    ] {
        assert_eq!(note(TOTALS_RECORD, &[start, [0; 8]].concat()), 0);
    }
    assert_eq!(record, [0xAA; TOTALS_RECORD]);
}
