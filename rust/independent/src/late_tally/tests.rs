use super::*;
use crate::choices::EVENTS;
use Event::{Either, Lost};

/// Step by step from an opened tally.
fn fed(trace: &[u8], gmin: u64, spacing: u64, event: Event) -> Tally {
    let mut tally = Tally::open(gmin, spacing, event).unwrap();
    for byte in trace {
        let answer;
        (tally, answer) = take(tally, *byte);
        assert_eq!(answer, Ok(()));
    }
    tally
}

/// The open stretch's events, packets and packets since, after these digits.
fn stretch(digits: &str, gmin: u64) -> [u64; 3] {
    let trace: Vec<u8> = digits.bytes().map(|digit| digit - b'0').collect();
    let tally = fed(&trace, gmin, 1_000, Lost);
    [tally.open_events, tally.open_packets, tally.open_gap]
}

#[test]
fn by_hand() {
    assert_eq!(stretch("", 2), [0, 0, 0]);
    assert_eq!(stretch("0020", 2), [0, 0, 4]);
    assert_eq!(stretch("001", 2), [1, 1, 0]);
    assert_eq!(stretch("101", 2), [2, 3, 0]);
    assert_eq!(stretch("10200", 2), [1, 1, 4]);
    // Gmin packets and more have come since, and the burst is still open.
    assert_eq!(stretch("11000", 2), [2, 2, 3]);
    assert_eq!(stretch("110001", 2), [1, 1, 0]);
    let tally = fed(&[1, 1, 0, 0, 0], 2, 1_000, Lost);
    assert_eq!((tally.bursts, tally.burst_packets), (0, 0));
    let tally = fed(&[1, 1, 0, 0, 0, 1], 2, 1_000, Lost);
    assert_eq!((tally.bursts, tally.burst_packets), (1, 2));
    assert_eq!((tally.duration_sum, tally.duration_squares), (2, 4));
    // A discarded packet carries the stretch on where either counts.
    let tally = fed(&[1, 0, 2, 0, 0], 2, 1_000, Either);
    assert_eq!((tally.events, tally.bursts), (2, 0));
    let stretch = [tally.open_events, tally.open_packets, tally.open_gap];
    assert_eq!(stretch, [2, 3, 2]);
}

/// All traces of up to eight packets: the steps lead to the closed form, which closes with
/// the formulas and as a tally that closes early.
#[test]
fn steps_and_closed_form() {
    for length in 0..=8 {
        for number in 0..3_u32.pow(length) {
            let digit = |place| (number / 3_u32.pow(place) % 3) as u8;
            let trace: Vec<u8> = (0..length).map(digit).collect();
            for gmin in 1..=3 {
                for event in EVENTS {
                    let tally = fed(&trace, gmin, 700, event);
                    assert_eq!(tally, of_trace(&trace, gmin, 700, event), "{trace:?}");
                    assert!(tally.sound(), "{trace:?}");
                    let sums = burst::sums(&trace, gmin, 700, event);
                    assert_eq!(tally.close(), Ok(burst::formulas(&sums)), "{trace:?}");
                }
            }
        }
    }
}

/// What is refused is what [`Tally`] refuses, and changes nothing.
#[test]
fn refused() {
    let opened = Tally::open(2, 1_000, Lost).unwrap();
    for byte in 3..=u8::MAX {
        assert_eq!(take(opened, byte), (opened, Err(Refusal::trace_byte(0))));
    }
    let mut full = opened;
    full.seen = 65_536;
    assert_eq!(take(full, 255), (full, Err(Refusal::TRACE_LENGTH)));
    let mut unsound = full;
    unsound.seen += 1;
    assert_eq!(take(unsound, 255), (unsound, Err(Refusal::SETTING)));
    // Bursts of 2 and 1 ms: 2 × 5 is at least 3 × 3, and 2 × 4 is not.
    let bursts = Tally {
        burst_packets: 4,
        bursts: 2,
        duration_sum: 3,
        duration_squares: 5,
        ..full
    };
    assert_eq!(take(bursts, 255), (bursts, Err(Refusal::TRACE_LENGTH)));
    let mut unsound = bursts;
    unsound.duration_squares = 4;
    assert_eq!(take(unsound, 255), (unsound, Err(Refusal::SETTING)));
}
