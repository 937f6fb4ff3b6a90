//! Document 02's ticket 7: a tally takes the choice too.

use super::*;
use crate::choices::{as_lost, traces};

/// The tally of these packets, by this choice, with Gmin 2.
fn of(digits: &str, event: Event) -> Tally {
    let trace: Vec<u8> = digits.bytes().map(|digit| digit - b'0').collect();
    after(Tally::open(2, 1_000, event).unwrap(), &trace)
}

/// L and the open stretch's events, packets and packets since, by each choice.
fn stretches(digits: &str) -> [[u64; 4]; 3] {
    EVENTS.map(|event| {
        let tally = of(digits, event);
        [
            tally.events,
            tally.open_events,
            tally.open_packets,
            tally.open_gap,
        ]
    })
}

#[test]
fn by_hand() {
    assert_eq!(stretches("1"), [[1, 1, 1, 0], [0; 4], [1, 1, 1, 0]]);
    assert_eq!(stretches("2"), [[0; 4], [1, 1, 1, 0], [1, 1, 1, 0]]);
    let mixed = [[1, 1, 1, 1], [1, 1, 1, 0], [2, 2, 2, 0]];
    assert_eq!(stretches("12"), mixed);
    // The second packet that does not count closes the loss, and leaves nothing open.
    let mixed = [[1, 0, 0, 0], [2, 2, 2, 0], [3, 3, 3, 0]];
    assert_eq!(stretches("122"), mixed);
    let mixed = [[2, 2, 3, 0], [1, 1, 1, 1], [3, 3, 3, 0]];
    assert_eq!(stretches("121"), mixed);
}

/// P6 with some of its losses late.
#[test]
fn closing_a_tally_of_either() {
    let expected = Figures {
        burst_rate: 26_214,
        gap_rate: 5_461,
        mean: 2,
        variance: 0,
    };
    for digits in ["10100100011", "20200200022", "10200200012", "20100100021"] {
        assert_eq!(of(digits, Either).close(), Ok(expected), "{digits}");
    }
}

/// But for its own name, the tally by a choice is that of the lost packets of another trace.
#[test]
fn every_choice_in_terms_of_lost_packets() {
    for trace in traces(8) {
        for event in EVENTS {
            let tally = after(Tally::open(2, 700, event).unwrap(), &trace);
            let lost = after(opened(2, 700), &as_lost(&trace, event));
            assert_eq!(tally, Tally { event, ..lost }, "{trace:?}");
            assert_eq!(tally.close(), lost.close());
        }
    }
}

/// The choice has no say in what is refused, nor in what is sound.
#[test]
fn refusals_in_order() {
    for event in EVENTS {
        let tally = of("1020", event);
        for byte in 3..=255 {
            assert_eq!(tally.take(byte), (tally, Err(Refusal::trace_byte(0))));
        }
        let full = Tally {
            seen: 65_536,
            ..tally
        };
        sound(full);
        for byte in 0..=255 {
            assert_eq!(full.take(byte), (full, Err(Refusal::TRACE_LENGTH)));
        }
        unsound(Tally {
            seen: 65_537,
            ..tally
        });
        unsound(Tally { gmin: 256, ..full });
    }
}
