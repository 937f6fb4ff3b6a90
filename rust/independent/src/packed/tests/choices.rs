//! Document 02's ticket 7: "The packed form of Ticket 6 has a one for each packet counted by the
//! choice it was packed by, and doesn't keep that choice".

use super::*;
use crate::choices::{as_lost, traces};

/// The words by each choice; unpacking them "gives 1 for each" packet that counts, 0 for the rest.
fn by_choice(trace: &[u8]) -> [Vec<u64>; 3] {
    EVENTS.map(|event| {
        let words = packed(trace, event);
        let counted: Vec<u8> = trace
            .iter()
            .map(|byte| u8::from(event.counts(*byte)))
            .collect();
        let mut out = vec![0xA5; trace.len()];
        assert_eq!(unpack(&words, trace.len(), &mut out), Ok(trace.len()));
        assert_eq!(out, counted, "{trace:?} by {event:?}");
        words
    })
}

#[test]
fn by_hand() {
    assert_eq!(by_choice(&trace("0120")), [[2], [4], [6]]);
    assert_eq!(by_choice(&trace("2")), [[0], [1], [1]]);
    assert_eq!(by_choice(&trace("1")), [[1], [0], [1]]);
    assert_eq!(by_choice(&trace("0")), [[0], [0], [0]]);
    // Packets 1, 4, 6 and 2, 5, 7: 2 + 16 + 64 and 4 + 32 + 128.
    assert_eq!(by_choice(&trace("01201212")), [[82], [164], [246]]);
    // About the end of a word.
    let mut ends = vec![0; 66];
    (ends[63], ends[64], ends[65]) = (2, 1, 2);
    let words = [[0, 1], [1 << 63, 2], [1 << 63, 3]];
    assert_eq!(by_choice(&ends), words);
    assert_eq!(by_choice(&[2; 64]), [[0], [u64::MAX], [u64::MAX]]);
}

/// Each byte after each other, so that none leaks into its neighbour; at every place of a word.
#[test]
fn every_short_trace_and_every_place() {
    for length in 1..=7 {
        for trace in traces(length) {
            by_choice(&trace);
        }
    }
    for middle in traces(4) {
        for before in [0, 1, 2, 5, 7, 60, 61, 62, 63, 64, 125] {
            for byte in 0..=2 {
                let mut trace = vec![byte; before];
                trace.extend(&middle);
                by_choice(&trace);
            }
        }
    }
}

#[test]
fn random_traces() {
    let mut numbers = Numbers(0x0123_4567_89AB_CDEF);
    for round in 0..500 {
        let packets = match round % 25 {
            0 => 1 + numbers.below(65_536),
            _ => 1 + numbers.below(400),
        };
        by_choice(&numbers.mixed(packets));
    }
    by_choice(&numbers.mixed(65_536));
}

/// The same as the lost packets of another trace; and of no trace but its own "conversion both
/// ways": by discarded only a loss does not come back, nor a 2 by any choice.
#[test]
fn what_does_not_come_back() {
    for trace in traces(6) {
        for event in EVENTS {
            let lost = plain(&as_lost(&trace, event), Lost);
            assert_eq!(packed(&trace, event), lost, "{trace:?}");
        }
    }
    let there_and_back = |packets: &[u8], event| {
        let mut out = vec![0xA5; packets.len()];
        unpack(&packed(packets, event), packets.len(), &mut out).unwrap();
        out
    };
    assert_eq!(there_and_back(&[1, 0], Discarded), [0, 0]);
    assert_eq!(there_and_back(&[2, 1], Lost), [0, 1]);
    assert_eq!(there_and_back(&[2, 1], Discarded), [1, 0]);
    assert_eq!(there_and_back(&[2, 1], Either), [1, 1]);
}

/// "Effective loss and plan over it count its ones."
#[test]
fn figures_of_short_traces() {
    for length in 1..=6 {
        for trace in traces(length) {
            for event in EVENTS {
                for batch in 1..=u64::from(length) {
                    for threshold in 0..=batch {
                        figures::same_by(&trace, batch, threshold, event);
                    }
                }
            }
        }
    }
}

#[test]
fn figures_of_random_traces() {
    let mut numbers = Numbers(0xFEDC_BA98_7654_3210);
    for round in 0..1_000 {
        let packets = match round % 50 {
            0 => 1 + numbers.below(65_536),
            _ => 1 + numbers.below(300),
        };
        let trace = numbers.mixed(packets);
        let batch = 1 + numbers.below(packets.min(1_024));
        let threshold = numbers.below(batch + 2).min(1_024);
        for event in EVENTS {
            figures::same_by(&trace, batch as u64, threshold as u64, event);
        }
    }
}
