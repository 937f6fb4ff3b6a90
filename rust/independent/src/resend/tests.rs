use super::*;
use crate::choices::{as_lost, traces, EVENTS};
use crate::effective::effective_loss;
use Event::{Discarded, Either, Lost};

fn trace(digits: &str) -> Vec<u8> {
    digits.bytes().map(|digit| digit - b'0').collect()
}

/// The plan, whose count is that of its marks.
fn planned_by(trace: &[u8], batch: u64, threshold: u64, event: Event) -> Vec<u8> {
    let mut out = vec![0xA5; trace.len()];
    let count = plan(trace, batch, threshold, event, &mut out).unwrap();
    assert_eq!(count, marks(&out));
    assert!(out.iter().all(|byte| *byte <= 1));
    out
}

/// By lost only.
fn planned(trace: &[u8], batch: u64, threshold: u64) -> Vec<u8> {
    planned_by(trace, batch, threshold, Lost)
}

#[test]
fn p2() {
    let losses = trace("011010100");
    assert_eq!(planned(&losses, 3, 1), trace("001000100"));
    assert_eq!(best_by_search(&losses, 3, 1, Lost), trace("001000100"));
    assert_eq!(plan(&losses, 3, 1, Lost, &mut [0; 9]), Ok(2));
}

#[test]
fn the_pass_equals_the_search_on_all_traces_of_received_and_lost() {
    for length in 1..=10_u32 {
        for number in 0..1_u32 << length {
            let trace: Vec<u8> = (0..length).map(|bit| (number >> bit & 1) as u8).collect();
            for batch in 1..=u64::from(length) {
                // Any threshold from B on marks nothing.
                for threshold in 0..=batch {
                    let best = best_by_search(&trace, batch, threshold, Lost);
                    let ours = planned(&trace, batch, threshold);
                    assert_eq!(ours, best, "{trace:?}, B {batch}, T {threshold}");
                }
            }
        }
    }
}

/// By every choice; and the plan is that of lost packets only, where those are the counted ones.
#[test]
fn the_pass_equals_the_search_with_discarded_packets() {
    for length in 1..=7 {
        for trace in traces(length) {
            for event in EVENTS {
                let as_lost = as_lost(&trace, event);
                for batch in 1..=u64::from(length) {
                    for threshold in 0..=batch + 1 {
                        let best = best_by_search(&trace, batch, threshold, event);
                        let ours = planned_by(&trace, batch, threshold, event);
                        assert_eq!(ours, best, "{trace:?}, B {batch}, T {threshold}");
                        assert_eq!(ours, planned(&as_lost, batch, threshold));
                    }
                }
            }
        }
    }
}

/// Document 02's ticket 7, plans found by hand for lost, discarded and either.
#[test]
fn the_choice_of_what_counts() {
    let cases = [
        ("12", 2, 1, ["00", "00", "01"]),
        ("12", 2, 0, ["10", "01", "11"]),
        ("121", 2, 1, ["000", "000", "010"]),
        ("121", 3, 1, ["001", "000", "011"]),
        ("2112", 4, 2, ["0000", "0000", "0011"]),
        ("2222", 2, 1, ["0000", "0101", "0101"]),
        // P2 with some of its losses late: of the first, those lost at 1 and 6 are in no batch
        // together, and those late at 2 and 4 in one.
        ("012020100", 3, 1, ["000000000", "000010000", "001000100"]),
        ("022020200", 3, 1, ["000000000", "001000100", "001000100"]),
    ];
    for (digits, batch, threshold, expected) in cases {
        let packets = trace(digits);
        for (event, expected) in EVENTS.into_iter().zip(expected) {
            let best = best_by_search(&packets, batch, threshold, event);
            assert_eq!(best, trace(expected), "{digits} by {event:?}");
            assert_eq!(planned_by(&packets, batch, threshold, event), best);
        }
    }
}

/// The search itself, on plans found by hand.
#[test]
fn the_search_takes_the_fewest_and_then_the_latest_first_mark() {
    let cases = [
        ("11", 2, 1, "01"),
        ("111", 2, 1, "010"),
        ("111", 3, 1, "011"),
        ("1111", 2, 1, "0101"),
        ("10101", 3, 1, "00100"),
        ("1201", 4, 1, "0001"),
        ("22", 1, 0, "00"),
        ("0110", 2, 2, "0000"),
    ];
    for (digits, batch, threshold, expected) in cases {
        let best = best_by_search(&trace(digits), batch, threshold, Lost);
        assert_eq!(best, trace(expected), "{digits}, B {batch}, T {threshold}");
    }
}

#[test]
fn thresholds_at_the_ends() {
    let losses = trace("1120112");
    let all = trace("1100110");
    for batch in 1..=7 {
        assert_eq!(planned(&losses, batch, 0), all);
        for threshold in [batch, batch + 1, 1_024] {
            assert_eq!(planned(&losses, batch, threshold), vec![0; 7]);
        }
    }
}

#[test]
fn longer_traces() {
    let mut state = 1_u64;
    let mut next = |below: u64| {
        state = state.wrapping_mul(6_364_136_223_846_793_005);
        state = state.wrapping_add(1_442_695_040_888_963_407);
        (state >> 33) % below
    };
    for _ in 0..200 {
        let often = 1 + next(5);
        let trace: Vec<u8> = (0..40 + next(200))
            .map(|_| {
                if next(often) == 0 {
                    1 + next(2) as u8
                } else {
                    0
                }
            })
            .collect();
        let (batch, threshold) = (1 + next(40), next(12));
        for event in EVENTS {
            leaves_none_over_by_each_mark(&trace, batch, threshold, event);
        }
    }
}

/// The plan leaves no batch over, and without any one of its marks leaves one.
fn leaves_none_over_by_each_mark(trace: &[u8], batch: u64, threshold: u64, event: Event) {
    let mut plan = planned_by(trace, batch, threshold, event);
    let counted: Vec<bool> = trace.iter().map(|byte| event.counts(*byte)).collect();
    assert!(marks_counted_packets_only(&counted, &plan));
    let resent: Vec<u8> = (0..trace.len())
        .map(|packet| if plan[packet] == 1 { 0 } else { trace[packet] })
        .collect();
    let left = effective_loss(&resent, batch, threshold, event).unwrap();
    assert_eq!(left.over, 0);
    for packet in 0..trace.len() {
        if plan[packet] == 1 {
            plan[packet] = 0;
            assert!(!leaves_no_batch_over(&counted, &plan, batch, threshold));
            plan[packet] = 1;
        }
    }
}

#[test]
fn the_longest_trace() {
    let all = vec![1; 65_536];
    assert_eq!(marks(&planned(&all, 1_024, 0)), 65_536);
    assert_eq!(marks(&planned(&all, 1_024, 1_024)), 0);
    // Every batch of 1,024 keeps 24 losses: 64 times 24 stay.
    assert_eq!(marks(&planned(&all, 1_024, 24)), 65_536 - 64 * 24);
    // Half of them late: as many stay by each choice, of half as many by lost or discarded only.
    let mixed: Vec<u8> = (0..65_536).map(|packet| 1 + packet as u8 % 2).collect();
    for (event, counted) in [(Lost, 32_768), (Discarded, 32_768), (Either, 65_536)] {
        let plan = planned_by(&mixed, 1_024, 24, event);
        assert_eq!(marks(&plan), counted - 64 * 24);
    }
}

#[test]
fn further_bytes_keep_what_they_held() {
    let losses = trace("011010100");
    for length in 0..20 {
        let mut out = vec![0xA5; length];
        let answer = plan(&losses, 3, 1, Lost, &mut out);
        if length < 9 {
            assert_eq!(answer, Err(Refusal::BUFFER_SHORT));
            assert_eq!(out, vec![0xA5; length]);
        } else {
            assert_eq!(answer, Ok(2));
            assert_eq!(out[..9], trace("001000100"));
            assert_eq!(out[9..], vec![0xA5; length - 9]);
        }
    }
}

/// A refused call changes no byte, whether there is room or not, by every choice.
#[test]
fn refusals_in_order() {
    let bad = [0, 3, 0, 4];
    let longer = vec![3; 65_537];
    let cases: [(&[u8], u64, u64, Refusal); 9] = [
        (&bad, 0, 0, Refusal::SETTING),
        (&[], 1_025, 0, Refusal::SETTING),
        (&[1], 1, 1_025, Refusal::SETTING),
        (&longer, u64::MAX, u64::MAX, Refusal::SETTING),
        (&[], 1, 0, Refusal::TRACE_LENGTH),
        (&longer, 1_024, 1_024, Refusal::TRACE_LENGTH),
        (&bad, 5, 0, Refusal::trace_byte(1)),
        (&[0, 0, 0, 4], 5, 0, Refusal::trace_byte(3)),
        (&[0, 1, 0, 2], 5, 0, Refusal::BATCH_LONG),
    ];
    for (trace, batch, threshold, refusal) in cases {
        for event in EVENTS {
            for room in [0, 3, 4, 10, 65_537] {
                let mut out = vec![0xA5; room];
                let answer = plan(trace, batch, threshold, event, &mut out);
                assert_eq!(answer, Err(refusal));
                assert!(out.iter().all(|byte| *byte == 0xA5));
            }
        }
    }
    for event in EVENTS {
        let answer = plan(&[0, 1, 0, 2], 4, 0, event, &mut [0; 3]);
        assert_eq!(answer, Err(Refusal::BUFFER_SHORT));
    }
}
