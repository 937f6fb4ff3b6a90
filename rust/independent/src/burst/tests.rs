mod choices;
mod variance;

use super::*;
use crate::choices::EVENTS;
use crate::compose;
use Event::{Discarded, Lost};

/// A trace from its digits.
fn trace(digits: &str) -> Vec<u8> {
    digits.bytes().map(|digit| digit - b'0').collect()
}

/// The figures of both forms, which agree.
fn both(trace: &[u8], gmin: u64, spacing: u64, event: Event) -> Result<Figures, Refusal> {
    let answer = figures(trace, gmin, spacing, event);
    assert_eq!(running_figures(trace, gmin, spacing, event), answer);
    answer
}

fn lost(digits: &str, gmin: u64, spacing: u64) -> [u16; 4] {
    numbers(both(&trace(digits), gmin, spacing, Lost).unwrap())
}

fn numbers(figures: Figures) -> [u16; 4] {
    [
        figures.burst_rate,
        figures.gap_rate,
        figures.mean,
        figures.variance,
    ]
}

/// The trace of `length` bytes that is `number` to the base 3.
fn digits_of(number: usize, length: u32) -> Vec<u8> {
    (0..length)
        .map(|place| (number / 3_usize.pow(place) % 3) as u8)
        .collect()
}

/// Bursts of these lengths, all lost, with one received packet between them.
fn bursts_of(lengths: &[usize]) -> Vec<u8> {
    let bursts: Vec<_> = lengths.iter().map(|length| vec![1; *length]).collect();
    bursts.join(&0)
}

/// By document 02's ticket 3 "Case P6 then reads variance 0".
#[test]
fn p6() {
    let expected = [26_214, 5_461, 2, 0];
    assert_eq!(lost("10100100011", 2, 1_000), expected);
    let sums = sums(&trace("10100100011"), 2, 1_000, Lost);
    let expected = Sums {
        packets: 11,
        events: 5,
        burst_packets: 5,
        burst_events: 4,
        bursts: 2,
        duration_sum: 5,
        duration_squares: 13,
    };
    assert_eq!(sums, expected);
}

/// "P7 stays 0."
#[test]
fn p7() {
    assert_eq!(lost("111", 16, 1_000), [32_768, UNAVAILABLE, 3, 0]);
}

#[test]
fn p8_a_lone_loss_is_no_burst() {
    let lone = [UNAVAILABLE, 32_768, UNAVAILABLE, UNAVAILABLE];
    for gmin in [1, 2, 16, 255] {
        assert_eq!(lost("1", gmin, 1_000), lone);
    }
    // Each alone, though there are several.
    let several = lost("100100100", 2, 1_000);
    assert_eq!(several, [UNAVAILABLE, 10_922, UNAVAILABLE, UNAVAILABLE]);
}

#[test]
fn p9() {
    let none = [UNAVAILABLE, 0, UNAVAILABLE, UNAVAILABLE];
    assert_eq!(lost("000", 16, 1_000), none);
}

#[test]
fn fewer_than_gmin_between() {
    for gmin in 1..=255 {
        for between in [gmin - 1, gmin] {
            let digits = format!("1{}1", "0".repeat(between as usize));
            let burst_rate = lost(&digits, gmin, 1_000)[0];
            let together = burst_rate != UNAVAILABLE;
            assert_eq!(together, between < gmin, "Gmin {gmin}, {between}");
        }
    }
}

#[test]
fn the_other_kind_counts_as_received() {
    // The discarded packet stands between the two losses.
    let digits = "0120100";
    assert_eq!(lost(digits, 2, 1_000)[0], UNAVAILABLE);
    assert_eq!(lost(digits, 3, 1_000)[0], 16_384);
    let discarded = both(&trace("2120"), 2, 1_000, Discarded).unwrap();
    assert_eq!(numbers(discarded), [21_845, 0, 3, 0]);
    // 1 and 2 exchanged, and the other events.
    for number in 0..3_usize.pow(7) {
        let trace: Vec<u8> = digits_of(number, 7);
        let exchanged: Vec<u8> = trace.iter().map(|byte| [0, 2, 1][*byte as usize]).collect();
        let answer = both(&trace, 2, 1_000, Lost);
        assert_eq!(both(&exchanged, 2, 1_000, Discarded), answer);
    }
}

#[test]
fn both_forms_agree_on_all_short_traces() {
    for length in 1..=8 {
        for number in 0..3_usize.pow(length) {
            let trace = digits_of(number, length);
            for gmin in 1..=4 {
                for event in EVENTS {
                    both(&trace, gmin, 700, event).unwrap();
                }
            }
        }
    }
}

#[test]
fn a_duration_is_cut_before_it_is_summed() {
    // Twice 2 × 900 / 1000, which is 1 each: not 3.
    assert_eq!(lost("1100011", 2, 900), [32_768, 0, 1, 0]);
    assert_eq!(lost("11", 2, 499), [32_768, UNAVAILABLE, 0, 0]);
    // The largest.
    assert_eq!(duration(65_536, 40_000), 2_621_440);
}

#[test]
fn means_at_the_limit() {
    for (length, mean) in [(65_532, 65_532), (65_533, 65_533), (65_534, OVER_RANGE)] {
        let answer = both(&vec![1; length], 1, 1_000, Lost).unwrap();
        assert_eq!(numbers(answer), [32_768, UNAVAILABLE, mean, 0]);
    }
    let largest = both(&[1; 65_536], 255, 40_000, Lost).unwrap();
    assert_eq!(numbers(largest), [32_768, UNAVAILABLE, OVER_RANGE, 0]);
}

#[test]
fn refusals_in_order() {
    let bad = [0, 3, 0, 4];
    for event in EVENTS {
        for (gmin, spacing) in [(0, 1), (256, 1), (1, 0), (1, 40_001), (u64::MAX, 1)] {
            for trace in [&bad[..], &[], &[1]] {
                let answer = both(trace, gmin, spacing, event);
                assert_eq!(answer, Err(Refusal::SETTING));
            }
        }
        let longer = vec![3; 65_537];
        assert_eq!(both(&[], 1, 1, event), Err(Refusal::TRACE_LENGTH));
        assert_eq!(both(&longer, 1, 1, event), Err(Refusal::TRACE_LENGTH));
        let longest = &longer[..65_536];
        assert_eq!(both(longest, 1, 1, event), Err(Refusal::trace_byte(0)));
        assert_eq!(both(&bad, 1, 1, event), Err(Refusal::trace_byte(1)));
    }
}

#[test]
fn blocks_of_figures() {
    // Bursts of 2 and 5 packets, 2 + 4 of them lost, and one of 5 in the gap: 9 / 4.
    let figures = both(&trace("110011011001"), 2, 1_000, Lost).unwrap();
    let loss = Loss {
        flag: 3,
        source: 7,
        burst_rate: 28_086,
        gap_rate: 6_553,
        mean: 3,
        variance: 2,
    };
    let discard = Discard {
        flag: 2,
        source: 9,
        burst_rate: 28_086,
        gap_rate: 6_553,
    };
    assert_eq!(loss_block(&figures, 7, 3), Block::Loss(loss));
    assert_eq!(discard_block(&figures, 9, 2), Block::Discard(discard));
}

/// Whatever the trace, its figures can be written.
#[test]
fn blocks_of_figures_are_written() {
    for digits in ["1", "0", "111", "10100100011", "22", "1202"] {
        for event in [Lost, Discarded] {
            let figures = both(&trace(digits), 2, 40_000, event).unwrap();
            for flag in 1..=3 {
                let mut buffer = [0; 44];
                compose::new_packet(1, &mut buffer).unwrap();
                let loss = compose::add(&mut buffer, &loss_block(&figures, 5, flag));
                assert_eq!(loss, Ok(24));
                let discard = compose::add(&mut buffer, &discard_block(&figures, 5, flag));
                assert_eq!(discard, Ok(36));
            }
        }
    }
}
