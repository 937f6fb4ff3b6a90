use super::*;
use crate::block::{Discard, Loss};
use crate::burst::{OVER_RANGE, UNAVAILABLE};
use crate::choices::EVENTS;
use crate::compose;
use Event::{Discarded, Either, Lost};

/// A trace from its digits.
fn trace(digits: &str) -> Vec<u8> {
    digits.bytes().map(|digit| digit - b'0').collect()
}

/// A tally that took these packets.
fn taken(trace: &[u8], gmin: u64, spacing: u64, event: Event) -> Tally {
    let mut tally = Tally::open(gmin, spacing, event).unwrap();
    for byte in trace {
        let answer;
        (tally, answer) = tally.take(*byte);
        assert_eq!(answer, Ok(()));
    }
    tally
}

/// Block 17 for source 7 with flag 3, and these figures.
fn loss([burst_rate, gap_rate, mean, variance]: [u16; 4]) -> Block {
    Block::Loss(Loss {
        flag: 3,
        source: 7,
        burst_rate,
        gap_rate,
        mean,
        variance,
    })
}

/// Block 18 for source 7 with flag 3, and these rates.
fn discard([burst_rate, gap_rate]: [u16; 2]) -> Block {
    Block::Discard(Discard {
        flag: 3,
        source: 7,
        burst_rate,
        gap_rate,
    })
}

/// The blocks of the trace, which are those of tallies that took it.
fn both(digits: &str, gmin: u64, spacing: u64) -> (Block, Block) {
    let trace = trace(digits);
    let lost = loss_of_trace(&trace, gmin, spacing, 7, 3);
    let discarded = discard_of_trace(&trace, gmin, spacing, 7, 3);
    assert_eq!(
        of_tally(taken(&trace, gmin, spacing, Lost), 7, 3),
        lost,
        "{digits}"
    );
    assert_eq!(
        of_tally(taken(&trace, gmin, spacing, Discarded), 7, 3),
        discarded,
        "{digits}"
    );
    (lost.unwrap(), discarded.unwrap())
}

const NONE: [u16; 4] = [UNAVAILABLE, 0, UNAVAILABLE, UNAVAILABLE];

/// P6 to P9, P6 with document 02's variance: the 18 of a trace without discarded packets has no
/// burst, and none in its gap.
#[test]
fn the_sheet() {
    let sheet = [
        ("10100100011", 2, [26_214, 5_461, 2, 0]),
        ("111", 16, [32_768, UNAVAILABLE, 3, 0]),
        ("1", 16, [UNAVAILABLE, 32_768, UNAVAILABLE, UNAVAILABLE]),
        ("000", 16, NONE),
    ];
    for (digits, gmin, figures) in sheet {
        let without = discard([UNAVAILABLE, 0]);
        assert_eq!(both(digits, gmin, 1_000), (loss(figures), without));
    }
}

#[test]
fn each_block_counts_its_own_packets() {
    let discarded = discard([32_768, UNAVAILABLE]);
    assert_eq!(both("222", 16, 1_000), (loss(NONE), discarded));
    // Bursts of 2, 5 and 9 packets: (3 × 110 − 16 × 16) / 9 is 74 / 9.
    let lost = both("110111110111111111", 1, 1_000).0;
    assert_eq!(lost, loss([32_768, 0, 5, 8]));
    // A burst of two lost packets, and a lone discarded one.
    let (lost, discarded) = both("11002", 1, 40_000);
    assert_eq!(lost, loss([32_768, 0, 80, 0]));
    assert_eq!(discarded, discard([UNAVAILABLE, 6_553]));
    // Each stands between the other's events.
    let (lost, discarded) = both("1212", 2, 1_000);
    assert_eq!(lost, loss([21_845, 0, 3, 0]));
    assert_eq!(discarded, discard([21_845, 0]));
}

#[test]
fn over_range_and_unavailable() {
    let (lost, _) = both(&"1".repeat(1_639), 1, 40_000);
    assert_eq!(lost, loss([32_768, UNAVAILABLE, OVER_RANGE, 0]));
    let nothing = loss([UNAVAILABLE; 4]);
    assert_eq!(of_tally(taken(&[], 1, 1, Lost), 7, 3), Ok(nothing));
    let nothing = discard([UNAVAILABLE; 2]);
    assert_eq!(of_tally(taken(&[], 1, 1, Discarded), 7, 3), Ok(nothing));
}

/// The block has this source and flag, and adding it judges the flag, but no measured rate.
fn check_given(block: Block, size: usize, source: u32, flag: u8) {
    let kept = match block {
        Block::Loss(loss) => (loss.source, loss.flag),
        Block::Discard(discard) => (discard.source, discard.flag),
        other => unreachable!("{other:?}"),
    };
    assert_eq!(kept, (source, flag));
    let mut buffer = [0; 24];
    compose::new_packet(1, &mut buffer).unwrap();
    let expected = match flag {
        1..=3 => Ok(size),
        _ => Err(Refusal::BLOCK_TO_WRITE),
    };
    assert_eq!(compose::add(&mut buffer, &block), expected, "{block:?}");
}

#[test]
fn any_source_and_flag() {
    for digits in ["1", "0", "111", "10100100011", "22", "1202"] {
        let trace = trace(digits);
        let tallies = [Lost, Discarded].map(|event| taken(&trace, 2, 1, event));
        for flag in 0..=u8::MAX {
            let source = u32::MAX - u32::from(flag);
            let blocks = [
                (loss_of_trace(&trace, 2, 40_000, source, flag), 24),
                (discard_of_trace(&trace, 2, 40_000, source, flag), 20),
                (of_tally(tallies[0], source, flag), 24),
                (of_tally(tallies[1], source, flag), 20),
            ];
            for (block, size) in blocks {
                check_given(block.unwrap(), size, source, flag);
            }
        }
    }
}

#[test]
fn refusals_of_traces_in_order() {
    let (bad, longer) = ([0, 3, 0, 4], vec![3; 65_537]);
    let cases: [(&[u8], u64, u64, Refusal); 7] = [
        (&bad, 0, 1, Refusal::SETTING),
        (&[], 256, 1, Refusal::SETTING),
        (&longer, 1, 0, Refusal::SETTING),
        (&[1], 1, 40_001, Refusal::SETTING),
        (&[], 1, 1, Refusal::TRACE_LENGTH),
        (&longer, 1, 1, Refusal::TRACE_LENGTH),
        (&bad, 1, 1, Refusal::trace_byte(1)),
    ];
    for (trace, gmin, spacing, refusal) in cases {
        for of_trace in [loss_of_trace, discard_of_trace] {
            for flag in [0, 1, 3, 255] {
                assert_eq!(of_trace(trace, gmin, spacing, 7, flag), Err(refusal));
            }
        }
    }
}

/// "Blocks 17 and 18 keep their own events": a tally that counts either is closed, and has no
/// block, whatever it took and whatever the flag.
#[test]
fn a_tally_of_either_has_no_block() {
    for digits in ["", "0", "1", "2", "111", "222", "1212", "10100100011"] {
        let tally = taken(&trace(digits), 2, 1_000, Either);
        assert!(tally.close().is_ok());
        for flag in 0..=u8::MAX {
            assert_eq!(of_tally(tally, 7, flag), Err(Refusal::SETTING));
        }
    }
}

#[test]
fn a_tally_that_is_not_sound() {
    for event in EVENTS {
        let sound = taken(&[1, 2, 1, 2], 3, 1_000, event);
        assert_eq!(of_tally(sound, 7, 0).is_ok(), event != Either);
        let (mut settings, mut since) = (sound, sound);
        settings.gmin = 256;
        since.open_gap = 5;
        // 3 ms and 2 ms make n 2 and S 5: 2 × 13 is at least 25, 2 × 12 is not.
        let mut squares = Tally {
            seen: 9,
            events: 4,
            burst_packets: 5,
            burst_events: 4,
            bursts: 2,
            duration_sum: 5,
            duration_squares: 13,
            ..taken(&[], 3, 1_000, event)
        };
        assert_eq!(of_tally(squares, 7, 0).is_ok(), event != Either);
        squares.duration_squares = 12;
        for unsound in [settings, since, squares] {
            for flag in [0, 1, 3, 255] {
                assert_eq!(of_tally(unsound, 7, flag), Err(Refusal::SETTING));
            }
        }
    }
}
