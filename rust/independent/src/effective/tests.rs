use super::*;
use crate::block::{self, Block};
use crate::choices::{as_lost, traces, EVENTS};
use crate::compose;
use Event::{Discarded, Either, Lost};

fn trace(digits: &str) -> Vec<u8> {
    digits.bytes().map(|digit| digit - b'0').collect()
}

/// The answer of both forms, which agree.
fn both(trace: &[u8], batch: u64, threshold: u64, event: Event) -> Result<EffectiveLoss, Refusal> {
    let answer = effective_loss(trace, batch, threshold, event);
    let running = running_effective_loss(trace, batch, threshold, event);
    assert_eq!(running, answer);
    answer
}

type Numbers = (u64, u64, u16, Option<usize>);

fn by(digits: &str, batch: u64, threshold: u64, event: Event) -> Numbers {
    let answer = both(&trace(digits), batch, threshold, event).unwrap();
    (answer.over, answer.batches, answer.index, answer.first)
}

/// By lost only.
fn of(digits: &str, batch: u64, threshold: u64) -> Numbers {
    by(digits, batch, threshold, Lost)
}

#[test]
fn refusal_14_has_place_0() {
    let refusal = Refusal::BATCH_LONG;
    assert_eq!((refusal.number, refusal.place), (14, 0));
}

/// Batches slide by one: there are 7 of 9 packets, not 3.
#[test]
fn p1() {
    assert_eq!(of("011010100", 3, 1), (4, 7, 37_448, Some(0)));
}

#[test]
fn p3() {
    assert_eq!(of("000", 3, 0), (0, 1, 0, None));
}

/// 65,535 is full loss, and is written and read as such.
#[test]
fn p4() {
    assert_eq!(of("111", 1, 0), (3, 3, 65_535, Some(0)));
    let index = both(&trace("111"), 1, 0, Lost).unwrap().index;
    let full = Block::Effective(block::Effective { source: 2, index });
    let (block_type, specific, body) = compose::encode(&full);
    let reading = block::read(block_type, specific, &body);
    assert_eq!(reading, block::Reading::Typed(full));
}

#[test]
fn p5() {
    for packet in 0..=2 {
        for event in EVENTS {
            assert_eq!(both(&[packet], 2, 0, event), Err(Refusal::BATCH_LONG));
        }
    }
}

#[test]
fn as_many_losses_as_the_threshold_are_repaired() {
    assert_eq!(of("01100", 5, 1), (1, 1, 65_535, Some(0)));
    assert_eq!(of("01100", 5, 2), (0, 1, 0, None));
    assert_eq!(of("01100", 2, 1), (1, 4, 16_383, Some(1)));
}

/// By lost only, document 01's "discarded packets do not count".
#[test]
fn discarded_packets_do_not_count() {
    assert_eq!(of("22222", 2, 0), (0, 4, 0, None));
    assert_eq!(of("02120", 3, 0), (3, 3, 65_535, Some(0)));
    assert_eq!(of("02121", 3, 1), (1, 3, 21_845, Some(2)));
}

/// Document 02's ticket 7, by hand.
#[test]
fn the_choice_of_what_counts() {
    assert_eq!(by("22222", 2, 0, Discarded), (4, 4, 65_535, Some(0)));
    assert_eq!(by("22222", 2, 1, Either), (4, 4, 65_535, Some(0)));
    assert_eq!(by("11111", 2, 0, Discarded), (0, 4, 0, None));
    // The batches of 02121 are 021, 212 and 121: one, two and one late, two, three and three of
    // either.
    assert_eq!(by("02121", 3, 1, Discarded), (1, 3, 21_845, Some(1)));
    assert_eq!(by("02121", 3, 1, Either), (3, 3, 65_535, Some(0)));
    assert_eq!(by("02121", 3, 2, Either), (2, 3, 43_690, Some(1)));
    // P1 with some of its losses late.
    for digits in ["012020100", "022020200", "021010200"] {
        assert_eq!(by(digits, 3, 1, Either), (4, 7, 37_448, Some(0)));
    }
    // As many as the threshold are repaired, whatever they are.
    assert_eq!(by("0120", 4, 1, Either), (1, 1, 65_535, Some(0)));
    assert_eq!(by("0120", 4, 2, Either), (0, 1, 0, None));
}

#[test]
fn every_choice_in_terms_of_lost_packets() {
    for length in 1..=7 {
        for trace in traces(length) {
            for event in EVENTS {
                let as_lost = as_lost(&trace, event);
                for batch in 1..=u64::from(length) {
                    for threshold in 0..=batch {
                        let lost = both(&as_lost, batch, threshold, Lost);
                        assert_eq!(both(&trace, batch, threshold, event), lost);
                    }
                }
            }
        }
    }
}

#[test]
fn a_threshold_of_the_batch_or_more() {
    for threshold in [3, 4, 1_024] {
        assert_eq!(of("11111", 3, threshold), (0, 3, 0, None));
    }
    assert_eq!(of("11111", 3, 2), (3, 3, 65_535, Some(0)));
}

#[test]
fn the_first_batch_over() {
    // The loss at 6 is first met by the batch that ends there.
    for batch in 1..=7 {
        let first = 7 - batch as usize;
        assert_eq!(of("0000001", batch, 0).3, Some(first));
    }
    assert_eq!(of("1000011", 2, 1), (1, 6, 10_922, Some(5)));
}

#[test]
fn counts_reach_65_536() {
    let all = [1; 65_536];
    let answer = both(&all, 1, 0, Lost).unwrap();
    assert_eq!((answer.over, answer.batches), (65_536, 65_536));
    assert_eq!((answer.index, answer.first), (65_535, Some(0)));
    let mut last = [0; 65_536];
    for (byte, event) in [(1, Lost), (2, Discarded), (1, Either), (2, Either)] {
        last[65_535] = byte;
        let answer = both(&last, 1_024, 0, event).unwrap();
        assert_eq!((answer.over, answer.batches), (1, 64_513));
        assert_eq!((answer.index, answer.first), (1, Some(64_512)));
    }
}

#[test]
fn both_forms_agree_on_all_short_traces() {
    for length in 1..=8 {
        for trace in traces(length) {
            for batch in 1..=u64::from(length) {
                for threshold in 0..=batch {
                    for event in EVENTS {
                        both(&trace, batch, threshold, event).unwrap();
                    }
                }
            }
        }
    }
}

/// The same by every choice.
#[test]
fn refusals_in_order() {
    let bad = [0, 3, 0, 4];
    let longer = vec![3; 65_537];
    let cases: [(&[u8], u64, u64, Refusal); 9] = [
        (&bad, 0, 0, Refusal::SETTING),
        (&[], 1_025, 0, Refusal::SETTING),
        (&[1], 1, 1_025, Refusal::SETTING),
        (&longer, u64::MAX, u64::MAX, Refusal::SETTING),
        (&[], 1_024, 1_024, Refusal::TRACE_LENGTH),
        (&longer, 1_024, 0, Refusal::TRACE_LENGTH),
        // 9 looks at the whole trace before 14.
        (&bad, 5, 0, Refusal::trace_byte(1)),
        (&[0, 0, 0, 4], 5, 0, Refusal::trace_byte(3)),
        (&[0, 0, 0, 2], 5, 0, Refusal::BATCH_LONG),
    ];
    for event in EVENTS {
        for (trace, batch, threshold, refusal) in cases {
            assert_eq!(both(trace, batch, threshold, event), Err(refusal));
        }
        assert!(both(&[0, 0, 0, 2], 4, 0, event).is_ok());
    }
}
