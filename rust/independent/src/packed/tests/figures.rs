//! Effective loss and the plan, by hand and against the byte form.

use super::*;
use crate::effective::{effective_loss, running_effective_loss};
use crate::resend::plan;

/// Both answers for words whose last has no bit past the end; whatever the words past it hold.
fn figures(words: &[u64], packets: usize, batch: u64, threshold: u64) -> (EffectiveLoss, Vec<u8>) {
    let held = [words, &[HELD, u64::MAX]].concat();
    let loss = packed_loss(words, packets, batch, threshold).unwrap();
    assert_eq!(packed_loss(&held, packets, batch, threshold), Ok(loss));
    let mut out = vec![0xA5; packets];
    let marks = packed_plan(words, packets, batch, threshold, &mut out).unwrap();
    assert_eq!(out.iter().filter(|byte| **byte == 1).count(), marks);
    assert!(out.iter().all(|byte| *byte <= 1));
    let mut longer = vec![0xA5; packets + 3];
    let answer = packed_plan(&held, packets, batch, threshold, &mut longer);
    assert_eq!(answer, Ok(marks));
    assert_eq!(longer, [&out[..], &[0xA5; 3]].concat());
    (loss, out)
}

/// Both answers "are the same from the packed form as from the byte form", by the choice that the
/// words were packed by.
pub(super) fn same_by(trace: &[u8], batch: u64, threshold: u64, event: Event) {
    let words = plain(trace, event);
    let (loss, ours) = figures(&words, trace.len(), batch, threshold);
    let running = running_effective_loss(trace, batch, threshold, event);
    assert_eq!(running, Ok(loss));
    // The batches one by one, where they are few.
    if trace.len() <= 300 {
        assert_eq!(effective_loss(trace, batch, threshold, event), Ok(loss));
    }
    let mut out = vec![0xA5; trace.len()];
    plan(trace, batch, threshold, event, &mut out).unwrap();
    assert_eq!(ours, out, "{trace:?}, B {batch}, T {threshold}");
}

/// By lost only.
fn same(trace: &[u8], batch: u64, threshold: u64) {
    same_by(trace, batch, threshold, Lost);
}

/// Refused by both calls, the plan's whatever the room, and nothing is written.
fn refused(words: &[u64], packets: usize, batch: u64, threshold: u64, refusal: Refusal) {
    let answer = packed_loss(words, packets, batch, threshold);
    assert_eq!(answer, Err(refusal));
    for room in [0, 1, 64, 300] {
        let mut out = vec![0xA5; room];
        let answer = packed_plan(words, packets, batch, threshold, &mut out);
        assert_eq!(answer, Err(refusal));
        assert_eq!(out, vec![0xA5; room]);
    }
}

/// K, N, the index, the first batch over and the plan.
type Sheet<'a> = (u64, u64, u16, Option<usize>, &'a [u8]);

fn reads(words: &[u64], packets: usize, batch: u64, threshold: u64, sheet: Sheet) {
    let (loss, out) = figures(words, packets, batch, threshold);
    let (over, batches) = (loss.over, loss.batches);
    assert_eq!((over, batches, loss.index, loss.first, &out[..]), sheet);
}

#[test]
fn p1_and_p2() {
    let plan = trace("001000100");
    reads(&[86], 9, 3, 1, (4, 7, 37_448, Some(0), &plan));
}

#[test]
fn p3_to_p5() {
    reads(&[0], 3, 3, 0, (0, 1, 0, None, &[0; 3]));
    reads(&[7], 3, 1, 0, (3, 3, 65_535, Some(0), &[1; 3]));
    for word in [0, 1] {
        refused(&[word], 1, 2, 0, Refusal::BATCH_LONG);
    }
}

/// All lost, B about 64 and T one less: the mark of one packet serves every batch.
#[test]
fn about_a_whole_word() {
    let cases = [
        (63, 63, 62),
        (64, 64, 63),
        (65, 65, 64),
        (65, 64, 63),
        (65, 63, 62),
    ];
    for (packets, batch, marked) in cases {
        let words = plain(&vec![1; packets], Lost);
        let batches = packets as u64 - batch + 1;
        let plan = losing(packets, &[marked]);
        let sheet = (batches, batches, 65_535, Some(0), &plan[..]);
        reads(&words, packets, batch, batch - 1, sheet);
    }
}

/// Losses on both sides of the end of a word meet in one batch.
#[test]
fn across_words() {
    let words = [1 << 63, 1];
    let marked = losing(65, &[64]);
    reads(&words, 65, 2, 1, (1, 64, 1_023, Some(63), &marked));
    reads(&words, 65, 2, 2, (0, 64, 0, None, &[0; 65]));
    let both = losing(65, &[63, 64]);
    reads(&words, 65, 2, 0, (2, 64, 2_047, Some(62), &both));
    reads(&words, 65, 65, 1, (1, 1, 65_535, Some(0), &marked));
    // 0 and 64 are in one batch of 65, and in none of 64.
    let marked = losing(66, &[64]);
    reads(&[1, 1], 66, 65, 1, (1, 2, 32_767, Some(0), &marked));
    reads(&[1, 1], 66, 64, 1, (0, 3, 0, None, &[0; 66]));
}

#[test]
fn all_short_traces() {
    for length in 1..=9 {
        for number in 0..1_u64 << length {
            let trace: Vec<u8> = (0..length)
                .map(|packet| (number >> packet & 1) as u8)
                .collect();
            for batch in 1..=length {
                for threshold in 0..=batch + 1 {
                    same(&trace, batch, threshold);
                }
            }
        }
    }
}

/// Every trace of eight packets that lie about the end of a word, after packets all alike.
#[test]
fn all_ends_about_a_word() {
    for (before, byte) in [(60, 0), (60, 1), (56, 1), (124, 0)] {
        for number in 0..256 {
            let mut trace = vec![byte; before];
            trace.extend((0..8).map(|packet| (number >> packet & 1) as u8));
            let length = trace.len() as u64;
            for batch in [1, 2, 3, 5, 8, 55, 60, 63, 64, 65, length - 1, length] {
                for threshold in [0, 1, 2, 4, batch - 1, batch] {
                    if batch <= length {
                        same(&trace, batch, threshold);
                    }
                }
            }
        }
    }
}

#[test]
fn random_traces() {
    let mut numbers = Numbers(0x1234_5678_9ABC_DEF1);
    let mut over = 0;
    for round in 0..3_000 {
        let packets = match round % 50 {
            0 => 1 + numbers.below(65_536),
            _ => 1 + numbers.below(400),
        };
        let trace = numbers.trace(packets);
        let batch = 1 + numbers.below(packets.min(1_024));
        let losses = trace.iter().filter(|byte| **byte == 1).count();
        // Mostly near what a batch has.
        let threshold = match numbers.below(4) {
            0 => numbers.below(1_025),
            _ => (losses * batch / packets + numbers.below(5)).saturating_sub(2),
        };
        let (batch, threshold) = (batch as u64, threshold.min(1_024) as u64);
        same(&trace, batch, threshold);
        let words = plain(&trace, Lost);
        let loss = packed_loss(&words, packets, batch, threshold).unwrap();
        over += usize::from(loss.over > 0 && loss.over < loss.batches);
    }
    // Enough with some batches over and some not.
    assert!(over > 600, "{over}");
}

#[test]
fn the_longest_trace() {
    let all = vec![1; 65_536];
    let words = vec![u64::MAX; 1_024];
    let full = (65_536, 65_536, 65_535, Some(0), &all[..]);
    reads(&words, 65_536, 1, 0, full);
    for (batch, threshold) in [(1, 1), (64, 63), (1_024, 0), (1_024, 24), (1_024, 1_024)] {
        same(&all, batch, threshold);
        same(&losing(65_536, &[0, 65_535]), batch, threshold);
    }
}

/// 15, 10, 8 for the words, 9, 14, and for the plan 8: faults put in from the last to the first,
/// each of which hides those that come after it.
#[test]
fn refusals_in_order() {
    let short = &mut [0xA5; 64];
    let answer = packed_plan(&[0, 1], 65, 65, 0, short);
    assert_eq!((answer, *short), (Err(Refusal::BUFFER_SHORT), [0xA5; 64]));
    assert!(packed_plan(&[0, 1], 65, 65, 0, &mut [0; 65]).is_ok());
    refused(&[0, 1], 65, 66, 0, Refusal::BATCH_LONG);
    refused(&[0, 1], 65, 1_024, 1_024, Refusal::BATCH_LONG);
    refused(&[0, 3], 65, 66, 0, Refusal::trace_byte(65));
    refused(&[0, 1 << 63], 65, 66, 0, Refusal::trace_byte(127));
    // With fewer words than are read, their bits have no say.
    refused(&[u64::MAX], 65, 66, 0, Refusal::BUFFER_SHORT);
    refused(&[], 1, 2, 0, Refusal::BUFFER_SHORT);
    refused(&[HELD; 1_023], 65_536, 1, 0, Refusal::BUFFER_SHORT);
    for packets in [0, 65_537, usize::MAX] {
        refused(&[], packets, 1_024, 0, Refusal::TRACE_LENGTH);
        refused(&[HELD; 1_025], packets, 1, 1_024, Refusal::TRACE_LENGTH);
    }
    let wide = (1 << 32) + 1;
    for (batch, threshold) in [(0, 0), (1_025, 0), (1, 1_025), (wide, 0), (1, wide)] {
        for packets in [0, 1, 65, 65_537] {
            refused(&[], packets, batch, threshold, Refusal::SETTING);
            refused(&[0, 3], packets, batch, threshold, Refusal::SETTING);
        }
    }
}
