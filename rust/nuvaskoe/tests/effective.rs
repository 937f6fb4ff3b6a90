//! The library's effective loss beside the independent one, by each choice of what counts.

mod support;

use independent::effective::EffectiveLoss;
use support::{
    answers::Answer,
    batches::{
        all_settings, all_traces, bursty_losses, digits, loss_both, random_losses, random_settings,
        random_trace, refusal, LONGEST, SETTINGS,
    },
    events::{by_each, EVENTS},
    from_env, Random,
};

/// How many traces a test draws; `NUVASKOE_TRACES` overrides.
const TRACES: usize = 500;

/// The answer by each choice, of a trace in which that counts the packets lost in this one.
fn loss_by_each(trace: &[u8], batch: u32, threshold: u32) -> Answer<EffectiveLoss> {
    by_each(trace, |trace, event| {
        loss_both(trace, batch, threshold, event)
    })
}

/// An accepted answer, by its four parts.
fn loss(over: u64, batches: u64, index: u16, first: Option<usize>) -> EffectiveLoss {
    EffectiveLoss {
        over,
        batches,
        index,
        first,
    }
}

/// P1, P3, P4 and P5 of document 01.
#[test]
fn sheet_of_examples() {
    let answer = loss_by_each(&digits("011010100"), 3, 1);
    assert_eq!(answer, Ok(loss(4, 7, 37_448, Some(0))));
    let answer = loss_by_each(&digits("000"), 3, 0);
    assert_eq!(answer, Ok(loss(0, 1, 0, None)));
    let answer = loss_by_each(&digits("111"), 1, 0);
    assert_eq!(answer, Ok(loss(3, 3, 65_535, Some(0))));
    for packet in 0..=2 {
        assert_eq!(loss_by_each(&[packet], 2, 0), Err((14, 0)));
    }
}

/// As many losses as the threshold are not over it, and batches slide by one packet.
#[test]
fn traps() {
    assert_eq!(loss_by_each(&digits("0110"), 4, 2), Ok(loss(0, 1, 0, None)));
    assert_eq!(
        loss_by_each(&digits("0110"), 2, 1),
        Ok(loss(1, 3, 21_845, Some(1)))
    );
    // By lost only, discarded packets do not count.
    assert_eq!(
        loss_by_each(&digits("2212"), 2, 0),
        Ok(loss(2, 3, 43_690, Some(1)))
    );
}

fn compare_all(length: u32, kinds: usize) {
    for trace in all_traces(length, kinds) {
        for (batch, threshold) in all_settings(length) {
            let answer = loss_by_each(&trace, batch, threshold).expect("an accepted trace");
            assert_eq!(answer.batches, u64::from(length - batch + 1));
            assert_eq!(answer.first.is_some(), answer.over > 0);
            assert!(threshold < batch || answer.over == 0);
        }
        assert_eq!(loss_by_each(&trace, length + 1, 0), Err((14, 0)));
    }
}

#[test]
fn all_traces_of_three_kinds() {
    for length in 1..=9 {
        compare_all(length, 3);
    }
}

#[test]
fn all_traces_of_received_and_lost() {
    for length in 10..=12 {
        compare_all(length, 2);
    }
}

#[test]
fn random_traces() {
    let mut random = Random::new("effective random_traces");
    for _ in 0..from_env("NUVASKOE_TRACES", TRACES) {
        let length = 1 + random.below(3_000);
        let trace = random_trace(&mut random, length);
        let all = length.min(1_024) as u32;
        for event in EVENTS {
            let (batch, threshold) = random_settings(&mut random, &trace, event);
            assert!(loss_both(&trace, batch, threshold, event).is_ok());
            for (batch, threshold) in [(1, 0), (1, 1), (all, 0), (batch, batch), (batch, 1_024)] {
                assert!(loss_both(&trace, batch, threshold, event).is_ok());
            }
        }
    }
}

/// One batch: the whole trace.
#[test]
fn batch_as_long_as_the_trace() {
    let mut random = Random::new("effective batch_as_long_as_the_trace");
    for length in (1..=40).chain([255, 256, 257, 1_022, 1_023, 1_024]) {
        let trace = random_losses(&mut random, length, 50, 20);
        let lost = trace.iter().filter(|packet| **packet == 1).count();
        for threshold in lost.saturating_sub(2)..=(lost + 2).min(1_024) {
            let expected = match threshold < lost {
                true => loss(1, 1, 65_535, Some(0)),
                false => loss(0, 1, 0, None),
            };
            let answer = loss_by_each(&trace, length as u32, threshold as u32);
            assert_eq!(answer, Ok(expected), "{length}");
        }
        if length < 1_024 {
            let longer = length as u32 + 1;
            assert_eq!(loss_by_each(&trace, longer, 0), Err((14, 0)));
        }
    }
}

/// So many batches the library settles together.
const STRIDE: usize = 64;

/// After the first batch a stride of them, or two, and one fewer or more: the one batch that is over the
/// threshold, or the one that is not, stands at every place.
#[test]
fn around_strides() {
    let near = |length| [length - 1, length, length + 1];
    for batch in [1, 2].into_iter().chain(near(STRIDE)) {
        for after in near(STRIDE).into_iter().chain(near(2 * STRIDE)) {
            for place in 0..=after {
                let parts =
                    |answer: Answer<EffectiveLoss>| answer.map(|loss| (loss.over, loss.first));
                let mut one = vec![0; batch + after];
                one[place..place + batch].fill(1);
                let answer = loss_by_each(&one, batch as u32, batch as u32 - 1);
                assert_eq!(parts(answer), Ok((1, Some(place))), "{batch} {after}");
                let but_one: Vec<u8> = one.iter().map(|packet| 1 - packet).collect();
                let first = usize::from(place == 0);
                let answer = loss_by_each(&but_one, batch as u32, 0);
                assert_eq!(
                    parts(answer),
                    Ok((after as u64, Some(first))),
                    "{batch} {after} {place}"
                );
            }
        }
    }
}

/// The losses of every batch stay at the threshold, or one above it.
#[test]
fn losses_at_the_threshold() {
    for (batch, lost) in [(2, 1), (10, 3), (100, 5), (130, 70)] {
        let trace: Vec<u8> = (0..1_000)
            .map(|place| u8::from(place % batch < lost))
            .collect();
        let batches = 1_001 - batch as u64;
        let answer = loss_by_each(&trace, batch as u32, lost as u32);
        assert_eq!(answer, Ok(loss(0, batches, 0, None)));
        let answer = loss_by_each(&trace, batch as u32, lost as u32 - 1);
        assert_eq!(answer, Ok(loss(batches, batches, 65_535, Some(0))));
    }
}

#[test]
fn longest_trace() {
    let lost = vec![1; LONGEST];
    assert_eq!(
        loss_by_each(&lost, 1, 0),
        Ok(loss(65_536, 65_536, 65_535, Some(0)))
    );
    assert_eq!(
        loss_by_each(&lost, 1_024, 1_023),
        Ok(loss(64_513, 64_513, 65_535, Some(0)))
    );
    assert_eq!(
        loss_by_each(&lost, 1_024, 1_024),
        Ok(loss(0, 64_513, 0, None))
    );
    // One loss, in the last batch alone.
    let mut last = vec![2; LONGEST];
    last[LONGEST - 1] = 1;
    assert_eq!(
        loss_by_each(&last, 1, 0),
        Ok(loss(1, 65_536, 0, Some(65_535)))
    );
    assert_eq!(
        loss_by_each(&last, 1_024, 0),
        Ok(loss(1, 64_513, 1, Some(64_512)))
    );
    let mut random = Random::new("effective longest_trace");
    for trace in [
        random_losses(&mut random, LONGEST, 5, 5),
        bursty_losses(&mut random, LONGEST),
    ] {
        for (batch, threshold) in [(1, 0), (2, 1), (100, 5), (100, 12), (1_024, 60)] {
            for event in EVENTS {
                assert!(loss_both(&trace, batch, threshold, event).is_ok());
            }
        }
    }
    for length in [LONGEST + 1, LONGEST + 2, 2 * LONGEST, 2 * LONGEST + 1] {
        assert_eq!(loss_by_each(&vec![3; length], 1, 0), Err((10, 0)));
    }
}

/// Every pair of settings in and out of range, on good, bad, empty and long traces.
#[test]
fn refusals_in_order() {
    let mut random = Random::new("effective refusals_in_order");
    for length in [0, 1, 2, 3, 1_022, 1_023, 1_024, 1_025, LONGEST + 1] {
        for bad in [None, Some(0), Some(length / 2), length.checked_sub(1)] {
            let mut trace = random_losses(&mut random, length, 30, 10);
            if let Some(byte) = bad.and_then(|place| trace.get_mut(place)) {
                *byte = 3;
            }
            for (batch, threshold) in pairs() {
                let answer = loss_by_each(&trace, batch, threshold);
                assert_eq!(answer.err(), refusal(&trace, batch, threshold, None));
            }
        }
    }
}

fn pairs() -> impl Iterator<Item = (u32, u32)> {
    SETTINGS.into_iter().flat_map(|batch| {
        SETTINGS
            .into_iter()
            .map(move |threshold| (batch, threshold))
    })
}

/// Every byte at every place, and the first of two; a bad byte comes before a long batch.
#[test]
fn bad_bytes() {
    for length in 1..=40 {
        for place in 0..length {
            for byte in 3..=u8::MAX {
                let mut trace = vec![byte % 3; length];
                trace[place] = byte;
                assert_eq!(loss_by_each(&trace, 1, 0), Err((9, place)));
                assert_eq!(loss_by_each(&trace, 1_024, 0), Err((9, place)));
                trace[length - 1] = 255 - byte / 2;
                assert_eq!(loss_by_each(&trace, 1, 0), Err((9, place)));
            }
        }
    }
    for place in [0, 1, 7, 8, 65_527, 65_528, 65_534, 65_535] {
        let mut trace = vec![1; LONGEST];
        trace[place] = 3;
        assert_eq!(loss_by_each(&trace, 1, 0), Err((9, place)));
    }
}

/// A trace need not begin or end at a whole word.
#[test]
fn parts_of_a_buffer() {
    let mut random = Random::new("effective parts_of_a_buffer");
    let buffer = random_losses(&mut random, 64, 40, 20);
    for start in 0..16 {
        for end in start + 1..=buffer.len() {
            let mut around = [255; 80];
            around[start..end].copy_from_slice(&buffer[start..end]);
            let batch = 1 + random.below(end - start) as u32;
            let answer = loss_by_each(&around[start..end], batch, random.below(4) as u32);
            assert!(answer.is_ok());
        }
    }
}
