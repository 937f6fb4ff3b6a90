//! The library's resend plan beside the independent one, and beside a search of all plans, by each
//! choice of what counts.

mod support;

use independent::{resend::best_by_search, trace::Event};
use support::{
    answers::Answer,
    batches::{
        all_settings, all_traces, bursty_losses, digits, loss_both, plan_both, plan_into,
        plan_lawfully, random_losses, random_settings, random_trace, refusal, LONGEST, SETTINGS,
    },
    events::{by_each, library_event, EVENTS},
    from_env, pattern, Random,
};

/// How many traces a test draws; `NUVASKOE_TRACES` overrides.
const TRACES: usize = 500;

/// The plan by each choice, of a trace in which that counts the packets lost in this one.
fn plan_by_each(trace: &[u8], batch: u32, threshold: u32, room: usize) -> (Answer<usize>, Vec<u8>) {
    by_each(trace, |trace, event| {
        plan_both(trace, (batch, threshold), event, room)
    })
}

/// The same of an accepted trace.
fn lawfully_by_each(trace: &[u8], batch: u32, threshold: u32) -> (usize, Vec<u8>) {
    by_each(trace, |trace, event| {
        plan_lawfully(trace, (batch, threshold), event)
    })
}

/// P2 of document 01, and the plans of P3, P4 and P5.
#[test]
fn sheet_of_examples() {
    let plan = lawfully_by_each(&digits("011010100"), 3, 1);
    assert_eq!(plan, (2, digits("001000100")));
    assert_eq!(lawfully_by_each(&digits("000"), 3, 0), (0, digits("000")));
    assert_eq!(lawfully_by_each(&digits("111"), 1, 0), (3, digits("111")));
    for packet in 0..=2 {
        assert_eq!(plan_by_each(&[packet], 2, 0, 9).0, Err((14, 0)));
    }
}

/// The plan marks nothing where no batch is over, and else something.
fn compare_all(length: u32, kinds: usize) {
    for trace in all_traces(length, kinds) {
        for (batch, threshold) in all_settings(length) {
            let (marks, _) = lawfully_by_each(&trace, batch, threshold);
            let loss = loss_both(&trace, batch, threshold, Event::Lost);
            assert_eq!(marks > 0, loss.expect("an accepted trace").over > 0);
            assert!(threshold < batch || marks == 0);
        }
        let answer = plan_by_each(&trace, length + 1, 0, 0).0;
        assert_eq!(answer, Err((14, 0)));
    }
}

#[test]
fn all_traces_of_three_kinds() {
    for length in 1..=9 {
        compare_all(length, 3);
    }
}

#[test]
fn all_traces_of_received_and_lost() {
    for length in 10..=12 {
        compare_all(length, 2);
    }
}

fn compare_with_search(length: u32, kinds: usize) {
    for trace in all_traces(length, kinds) {
        for (batch, threshold) in all_settings(length) {
            for event in EVENTS {
                let (_, plan) = plan_lawfully(&trace, (batch, threshold), event);
                let (b, t) = (u64::from(batch), u64::from(threshold));
                let best = best_by_search(&trace, b, t, event);
                assert_eq!(plan, best, "B {b}, T {t}, {event:?}, {trace:?}");
            }
        }
    }
}

#[test]
fn smallest_of_all_plans() {
    for length in 1..=9 {
        compare_with_search(length, 2);
    }
}

#[test]
fn smallest_of_all_plans_with_discarded_packets() {
    for length in 1..=6 {
        compare_with_search(length, 3);
    }
}

#[test]
fn random_traces() {
    let mut random = Random::new("resend random_traces");
    for _ in 0..from_env("NUVASKOE_TRACES", TRACES) {
        let length = 1 + random.below(3_000);
        let trace = random_trace(&mut random, length);
        let all = length.min(1_024) as u32;
        for event in EVENTS {
            let (batch, threshold) = random_settings(&mut random, &trace, event);
            plan_lawfully(&trace, (batch, threshold), event);
            for settings in [(1, 0), (1, 1), (all, 0), (batch, batch), (batch, 1_024)] {
                plan_lawfully(&trace, settings, event);
            }
            // With no loss allowed every counted packet is marked.
            let counted = trace.iter().filter(|packet| event.counts(**packet));
            assert_eq!(plan_lawfully(&trace, (batch, 0), event).0, counted.count());
        }
    }
}

/// What the buffer held plays no part, also where it looks like a plan.
#[test]
fn buffers_that_held_anything() {
    let mut random = Random::new("resend buffers_that_held_anything");
    for _ in 0..2_000 {
        let length = 1 + random.below(60);
        let trace = random_losses(&mut random, length, 40, 30);
        let event = random.one_of(&EVENTS);
        let settings = random_settings(&mut random, &trace, event);
        let (marks, plan) = plan_lawfully(&trace, settings, event);
        for room in [length, length + 1, length + 70] {
            for before in [vec![0; room], vec![1; room], random.bytes(room)] {
                let (answer, out) = plan_into(&trace, settings, event, &before);
                assert_eq!(answer, Ok(marks));
                assert_eq!(out[..length], plan);
            }
        }
        for room in [0, length / 2, length - 1] {
            for before in [vec![0; room], vec![1; room], random.bytes(room)] {
                let (answer, _) = plan_into(&trace, settings, event, &before);
                assert_eq!(answer, Err((8, 0)));
            }
        }
    }
}

/// One batch: the first `threshold` losses are kept, the rest marked.
#[test]
fn batch_as_long_as_the_trace() {
    let mut random = Random::new("resend batch_as_long_as_the_trace");
    for length in (1..=40).chain([255, 256, 257, 1_023, 1_024]) {
        let trace = random_losses(&mut random, length, 50, 20);
        for threshold in [0, 1, 2, length / 3, length / 2, length].map(|most| most.min(1_024)) {
            let mut kept = 0;
            let expected: Vec<u8> = trace
                .iter()
                .map(|packet| {
                    let mark = *packet == 1 && kept == threshold;
                    kept += usize::from(*packet == 1 && !mark);
                    u8::from(mark)
                })
                .collect();
            let (_, plan) = lawfully_by_each(&trace, length as u32, threshold as u32);
            assert!(plan == expected, "{length}, {threshold}");
        }
    }
}

#[test]
fn longest_trace() {
    let lost = vec![1; LONGEST];
    assert_eq!(lawfully_by_each(&lost, 1, 0), (65_536, lost.clone()));
    assert_eq!(lawfully_by_each(&lost, 1, 1).0, 0);
    // All but the first 1,000 of each 1,024.
    let (marks, plan) = lawfully_by_each(&lost, 1_024, 1_000);
    assert_eq!(marks, 64 * 24);
    let expected = |index: usize| u8::from(index % 1_024 >= 1_000);
    assert!((0..LONGEST).all(|index| plan[index] == expected(index)));
    assert_eq!(lawfully_by_each(&lost, 1_024, 1_024).0, 0);
    let mut random = Random::new("resend longest_trace");
    for trace in [
        random_losses(&mut random, LONGEST, 5, 5),
        bursty_losses(&mut random, LONGEST),
    ] {
        for settings in [(1, 0), (2, 1), (100, 5), (100, 12), (1_024, 60)] {
            for event in EVENTS {
                plan_lawfully(&trace, settings, event);
            }
        }
        assert_eq!(plan_by_each(&trace, 100, 5, LONGEST - 1).0, Err((8, 0)));
    }
    for length in [LONGEST + 1, LONGEST + 2, 2 * LONGEST, 2 * LONGEST + 1] {
        let answer = plan_by_each(&vec![3; length], 1, 0, length).0;
        assert_eq!(answer, Err((10, 0)));
    }
}

/// Every pair of settings in and out of range, on good, bad, empty and long traces, in room
/// that is too small, just enough and more.
#[test]
fn refusals_in_order() {
    let mut random = Random::new("resend refusals_in_order");
    for length in [0, 1, 2, 3, 1_023, 1_024, 1_025, LONGEST + 1] {
        for bad in [None, Some(0), Some(length / 2), length.checked_sub(1)] {
            let mut trace = random_losses(&mut random, length, 30, 10);
            if let Some(byte) = bad.and_then(|place| trace.get_mut(place)) {
                *byte = 3;
            }
            for (batch, threshold) in pairs() {
                // The long trace is refused before any room is looked at.
                let rooms = [0, length.saturating_sub(1), length, length + 5];
                let rooms = &rooms[..if length > LONGEST { 1 } else { 4 }];
                for room in rooms {
                    let answer = plan_by_each(&trace, batch, threshold, *room).0;
                    let expected = refusal(&trace, batch, threshold, Some(*room));
                    assert_eq!(answer.err(), expected);
                }
            }
        }
    }
}

fn pairs() -> impl Iterator<Item = (u32, u32)> {
    SETTINGS.into_iter().flat_map(|batch| {
        SETTINGS
            .into_iter()
            .map(move |threshold| (batch, threshold))
    })
}

/// A bad byte at every place comes before a long batch and before small room.
#[test]
fn bad_bytes() {
    for length in 1..=40 {
        for place in 0..length {
            for byte in [3, 4, 127, 128, 129, 254, 255] {
                let mut trace = vec![byte % 3; length];
                trace[place] = byte;
                trace[length - 1] = byte;
                for (batch, room) in [(1, length + 2), (1, 0), (1_024, length), (1_024, 0)] {
                    let (answer, out) = plan_by_each(&trace, batch, 0, room);
                    assert_eq!(answer, Err((9, place)));
                    assert_eq!(out, pattern(room));
                }
            }
        }
    }
}

/// A trace and a plan need not begin or end at a whole word.
#[test]
fn parts_of_a_buffer() {
    let mut random = Random::new("resend parts_of_a_buffer");
    for start in 0..16 {
        for length in 1..=40 {
            let mut around = [255; 80];
            let trace = random_losses(&mut random, length, 50, 20);
            around[start..start + length].copy_from_slice(&trace);
            let event = random.one_of(&EVENTS);
            let (batch, threshold) = random_settings(&mut random, &trace, event);
            let part = &around[start..start + length];
            let (marks, plan) = plan_lawfully(part, (batch, threshold), event);
            let mut out = pattern(80);
            let (_, rest) = out.split_at_mut(16 - start);
            let choice = library_event(event);
            let answer = nuvaskoe::resend::plan(&trace, batch, threshold, choice, rest);
            assert_eq!(answer, Ok(marks));
            assert_eq!(rest[..length], plan);
            let mut expected = pattern(80);
            expected[16 - start..16 - start + length].copy_from_slice(&plan);
            assert_eq!(out, expected);
        }
    }
}
