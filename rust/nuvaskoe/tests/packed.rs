//! Traces packed and unpacked, and the effective loss and plan of packed ones, beside the
//! independent calls and beside the byte form: document 02, ticket 6, by the choices of ticket 7.

mod support;

use independent::{effective::EffectiveLoss, trace::Event};
use support::{
    batches::{
        all_settings, all_traces, bursty_losses, digits, loss_both, plan_lawfully, random_settings,
        LONGEST,
    },
    drawn_packed::{any_length, good_packed, random_losses},
    events::{library_event, make_late, recast, EVENTS},
    from_env,
    packed::{
        pack_both, packed_loss_both, packed_plan_into, unpack_both, word_pattern, Packed, WORD,
    },
    pattern, Random,
};

/// How many traces a test draws; `NUVASKOE_TRACES` overrides.
const TRACES: usize = 1_000;

fn traces() -> usize {
    from_env("NUVASKOE_TRACES", TRACES)
}

/// The words of a trace without discarded packets, which both conversions give with just enough
/// room and with more: packing by lost only and by either, and by each choice a trace of which that
/// counts the packets lost in this one.
fn both_ways(trace: &[u8]) -> Packed {
    let packed = Packed::of(trace);
    let needed = packed.words.len();
    for more in [0, 1, 5] {
        let alike = EVENTS.map(|event| (recast(trace, event), event));
        for (trace, event) in alike.into_iter().chain([(trace.to_vec(), Event::Either)]) {
            let (answer, words) = pack_both(&trace, event, &word_pattern(needed + more));
            assert_eq!(answer, Ok(needed));
            assert!(words[..needed] == packed.words);
        }
        let (answer, bytes) = unpack_both(&packed, &pattern(trace.len() + more));
        assert_eq!(answer, Ok(trace.len()));
        assert!(bytes[..trace.len()] == *trace);
    }
    packed
}

/// The loss and the plan of a packed trace that is accepted, as the byte form has them.
fn figures(packed: &Packed, settings: (u32, u32)) -> (EffectiveLoss, Vec<u8>) {
    let loss = packed_loss_both(packed, settings).expect("an accepted trace");
    let (answer, plan) = packed_plan_into(packed, settings, &pattern(packed.packets));
    let marks = answer.expect("an accepted trace");
    assert_eq!(marks, plan.iter().filter(|mark| **mark == 1).count());
    assert_eq!(marks > 0, loss.over > 0);
    (loss, plan)
}

/// The same, beside the byte form as both implementations have it, by each choice of what counts.
fn same(trace: &[u8], (batch, threshold): (u32, u32)) {
    for event in EVENTS {
        let (loss, plan) = figures(&Packed::by(event, trace), (batch, threshold));
        assert_eq!(loss_both(trace, batch, threshold, event), Ok(loss));
        assert!(plan_lawfully(trace, (batch, threshold), event).1 == plan);
    }
}

#[test]
fn by_hand() {
    // Packets 1, 2, 4 and 6: 2 + 4 + 16 + 64.
    assert_eq!(both_ways(&digits("011010100")).words, [86]);
    assert_eq!(both_ways(&[0]).words, [0]);
    assert_eq!(both_ways(&[1]).words, [1]);
    assert_eq!(both_ways(&[1; 63]).words, [u64::MAX >> 1]);
    assert_eq!(both_ways(&[1; 64]).words, [u64::MAX]);
    assert_eq!(both_ways(&[1; 65]).words, [u64::MAX, 1]);
    // Packets 7, 72 and 128, each in a word of its own.
    let mut trace = [0; 129];
    for place in [7, 72, 128] {
        trace[place] = 1;
    }
    assert_eq!(both_ways(&trace).words, [0x80, 0x100, 1]);
}

/// P1 to P5 of document 01, packed.
#[test]
fn sheet_of_examples() {
    let (loss, plan) = figures(&Packed::of(&digits("011010100")), (3, 1));
    assert_eq!((loss.over, loss.batches), (4, 7));
    assert_eq!((loss.index, loss.first), (37_448, Some(0)));
    assert_eq!(plan, digits("001000100"));
    let (loss, plan) = figures(&Packed::of(&[0; 3]), (3, 0));
    assert_eq!((loss.over, loss.batches, loss.first), (0, 1, None));
    assert_eq!(plan, [0; 3]);
    let (loss, plan) = figures(&Packed::of(&[1; 3]), (1, 0));
    assert_eq!((loss.over, loss.index, loss.first), (3, 65_535, Some(0)));
    assert_eq!(plan, [1; 3]);
    assert_eq!(packed_loss_both(&Packed::of(&[1]), (2, 0)), Err((14, 0)));
}

/// Losses on both sides of the end of a word meet in one batch, or in none.
#[test]
fn across_words() {
    let trace = |length: usize, lost: &[usize]| {
        let mut trace = vec![0; length];
        lost.iter().for_each(|place| trace[*place] = 1);
        trace
    };
    let (loss, plan) = figures(&Packed::of(&trace(65, &[63, 64])), (2, 1));
    assert_eq!((loss.over, loss.first), (1, Some(63)));
    assert_eq!(plan, trace(65, &[64]));
    let (loss, plan) = figures(&Packed::of(&trace(66, &[0, 64])), (65, 1));
    assert_eq!((loss.over, loss.first), (1, Some(0)));
    assert_eq!(plan, trace(66, &[64]));
    let (loss, _) = figures(&Packed::of(&trace(66, &[0, 64])), (64, 1));
    assert_eq!((loss.over, loss.first), (0, None));
}

#[test]
fn every_short_trace() {
    for length in 1..=9 {
        for trace in all_traces(length, 2) {
            both_ways(&trace);
            for settings in all_settings(length) {
                same(&trace, settings);
            }
        }
    }
}

/// One packet unlike the others at every place of every length up to some words, or none.
#[test]
fn every_place() {
    for length in 1..=200 {
        for place in 0..=length {
            for byte in [0, 1] {
                let mut trace = vec![byte; length];
                if place < length {
                    trace[place] = 1 - byte;
                }
                both_ways(&trace);
            }
        }
    }
}

/// Every trace of eight packets about the end of a word, behind packets that are all alike.
#[test]
fn every_end_about_a_word() {
    for (before, byte) in [(60, 0), (60, 1), (56, 1), (124, 0)] {
        for end in all_traces(8, 2) {
            let trace = [vec![byte; before], end].concat();
            both_ways(&trace);
            let length = trace.len() as u32;
            for batch in [1, 2, 3, 8, 55, 63, 64, 65, length - 1, length] {
                for threshold in [0, 1, 2, 4, batch - 1, batch] {
                    if batch <= length {
                        figures(&Packed::of(&trace), (batch, threshold));
                    }
                }
            }
        }
    }
}

/// The one batch that is over the threshold, or the one that is not, at every place: the library
/// takes 64 packets together, and may take as many batches.
#[test]
fn around_words() {
    let near = |length| [length - 1, length, length + 1];
    for batch in [1, 2].into_iter().chain(near(WORD)).chain([2 * WORD]) {
        for after in near(WORD).into_iter().chain(near(2 * WORD)) {
            for place in 0..=after {
                let mut one = vec![0; batch + after];
                one[place..place + batch].fill(1);
                let settings = (batch as u32, batch as u32 - 1);
                let (loss, plan) = figures(&Packed::of(&one), settings);
                assert_eq!((loss.over, loss.first), (1, Some(place)));
                assert_eq!(
                    plan.iter().position(|mark| *mark == 1),
                    Some(place + batch - 1)
                );
                let but_one: Vec<u8> = one.iter().map(|packet| 1 - packet).collect();
                let (loss, _) = figures(&Packed::of(&but_one), (batch as u32, 0));
                let first = usize::from(place == 0);
                assert_eq!((loss.over, loss.first), (after as u64, Some(first)));
            }
        }
    }
}

#[test]
fn random_traces() {
    let mut random = Random::new("packed random_traces");
    let mut some_over = 0;
    for _ in 0..traces() {
        let length = any_length(&mut random);
        let trace = random_losses(&mut random, length);
        both_ways(&trace);
        let (batch, threshold) = random_settings(&mut random, &trace, Event::Lost);
        let mut late = trace.clone();
        make_late(&mut random, &mut late);
        same(&late, (batch, threshold));
        let all = length.min(1_024) as u32;
        for settings in [(1, 0), (1, 1), (all, 0), (batch, batch), (batch, 1_024)] {
            figures(&Packed::of(&trace), settings);
        }
        let (loss, _) = figures(&Packed::of(&trace), (batch, threshold));
        some_over += usize::from(loss.over > 0 && loss.over < loss.batches);
    }
    // Enough with some batches over and some not.
    assert!(traces() < TRACES || some_over > TRACES / 8, "{some_over}");
}

/// Words to bytes and back are the words, whatever the packets are.
#[test]
fn random_words() {
    let mut random = Random::new("packed random_words");
    for _ in 0..traces() {
        let packets = any_length(&mut random);
        let mut words: Vec<u64> = (0..packets.div_ceil(WORD)).map(|_| random.draw()).collect();
        if let (Some(last), 1..) = (words.last_mut(), packets % WORD) {
            *last &= (1 << (packets % WORD)) - 1;
        }
        let packed = Packed { words, packets };
        let (answer, trace) = unpack_both(&packed, &pattern(packets));
        assert_eq!(answer, Ok(packets));
        assert_eq!(
            pack_both(&trace, Event::Lost, &packed.words).1,
            packed.words
        );
        assert!(both_ways(&trace).words == packed.words);
    }
}

/// With the marked packets received no batch is over, and with one mark fewer some is.
#[test]
fn plans_of_packed_traces() {
    let mut random = Random::new("packed plans_of_packed_traces");
    for _ in 0..traces() / 5 {
        let packed = good_packed(&mut random);
        let trace = packed.trace();
        let settings = random_settings(&mut random, &trace, Event::Lost);
        let (_, plan) = figures(&packed, settings);
        let resent = |kept: Option<usize>| {
            let left = trace.iter().zip(&plan).enumerate();
            let left = left.map(|(place, (packet, mark))| match Some(place) == kept {
                true => *packet,
                false => packet - mark,
            });
            let left: Vec<u8> = left.collect();
            packed_loss_both(&Packed::of(&left), settings).expect("an accepted trace")
        };
        assert_eq!(resent(None).over, 0);
        if let Some(first) = plan.iter().position(|mark| *mark == 1) {
            assert!(resent(Some(first)).over > 0);
        }
    }
}

#[test]
fn longest_trace() {
    let lost = vec![1; LONGEST];
    let packed = both_ways(&lost);
    assert_eq!(packed.words, vec![u64::MAX; 1_024]);
    let (loss, plan) = figures(&packed, (1, 0));
    assert_eq!(
        (loss.over, loss.batches, loss.index),
        (65_536, 65_536, 65_535)
    );
    assert!(plan == lost);
    // All but the first 1,000 of each 1,024.
    let (_, plan) = figures(&packed, (1_024, 1_000));
    let expected = |index: usize| u8::from(index % 1_024 >= 1_000);
    assert!((0..LONGEST).all(|index| plan[index] == expected(index)));
    let mut last = vec![0; LONGEST];
    last[LONGEST - 1] = 1;
    let packed = both_ways(&last);
    assert_eq!(packed.words[1_023], 1 << 63);
    let (loss, _) = figures(&packed, (1_024, 0));
    assert_eq!((loss.over, loss.index, loss.first), (1, 1, Some(64_512)));
    let mut random = Random::new("packed longest_trace");
    let bursty = bursty_losses(&mut random, LONGEST);
    for settings in [(1, 0), (2, 1), (100, 5), (100, 12), (1_024, 60)] {
        same(&bursty, settings);
    }
    let bursty = bursty.into_iter().map(|packet| packet % 2);
    for trace in [bursty.collect(), random_losses(&mut random, LONGEST)] {
        for settings in [(1, 0), (100, 5), (1_024, 60)] {
            figures(&Packed::of(&trace), settings);
        }
        for length in [LONGEST - 1, LONGEST - 63, LONGEST - 64] {
            both_ways(&trace[..length]);
        }
    }
}

/// A trace, a plan and words start anywhere.
#[test]
fn parts_of_buffers() {
    let mut random = Random::new("packed parts_of_buffers");
    for start in 0..16 {
        for length in [1, 7, 8, 9, 63, 64, 65, 130] {
            let trace = random_losses(&mut random, length);
            let mut around = vec![255; start + length + 20];
            around[start..start + length].copy_from_slice(&trace);
            let packed = both_ways(&around[start..start + length]);
            let mut words = word_pattern(start + 5);
            let event = random.one_of(&EVENTS);
            let (recast, choice) = (recast(&trace, event), library_event(event));
            let answer = nuvaskoe::packed::pack(&recast, choice, &mut words[start..]);
            let needed = packed.words.len();
            assert_eq!(answer, Ok(needed));
            assert_eq!(words[..start], word_pattern(start + 5)[..start]);
            assert_eq!(words[start..start + needed], packed.words);
            let mut out = pattern(start + length + 9);
            let answer = nuvaskoe::packed::unpack(&words[start..], length, &mut out[start..]);
            assert_eq!(answer, Ok(length));
            let mut expected = pattern(start + length + 9);
            expected[start..start + length].copy_from_slice(&trace);
            assert_eq!(out, expected);
            // With T 0 every lost packet has a mark, so that the plan is the trace.
            let mut plan = pattern(start + length + 9);
            let marks = trace.iter().filter(|packet| **packet == 1).count();
            let answer = nuvaskoe::packed::plan(&words[start..], length, 1, 0, &mut plan[start..]);
            assert_eq!(answer, Ok(marks));
            assert_eq!(plan, expected);
        }
    }
}
