//! Packed traces at the limits of lengths, words, bits and rooms, and the refusals of the four calls
//! in order, beside the independent ones.

mod support;

use independent::trace::Event;
use std::collections::BTreeSet;
use support::{
    answers::Answer,
    batches::{LONGEST, SETTINGS},
    drawn_packed::{any_packed, any_settings, any_trace, followed_by_any, good_packed, room},
    events::{any_event, event_numbered, EVENTS},
    from_env,
    packed::{
        pack_both, pack_numbered, packed_loss_both, packed_plan_into, unpack_both, word_pattern,
        Packed, WORD,
    },
    pattern, Random,
};

/// How many inputs a test draws; `NUVASKOE_TRACES` overrides.
const TRACES: usize = 5_000;

fn traces() -> usize {
    from_env("NUVASKOE_TRACES", TRACES)
}

/// What packing comes to, by any event.
fn expected_pack(trace: &[u8], room: usize) -> Answer<usize> {
    let bad = trace.iter().position(|packet| *packet > 2);
    let needed = trace.len().div_ceil(WORD);
    match (trace.len(), bad) {
        (0 | 65_537.., _) => Err((10, 0)),
        (_, Some(place)) => Err((9, place)),
        _ if needed > room => Err((8, 0)),
        _ => Ok(needed),
    }
}

/// What unpacking comes to.
fn expected_unpack(packed: &Packed, room: usize) -> Answer<usize> {
    match packed.refusal() {
        Some(refusal) => Err(refusal),
        None if packed.packets > room => Err((8, 0)),
        None => Ok(packed.packets),
    }
}

/// The three calls that read words are refused so, whatever the settings, room and words behind,
/// and change nothing.
fn refused(packed: &Packed, refusal: (u32, usize)) {
    let rooms = [0, 1, packed.packets.min(300), packed.packets.min(300) + 1];
    for words in [&[][..], &[0], &[u64::MAX, u64::MAX]] {
        // Behind words that are too few, more would be read.
        if refusal.0 == 8 && !words.is_empty() {
            continue;
        }
        let packed = packed.followed(words);
        for room in rooms {
            let (answer, out) = unpack_both(&packed, &pattern(room));
            assert_eq!((answer, out), (Err(refusal), pattern(room)));
        }
        for settings in [(1, 0), (1_024, 1_024), (2, 1)] {
            assert_eq!(packed_loss_both(&packed, settings), Err(refusal));
            for room in rooms {
                let (answer, out) = packed_plan_into(&packed, settings, &pattern(room));
                assert_eq!((answer, out), (Err(refusal), pattern(room)));
            }
        }
    }
}

/// None, and more than 65,536: before anything else of the words or the trace.
#[test]
fn numbers_of_packets() {
    for packets in [
        0,
        65_537,
        65_538,
        65_600,
        131_072,
        1 << 32,
        1 << 58,
        usize::MAX,
    ] {
        for words in [0, 1, 1_024, 1_025, 2_049] {
            let words = vec![u64::MAX; words];
            refused(&Packed { words, packets }, (10, 0));
        }
    }
    for packets in [0, 65_537, 65_600, 131_072] {
        for byte in [0, 1, 2, 255] {
            for room in [0, 1, 1_024, 1_025, 2_048] {
                for event in EVENTS {
                    let answer = pack_both(&vec![byte; packets], event, &word_pattern(room));
                    assert_eq!(answer, (Err((10, 0)), word_pattern(room)));
                }
            }
        }
    }
}

/// One word fewer than are needed, and none: before the bits past the end.
#[test]
fn too_few_words() {
    for packets in (1..=200).chain([1_024, 65_472, 65_473, 65_535, LONGEST]) {
        let needed = packets.div_ceil(WORD);
        for count in [0, needed / 2, needed - 1] {
            let words = vec![u64::MAX; count];
            refused(&Packed { words, packets }, (8, 0));
        }
    }
}

/// Each bit past the end, with none or all of those above it, in the last needed word alone.
#[test]
fn every_bit_past_the_end() {
    for packets in (1..=192_usize).chain([65_473, 65_500, 65_535]) {
        let needed = packets.div_ceil(WORD);
        for bit in packets..WORD * needed {
            for past in [1 << (bit % WORD), u64::MAX << (bit % WORD)] {
                let mut packed = Packed::of(&vec![1; packets]);
                packed.words[needed - 1] |= past;
                refused(&packed, (9, bit));
            }
        }
    }
}

/// The words behind the last needed one have no say: a one that stands just there, and any.
#[test]
fn words_behind() {
    let mut random = Random::new("packed_limits words_behind");
    for round in 0..traces() / 10 {
        let packed = match round {
            // No bit of these is past the end.
            0..=9 => Packed::of(&vec![1; WORD * (round + 1)]),
            _ => good_packed(&mut random),
        };
        let settings = any_settings(&mut random, &packed);
        let plain = (
            unpack_both(&packed, &pattern(packed.packets)),
            packed_loss_both(&packed, settings),
            packed_plan_into(&packed, settings, &pattern(packed.packets)),
        );
        for more in [
            packed.followed(&[1]),
            packed.followed(&[u64::MAX; 9]),
            followed_by_any(&mut random, &packed, 3),
        ] {
            let followed = (
                unpack_both(&more, &pattern(packed.packets)),
                packed_loss_both(&more, settings),
                packed_plan_into(&more, settings, &pattern(packed.packets)),
            );
            assert!(followed == plain);
        }
    }
}

/// Every byte at every place of a trace: 0, 1 and 2 are packets, and any other is refused.
#[test]
fn every_byte_of_a_trace() {
    for place in 0..70 {
        for byte in 0..=u8::MAX {
            for event in EVENTS {
                let mut trace = [0, 1, 2, 1, 0].repeat(14);
                trace[place] = byte;
                for room in [0, 1, 2, 3] {
                    let answer = pack_both(&trace, event, &word_pattern(room)).0;
                    assert_eq!(answer, expected_pack(&trace, room), "{byte} at {place}");
                }
                // The first of two is told.
                trace[69] = 3;
                let answer = pack_both(&trace, event, &word_pattern(2)).0;
                assert_eq!(answer, expected_pack(&trace, 2), "{byte} at {place}");
            }
        }
    }
    for place in [255, 256, 4_095, 32_768, LONGEST - 1] {
        let mut trace = vec![1; LONGEST];
        trace[place] = 2;
        assert_eq!(pack_both(&trace, Event::Lost, &[]).0, Err((8, 0)));
        trace[place] = 3;
        assert_eq!(pack_both(&trace, Event::Lost, &[]).0, Err((9, place)));
    }
}

/// Every room from none to more than is needed, for the three calls that fill one.
#[test]
fn every_room() {
    let mut random = Random::new("packed_limits every_room");
    for length in [1, 2, 63, 64, 65, 127, 128, 129, 190] {
        let trace: Vec<u8> = (0..length).map(|_| random.below(3) as u8).collect();
        let packed = Packed::of(&trace);
        for room in 0..6 {
            for event in EVENTS {
                let answer = pack_both(&trace, event, &word_pattern(room)).0;
                assert_eq!(answer, expected_pack(&trace, room));
            }
        }
        for room in 0..length + 70 {
            let answer = unpack_both(&packed, &pattern(room)).0;
            assert_eq!(answer, expected_unpack(&packed, room));
            let answer = packed_plan_into(&packed, (1, 0), &pattern(room)).0;
            let lost = trace.iter().filter(|packet| **packet == 1).count();
            let expected = if room < length { Err((8, 0)) } else { Ok(lost) };
            assert_eq!(answer, expected);
        }
    }
    let longest = Packed::of(&vec![1; LONGEST]);
    for room in [0, LONGEST - 1] {
        assert_eq!(unpack_both(&longest, &pattern(room)).0, Err((8, 0)));
        let answer = packed_plan_into(&longest, (1, 0), &pattern(room)).0;
        assert_eq!(answer, Err((8, 0)));
    }
}

/// What the buffers held plays no part, also where it looks like an answer.
#[test]
fn buffers_that_held_anything() {
    let mut random = Random::new("packed_limits buffers_that_held_anything");
    for _ in 0..traces() / 10 {
        let packed = good_packed(&mut random);
        let (packets, trace) = (packed.packets, packed.trace());
        let settings = any_settings(&mut random, &packed);
        let expected = packed_plan_into(&packed, settings, &pattern(packets));
        for byte in [0, 1, 255] {
            let before = vec![byte; packets];
            let (answer, out) = packed_plan_into(&packed, settings, &before);
            assert_eq!(answer, expected.0);
            assert!(answer.is_err() || out == expected.1);
            assert_eq!(unpack_both(&packed, &before).1, trace);
        }
        let needed = packets.div_ceil(WORD);
        for word in [0, u64::MAX] {
            let (_, words) = pack_both(&trace, Event::Lost, &vec![word; needed]);
            assert!(words == packed.words[..needed]);
        }
    }
}

/// Every pair of settings in and out of range, on words that are good and bad for each cause.
#[test]
fn settings_in_and_out_of_range() {
    let long = Packed::of(&vec![1; 1_024]);
    let mut past = Packed::of(&[0, 1, 1]);
    past.words[0] |= 1 << 40;
    let few = Packed {
        words: vec![u64::MAX],
        packets: 65,
    };
    let none = Packed {
        words: vec![u64::MAX],
        packets: 0,
    };
    for packed in [Packed::of(&[1; 3]), long, past, few, none] {
        for batch in SETTINGS {
            for threshold in SETTINGS {
                let settings = (batch, threshold);
                let answer = packed_loss_both(&packed, settings);
                assert_eq!(answer.err(), packed.batch_refusal(settings, None));
                for room in [0, packed.packets.saturating_sub(1), packed.packets] {
                    let answer = packed_plan_into(&packed, settings, &pattern(room)).0;
                    assert_eq!(answer.err(), packed.batch_refusal(settings, Some(room)));
                }
            }
        }
    }
}

/// The refusals of the plan, in their order; the two 8s are that of the words and that of the room.
const ORDER: [(&str, u32); 6] = [
    ("setting", 15),
    ("packets", 10),
    ("words", 8),
    ("bit", 9),
    ("batch", 14),
    ("room", 8),
];

/// All sets of faults: the first in order is the answer. Too many packets need more words than there
/// are and more room, and too few words have no bit past the end, but those come first.
#[test]
fn faults_in_all_combinations() {
    for set in 0..1u32 << ORDER.len() {
        let has = |fault: &str| {
            let place = ORDER.iter().position(|(other, _)| *other == fault);
            set >> place.expect("a fault of the plan") & 1 == 1
        };
        let mut packed = Packed::of(&[1; 70]);
        if has("bit") {
            packed.words[1] |= 1 << 20;
        }
        if has("words") {
            packed.words.truncate(1);
        }
        if has("packets") {
            packed.packets = LONGEST + 1;
        }
        let batch = if has("batch") { 71 } else { 70 };
        let settings = (batch, if has("setting") { 1_025 } else { 69 });
        let room = if has("room") { 69 } else { 70 };
        let first = ORDER.into_iter().find(|(fault, _)| has(fault));
        let refusal = |(fault, number)| (number, if fault == "bit" { 84 } else { 0 });
        let expected = first.map_or(Ok(1), |fault| Err(refusal(fault)));
        let answer = packed_plan_into(&packed, settings, &pattern(room)).0;
        assert_eq!(answer, expected, "faults {set:b}");
        // Effective loss has no room, and unpacking no settings.
        if !has("room") {
            let answer = packed_loss_both(&packed, settings).map(|loss| loss.over as usize);
            assert_eq!(answer, expected, "faults {set:b}");
        }
        if !has("setting") && !has("batch") {
            let answer = unpack_both(&packed, &pattern(room)).0;
            assert_eq!(answer, expected.map(|_| 70), "faults {set:b}");
        }
    }
}

/// The same of packing: 15, 10, 9, 8.
#[test]
fn faults_of_packing() {
    for set in 0..16 {
        let [none, long, bad, short] = [0, 1, 2, 3].map(|place| set >> place & 1 == 1);
        let mut trace = vec![1; if long { LONGEST + 1 } else { 70 }];
        if bad {
            trace[40] = 3;
        }
        let room = if short { 1 } else { 2 };
        let expected = match (none, long, bad, short) {
            (true, ..) => Err((15, 0)),
            (_, true, ..) => Err((10, 0)),
            (_, _, true, _) => Err((9, 40)),
            (.., true) => Err((8, 0)),
            _ => Ok(2),
        };
        for event in if none { [0, 4, 5] } else { [1, 2, 3] } {
            let (answer, out) = pack_numbered(&trace, event, &word_pattern(room));
            assert_eq!(answer, expected, "faults {set:b}, event {event}");
            assert!(answer.is_ok() || out == word_pattern(room));
        }
    }
}

/// Any input meets every refusal of every call.
#[test]
fn any_input() {
    let mut random = Random::new("packed_limits any_input");
    let mut seen = [(); 4].map(|()| BTreeSet::new());
    let number = |refusal: Option<(u32, usize)>| refusal.map_or(0, |(number, _)| number);
    for _ in 0..traces() {
        let (trace, event) = (any_trace(&mut random), any_event(&mut random));
        let words = room(&mut random, trace.len().div_ceil(WORD));
        let answer = pack_numbered(&trace, event, &word_pattern(words)).0;
        match event_numbered(event) {
            Some(_) => assert_eq!(answer, expected_pack(&trace, words)),
            None => assert_eq!(answer, Err((15, 0))),
        }
        seen[0].insert(number(answer.err()));
        let packed = any_packed(&mut random);
        let bytes = room(&mut random, packed.packets.min(LONGEST));
        let answer = unpack_both(&packed, &pattern(bytes)).0;
        assert_eq!(answer, expected_unpack(&packed, bytes));
        seen[1].insert(number(answer.err()));
        let settings = any_settings(&mut random, &packed);
        let answer = packed_loss_both(&packed, settings);
        assert_eq!(answer.err(), packed.batch_refusal(settings, None));
        seen[2].insert(number(answer.err()));
        let answer = packed_plan_into(&packed, settings, &pattern(bytes)).0;
        assert_eq!(answer.err(), packed.batch_refusal(settings, Some(bytes)));
        seen[3].insert(number(answer.err()));
    }
    let all = [
        BTreeSet::from([0, 8, 9, 10, 15]),
        BTreeSet::from([0, 8, 9, 10]),
        BTreeSet::from([0, 8, 9, 10, 14, 15]),
        BTreeSet::from([0, 8, 9, 10, 14, 15]),
    ];
    assert!(traces() < TRACES || seen == all, "{seen:?}");
}
