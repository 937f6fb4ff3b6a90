//! Traces packed and unpacked, and the effective loss and plan of packed ones: beside the
//! independent calls, and beside ours on the same traces in bytes.

use super::{
    print, race,
    support::{
        batches::{bursty_losses, random_losses, LONGEST},
        events::library_event,
        packed::{
            pack_both, packed_loss_both, packed_plan_into, unpack_both, word_pattern, Packed,
        },
        Random,
    },
};
use independent::{packed as theirs, trace::Event};
use nuvaskoe::{effective, packed as ours, resend, trace::Event::Lost};
use std::{hint::black_box, mem::size_of_val};

/// Batch lengths and thresholds, those of the byte form among them.
const SETTINGS: [(u32, u32); 4] = [(1, 0), (2, 1), (100, 5), (1_024, 52)];

/// The packets of a short trace.
pub const SHORT: usize = 100;

pub fn time() {
    let mut random = Random::new("bench packed");
    let few_lost = random_losses(&mut random, LONGEST, 5, 0);
    for (name, trace) in [("", &few_lost[..]), (", short", &few_lost[..SHORT])] {
        time_pack(&format!("5 % lost{name}"), trace, Event::Lost);
        time_unpack(&format!("5 % lost{name}"), trace);
    }
    // Those of a trace that was packed by lost only.
    let bursty = bursty_losses(&mut random, LONGEST).into_iter();
    let traces = [
        ("5 % lost", few_lost),
        ("bursty", bursty.map(|packet| packet % 2).collect()),
        ("all lost", vec![1; LONGEST]),
        ("none lost", vec![0; LONGEST]),
        ("every 2nd", [0, 1].repeat(LONGEST / 2)),
        ("half lost", random_losses(&mut random, LONGEST, 50, 0)),
    ];
    for (name, trace) in &traces {
        for settings in SETTINGS {
            time_loss(name, trace, settings);
        }
    }
    for (name, trace) in &traces {
        for settings in SETTINGS {
            time_plan(name, trace, settings);
        }
    }
}

pub fn time_pack(name: &str, trace: &[u8], event: Event) {
    let words = Packed::by(event, trace).words;
    let (mut our_words, mut their_words) = (word_pattern(words.len()), word_pattern(words.len()));
    let (answer, packed) = pack_both(trace, event, &our_words);
    assert!(answer == Ok(words.len()) && packed == words);
    let choice = library_event(event);
    let times = race(
        || ours::pack(black_box(trace), choice, black_box(&mut our_words)),
        || theirs::pack(black_box(trace), event, black_box(&mut their_words)),
    );
    assert!(our_words == words && their_words == words);
    print(name, trace.len(), "pack", times);
}

fn time_unpack(name: &str, trace: &[u8]) {
    let packed = Packed::of(trace);
    let (mut our_trace, mut their_trace) = (vec![7; trace.len()], vec![7; trace.len()]);
    assert_eq!(unpack_both(&packed, &our_trace).0, Ok(trace.len()));
    let Packed { words, packets } = packed;
    let times = race(
        || ours::unpack(black_box(&words), packets, black_box(&mut our_trace)),
        || theirs::unpack(black_box(&words), packets, black_box(&mut their_trace)),
    );
    assert!(our_trace == trace && their_trace == trace);
    print(name, size_of_val(&words[..]), "unpack", times);
}

/// The loss of a packed trace, then that beside ours of the same trace in bytes.
fn time_loss(name: &str, trace: &[u8], (batch, threshold): (u32, u32)) {
    let packed = Packed::of(trace);
    packed_loss_both(&packed, (batch, threshold)).expect("an accepted trace");
    let (Packed { words, packets }, size) = (&packed, size_of_val(&packed.words[..]));
    let (b, t) = (u64::from(batch), u64::from(threshold));
    let call = || ours::effective_loss(black_box(words), *packets, batch, threshold);
    let times = race(call, || {
        theirs::packed_loss(black_box(words), *packets, b, t)
    });
    print(&packed_name(name, batch, threshold), size, "loss", times);
    let times = race(call, || {
        effective::effective_loss(black_box(trace), batch, threshold, Lost)
    });
    print(&by_name(name, batch), size, "loss", times);
}

/// The plan of a packed trace, in the same way.
fn time_plan(name: &str, trace: &[u8], (batch, threshold): (u32, u32)) {
    let packed = Packed::of(trace);
    let (mut our_plan, mut their_plan) = (vec![7; trace.len()], vec![7; trace.len()]);
    let (answer, plan) = packed_plan_into(&packed, (batch, threshold), &our_plan);
    answer.expect("an accepted trace");
    let (Packed { words, packets }, size) = (&packed, size_of_val(&packed.words[..]));
    let (b, t) = (u64::from(batch), u64::from(threshold));
    let mut call = || {
        let out = black_box(&mut our_plan);
        ours::plan(black_box(words), *packets, batch, threshold, out)
    };
    let times = race(&mut call, || {
        theirs::packed_plan(black_box(words), *packets, b, t, black_box(&mut their_plan))
    });
    print(&packed_name(name, batch, threshold), size, "plan", times);
    let mut plan_of_bytes = vec![7; trace.len()];
    let times = race(&mut call, || {
        let out = black_box(&mut plan_of_bytes);
        resend::plan(black_box(trace), batch, threshold, Lost, out)
    });
    assert!(our_plan == plan && their_plan == plan && plan_of_bytes == plan);
    print(&by_name(name, batch), size, "plan", times);
}

fn packed_name(name: &str, batch: u32, threshold: u32) -> String {
    format!("packed {name}, B {batch}, T {threshold}")
}

fn by_name(name: &str, batch: u32) -> String {
    format!("{name}, B {batch}, packed by bytes")
}
