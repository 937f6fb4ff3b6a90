//! The library's effective loss and resend plan beside the independent ones, what holds of
//! every answer, and traces.

use super::{
    answers::{ours, refusal as refused, theirs, Answer},
    boundary::{Loss, Marks},
    events::{event_numbered, library_event, make_late, number_of},
    pattern, raw, Random,
};
use independent::{
    effective::{self, EffectiveLoss},
    resend,
    trace::Event,
};

/// The most packets of a trace.
pub const LONGEST: usize = 65_536;

/// Batch lengths and thresholds around their limits, and such that fit fewer bits.
pub const SETTINGS: [u32; 14] = [
    0,
    1,
    2,
    3,
    1_023,
    1_024,
    1_025,
    65_535,
    65_536,
    65_537,
    66_560,
    1 << 31,
    (1 << 31) | 1,
    u32::MAX,
];

/// The effective loss on which all agree. An event that is none is refused.
pub fn loss_numbered(
    trace: &[u8],
    batch: u32,
    threshold: u32,
    event: u32,
) -> Answer<EffectiveLoss> {
    let expected = match event_numbered(event) {
        None => Err((15, 0)),
        Some(event) => safe_loss(trace, batch, threshold, event),
    };
    let whole = raw::effective_loss(trace, batch, threshold, event);
    assert!(
        whole == whole_loss(&expected),
        "{whole:?} and {expected:?}: event {event}, {}",
        shown(trace, batch, threshold)
    );
    expected
}

/// The same of an event.
pub fn loss_both(trace: &[u8], batch: u32, threshold: u32, event: Event) -> Answer<EffectiveLoss> {
    loss_numbered(trace, batch, threshold, number_of(event))
}

/// That of the library's safe call and of both independent forms.
fn safe_loss(trace: &[u8], batch: u32, threshold: u32, event: Event) -> Answer<EffectiveLoss> {
    let choice = library_event(event);
    let library = nuvaskoe::effective::effective_loss(trace, batch, threshold, choice);
    let library = ours(library).map(independent_loss);
    let (b, t) = (u64::from(batch), u64::from(threshold));
    for independent in [
        effective::effective_loss(trace, b, t, event),
        effective::running_effective_loss(trace, b, t, event),
    ] {
        let independent = theirs(independent);
        assert!(
            library == independent,
            "{library:?} and {independent:?}: {event:?}, {}",
            shown(trace, batch, threshold)
        );
    }
    library
}

/// A library's answer as the independent one has it.
pub fn independent_loss(loss: nuvaskoe::effective::EffectiveLoss) -> EffectiveLoss {
    EffectiveLoss {
        over: loss.over as u64,
        batches: loss.batches as u64,
        index: loss.index.0,
        first: loss.first,
    }
}

/// The whole answer of the boundary: all after the refusal is 0 where refused.
pub fn whole_loss(answer: &Answer<EffectiveLoss>) -> Loss {
    let number = |part: fn(&EffectiveLoss) -> u64| answer.as_ref().map_or(0, part);
    let first = answer.map_or(None, |loss| loss.first);
    Loss {
        refusal: refused(answer),
        over: number(|loss| loss.over) as usize,
        batches: number(|loss| loss.batches) as usize,
        first: first.unwrap_or(0),
        index: number(|loss| loss.index.into()) as u32,
        found: first.is_some().into(),
    }
}

/// Plans with all into equal buffers that hold `before`, and gives the answer and the buffer on
/// which they agree. Bytes after the plan, and all where refused, keep what they held. An event
/// that is none is refused.
pub fn plan_numbered(
    trace: &[u8],
    (batch, threshold): (u32, u32),
    event: u32,
    before: &[u8],
) -> (Answer<usize>, Vec<u8>) {
    let (expected, out) = match event_numbered(event) {
        None => (Err((15, 0)), before.to_vec()),
        Some(event) => safe_plan(trace, (batch, threshold), event, before),
    };
    let mut whole_out = before.to_vec();
    let whole = raw::resend_plan(trace, batch, threshold, event, &mut whole_out);
    let shown = || format!("event {event}, {}", shown(trace, batch, threshold));
    assert!(whole == whole_marks(&expected), "{whole:?}: {}", shown());
    assert!(whole_out == out, "{}", shown());
    (expected, out)
}

/// The same of an event.
pub fn plan_into(
    trace: &[u8],
    settings: (u32, u32),
    event: Event,
    before: &[u8],
) -> (Answer<usize>, Vec<u8>) {
    plan_numbered(trace, settings, number_of(event), before)
}

/// The same with the library's safe call and the independent one.
fn safe_plan(
    trace: &[u8],
    (batch, threshold): (u32, u32),
    event: Event,
    before: &[u8],
) -> (Answer<usize>, Vec<u8>) {
    let (mut library_out, mut independent_out) = (before.to_vec(), before.to_vec());
    let choice = library_event(event);
    let library = nuvaskoe::resend::plan(trace, batch, threshold, choice, &mut library_out);
    let library = ours(library);
    let (b, t) = (u64::from(batch), u64::from(threshold));
    let independent = theirs(resend::plan(trace, b, t, event, &mut independent_out));
    let shown = || format!("{event:?}, {}", shown(trace, batch, threshold));
    assert!(library == independent, "{library:?}: {}", shown());
    assert!(library_out == independent_out, "{}", shown());
    let written = library.map_or(0, |_| trace.len());
    assert!(library_out[written..] == before[written..], "{}", shown());
    (library, library_out)
}

/// The whole answer of the boundary to a plan.
pub fn whole_marks(answer: &Answer<usize>) -> Marks {
    Marks {
        refusal: refused(answer),
        marks: answer.unwrap_or(0),
    }
}

/// Plans into a buffer of `length` bytes that hold a pattern.
pub fn plan_both(
    trace: &[u8],
    settings: (u32, u32),
    event: Event,
    length: usize,
) -> (Answer<usize>, Vec<u8>) {
    plan_into(trace, settings, event, &pattern(length))
}

/// The plan of an accepted trace and the number of its marks, which leave no batch over.
pub fn plan_lawfully(trace: &[u8], settings: (u32, u32), event: Event) -> (usize, Vec<u8>) {
    let (answer, mut plan) = plan_both(trace, settings, event, trace.len() + 3);
    plan.truncate(trace.len());
    let marks = answer.expect("an accepted trace");
    check_laws(trace, settings, event, marks, &plan);
    (marks, plan)
}

/// The plan marks counted packets only, as many as the answer says, and the trace with them
/// received has no batch over the threshold.
fn check_laws(
    trace: &[u8],
    (batch, threshold): (u32, u32),
    event: Event,
    marks: usize,
    plan: &[u8],
) {
    let shown = || format!("{event:?}, {}", shown(trace, batch, threshold));
    let counted_only =
        |(packet, byte): (&u8, &u8)| *byte == 0 || (*byte == 1 && event.counts(*packet));
    assert!(trace.iter().zip(plan).all(counted_only), "{}", shown());
    let count = plan.iter().filter(|byte| **byte == 1).count();
    assert_eq!(count, marks, "{}", shown());
    let resent = trace.iter().zip(plan);
    let resent: Vec<u8> = resent.map(|(packet, byte)| packet * (1 - byte)).collect();
    let choice = library_event(event);
    let left = nuvaskoe::effective::effective_loss(&resent, batch, threshold, choice);
    let left = left.expect("an accepted trace");
    assert_eq!((left.over, left.first), (0, None), "{}", shown());
}

/// The first refusal in order by any event; `room` is None for effective loss, which fills no
/// buffer.
pub fn refusal(
    trace: &[u8],
    batch: u32,
    threshold: u32,
    room: Option<usize>,
) -> Option<(u32, usize)> {
    if !(1..=1_024).contains(&batch) || threshold > 1_024 {
        return Some((15, 0));
    }
    if trace.is_empty() || trace.len() > LONGEST {
        return Some((10, 0));
    }
    if let Some(place) = trace.iter().position(|byte| *byte > 2) {
        return Some((9, place));
    }
    if batch as usize > trace.len() {
        return Some((14, 0));
    }
    (room? < trace.len()).then_some((8, 0))
}

/// A trace from its digits.
pub fn digits(digits: &str) -> Vec<u8> {
    digits.bytes().map(|digit| digit - b'0').collect()
}

/// Every trace of `length` packets whose bytes are below `kinds`.
pub fn all_traces(length: u32, kinds: usize) -> impl Iterator<Item = Vec<u8>> {
    (0..kinds.pow(length)).map(move |number| {
        let digit = |place| (number / kinds.pow(place) % kinds) as u8;
        (0..length).map(digit).collect()
    })
}

/// Every batch length of a trace of `length` packets, with every threshold to one past it.
pub fn all_settings(length: u32) -> impl Iterator<Item = (u32, u32)> {
    (1..=length).flat_map(|batch| (0..=batch + 1).map(move |threshold| (batch, threshold)))
}

/// `length` packets, `lost` in 100 lost and `discarded` in 100 discarded.
pub fn random_losses(random: &mut Random, length: usize, lost: usize, discarded: usize) -> Vec<u8> {
    let mut packet = || match random.below(100) {
        draw if draw < lost => 1,
        draw if draw < lost + discarded => 2,
        _ => 0,
    };
    (0..length).map(|_| packet()).collect()
}

/// `length` packets that come in runs of losses and longer runs of few losses.
pub fn bursty_losses(random: &mut Random, length: usize) -> Vec<u8> {
    let mut trace = Vec::with_capacity(length + 400);
    while trace.len() < length {
        let (calm, burst) = (random.below(400), random.below(40));
        trace.extend(random_losses(random, calm, 1, 2));
        trace.extend(random_losses(random, burst, 80, 5));
    }
    trace.truncate(length);
    trace
}

/// A trace of one of several makes, with more or fewer of its losses late.
pub fn random_trace(random: &mut Random, length: usize) -> Vec<u8> {
    let mut trace = match random.below(6) {
        0 => random_losses(random, length, 5, 5),
        1 => random_losses(random, length, 33, 33),
        2 => random_losses(random, length, 95, 2),
        3 => random_losses(random, length, 0, 50),
        _ => bursty_losses(random, length),
    };
    make_late(random, &mut trace);
    trace
}

/// A batch no longer than the trace, and a threshold near the counted packets that a batch holds.
pub fn random_settings(random: &mut Random, trace: &[u8], event: Event) -> (u32, u32) {
    let most = trace.len().min(1_024);
    let batch = match random.below(4) {
        0 => 1 + random.below(most.min(12)),
        1 => most,
        _ => 1 + random.below(most),
    };
    let counted = trace[..batch]
        .iter()
        .filter(|packet| event.counts(**packet));
    let counted = counted.count();
    let threshold = match random.below(5) {
        0 => random.below(4),
        1 => random.below(1_025),
        2 => random.below(counted + 1),
        _ => (counted + random.below(9)).saturating_sub(4).min(1_024),
    };
    (batch as u32, threshold as u32)
}

/// A trace of any length, empty and too long ones among them, at times with bytes above 2.
pub fn any_trace(random: &mut Random) -> Vec<u8> {
    let most = random.one_of(&[2, 12, 100, 700, 2_000]);
    let mut trace = match random.below(400) {
        0 => bursty_losses(random, LONGEST),
        1..=12 => Vec::new(),
        13..=24 => vec![1; LONGEST + 1 + random.below(2)],
        _ => {
            let length = 1 + random.below(most);
            random_trace(random, length)
        }
    };
    spoil(random, &mut trace);
    trace
}

/// Puts up to two bytes above 2 into one trace of twelve.
pub fn spoil(random: &mut Random, trace: &mut [u8]) {
    if trace.is_empty() || random.below(12) > 0 {
        return;
    }
    for _ in 0..=random.below(2) {
        let any = random.byte();
        trace[random.below(trace.len())] = random.one_of(&[3, 4, 128, 129, 255, any]);
    }
}

/// Settings as for an accepted trace, at times a batch longer than it or one out of range.
pub fn any_settings(random: &mut Random, trace: &[u8], event: Event) -> (u32, u32) {
    let (mut batch, mut threshold) = match trace {
        [] => (1, 0),
        _ => random_settings(random, trace, event),
    };
    match random.below(12) {
        0 => batch = random.one_of(&SETTINGS),
        1 => threshold = random.one_of(&SETTINGS),
        2 => batch = (trace.len() as u32).saturating_add(1).min(1_024),
        3 => batch = random.within(&(1..=1_024)),
        _ => {}
    }
    (batch, threshold)
}

fn shown(trace: &[u8], batch: u32, threshold: u32) -> String {
    let front: Vec<_> = trace.iter().take(100).map(u8::to_string).collect();
    let packets = trace.len();
    format!(
        "B {batch}, T {threshold}, {packets} packets {}",
        front.join(" ")
    )
}
