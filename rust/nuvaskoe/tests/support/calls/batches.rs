//! Effective loss and the resend plan.

use super::{call, number, Call};
use crate::support::{
    batches::{any_settings, any_trace, loss_numbered, plan_numbered},
    events::{any_event, event_numbered},
    pattern, Random,
};
use independent::trace::Event;

pub fn calls() -> Vec<Call> {
    vec![
        call(
            "effective_loss",
            &[15, 10, 9, 14],
            batched,
            |(trace, (batch, threshold), event)| {
                number(&loss_numbered(trace, *batch, *threshold, *event))
            },
        ),
        call(
            "resend_plan",
            &[15, 10, 9, 14, 8],
            |random| {
                let (trace, settings, event) = batched(random);
                let out = lent(random, trace.len());
                (trace, settings, event, out)
            },
            |(trace, settings, event, out)| number(&plan_numbered(trace, *settings, *event, out).0),
        ),
    ]
}

/// A trace, a batch and a threshold, and the number of an event or one that is none.
fn batched(random: &mut Random) -> (Vec<u8>, (u32, u32), u32) {
    let (trace, event) = (any_trace(random), any_event(random));
    let counted = event_numbered(event).unwrap_or(Event::Lost);
    let settings = any_settings(random, &trace, counted);
    (trace, settings, event)
}

/// A buffer for the plan of so many packets, or a shorter one, that holds anything.
fn lent(random: &mut Random, length: usize) -> Vec<u8> {
    let length = match random.below(8) {
        0 => random.below(length + 1),
        1 => length.saturating_sub(1),
        2 => length + 1 + random.below(70),
        _ => length,
    };
    match random.below(4) {
        0 => vec![1; length],
        1 => random.bytes(length),
        _ => pattern(length),
    }
}
