//! Traces packed and unpacked, and the effective loss and plan of packed ones.

use super::{call, number, Call};
use crate::support::{
    batches::LONGEST,
    drawn_packed::{any_packed, any_settings, any_trace, room},
    events::any_event,
    packed::{
        pack_numbered, packed_loss_both, packed_plan_into, unpack_both, word_pattern, Packed, WORD,
    },
    pattern, Random,
};

pub fn calls() -> Vec<Call> {
    vec![
        call(
            "trace_pack",
            &[15, 10, 9, 8],
            packing,
            |(trace, event, out)| number(&pack_numbered(trace, *event, out).0),
        ),
        call(
            "trace_unpack",
            &[10, 8, 9],
            |random| {
                let packed = any_packed(random);
                let out = lent(random, &packed);
                (packed, out)
            },
            |(packed, out)| number(&unpack_both(packed, out).0),
        ),
        call(
            "packed_loss",
            &[15, 10, 8, 9, 14],
            batched,
            |(packed, settings)| number(&packed_loss_both(packed, *settings)),
        ),
        call(
            "packed_plan",
            &[15, 10, 8, 9, 14],
            |random| {
                let (packed, settings) = batched(random);
                let out = lent(random, &packed);
                (packed, settings, out)
            },
            |(packed, settings, out)| number(&packed_plan_into(packed, *settings, out).0),
        ),
    ]
}

fn packing(random: &mut Random) -> (Vec<u8>, u32, Vec<u64>) {
    let (trace, event) = (any_trace(random), any_event(random));
    let room = room(random, trace.len().div_ceil(WORD));
    let out = match random.below(4) {
        0 => vec![u64::MAX; room],
        1 => (0..room).map(|_| random.draw()).collect(),
        _ => word_pattern(room),
    };
    (trace, event, out)
}

fn batched(random: &mut Random) -> (Packed, (u32, u32)) {
    let packed = any_packed(random);
    let settings = any_settings(random, &packed);
    (packed, settings)
}

/// A buffer for a byte a packet, or a shorter or longer one, that holds anything.
fn lent(random: &mut Random, packed: &Packed) -> Vec<u8> {
    // A trace of more packets is refused before any room is looked at.
    let length = room(random, packed.packets.min(LONGEST));
    match random.below(4) {
        0 => vec![1; length],
        1 => random.bytes(length),
        _ => pattern(length),
    }
}
