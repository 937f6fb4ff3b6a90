//! What counts as a loss, by the caller's choice: the calls that take it, on a trace with received,
//! lost and discarded packets mixed.

use super::{
    batches, measuring, packed,
    support::{
        batches::{random_losses, LONGEST},
        Random,
    },
};
use independent::trace::Event;

/// Batch lengths, and a threshold that batches of that length at times pass by each choice.
const SETTINGS: [(u32, u32); 2] = [(100, 5), (1_024, 52)];

pub fn time() {
    let mut random = Random::new("bench choices");
    let mixed = random_losses(&mut random, LONGEST, 2, 4);
    measuring::time_trace("mixed by either", &mixed, Event::Either);
    let named = [
        ("mixed by discarded", Event::Discarded),
        ("mixed by either", Event::Either),
    ];
    for (name, event) in named {
        for settings in SETTINGS {
            batches::time_plan(name, &mixed, settings, event);
        }
    }
    for (name, event) in named {
        for settings in SETTINGS {
            batches::time_loss(name, &mixed, settings, event);
        }
    }
    let short = &mixed[..packed::SHORT];
    for (name, event) in [("mixed by lost", Event::Lost)].into_iter().chain(named) {
        packed::time_pack(name, &mixed, event);
        packed::time_pack(&format!("{name}, short"), short, event);
    }
}
