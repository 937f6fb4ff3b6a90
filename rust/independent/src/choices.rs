//! For the tests: what document 02's ticket 7 lets the caller choose, in terms of lost packets.

use crate::trace::Event;

pub const EVENTS: [Event; 3] = [Event::Lost, Event::Discarded, Event::Either];

/// The trace whose lost packets are those that count in `trace`: as it is, with 1 and 2
/// exchanged, with every 2 turned into 1.
pub fn as_lost(trace: &[u8], event: Event) -> Vec<u8> {
    let bytes = match event {
        Event::Lost => [0, 1, 2],
        Event::Discarded => [0, 2, 1],
        Event::Either => [0, 1, 1],
    };
    trace.iter().map(|byte| bytes[*byte as usize]).collect()
}

/// Every trace of so many packets.
pub fn traces(length: u32) -> impl Iterator<Item = Vec<u8>> {
    (0..3_usize.pow(length)).map(move |number| {
        let digit = |place| (number / 3_usize.pow(place) % 3) as u8;
        (0..length).map(digit).collect()
    })
}
