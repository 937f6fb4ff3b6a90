//! Traces: one byte a packet, 0 received, 1 lost, 2 discarded, from 1 to 65,536 packets.
//! [`packed`](crate::packed) has them in one bit a packet, which says whether it is counted.

use crate::boundary;

/// What counts, by the caller's choice: the packets that are counted; all others count as
/// received.
#[non_exhaustive]
#[derive(Debug, Clone, Copy, PartialEq, Eq)]
pub enum Event {
    /// The lost, for a block 17.
    Lost,
    /// The discarded, for a block 18.
    Discarded,
    /// The lost and the discarded alike; no block has these events.
    Either,
}

impl Event {
    /// The number at the boundary.
    pub(crate) fn number(self) -> u32 {
        match self {
            Event::Lost => boundary::EVENT_LOST,
            Event::Discarded => boundary::EVENT_DISCARDED,
            Event::Either => boundary::EVENT_EITHER,
        }
    }

    /// The event with this number, in an answer that has one.
    pub(crate) fn numbered(number: u32) -> Event {
        match number {
            boundary::EVENT_LOST => Event::Lost,
            boundary::EVENT_DISCARDED => Event::Discarded,
            boundary::EVENT_EITHER => Event::Either,
            other => unreachable!("event {other}"),
        }
    }
}
