//! A model of how the library keeps a tally between packets, which document 01 leaves free.
//! It is written from docs/DECISIONS.md, "Tallies and figures": "The open stretch is the last
//! group with the packets since, and is closed by the next event that does not belong to it,
//! not by the packet at which Gmin is reached. [..] With no event so far `since` counts the
//! packets from the start." Its numbers are those of [`Tally`]; `since` is `open_gap`.

use crate::burst::{self, Sums};
use crate::refusal::Refusal;
use crate::tally::Tally;
use crate::trace::Event;

/// The tally after one packet more; as given where that is refused.
pub fn take(tally: Tally, byte: u8) -> (Tally, Result<(), Refusal>) {
    if let Err(refusal) = tally.check(byte) {
        return (tally, Err(refusal));
    }
    let mut next = tally;
    next.seen += 1;
    if !tally.event.counts(byte) {
        next.open_gap += 1;
        return (next, Ok(()));
    }
    next.events += 1;
    let belongs = tally.open_events > 0 && tally.open_gap < tally.gmin;
    if belongs {
        next.open_events += 1;
        // Up to this event, which is one packet more than those since.
        next.open_packets += tally.open_gap + 1;
    } else {
        next.close_stretch();
        (next.open_events, next.open_packets) = (1, 1);
    }
    next.open_gap = 0;
    (next, Ok(()))
}

/// The tally of a whole accepted trace in its closed form, "the sums over all groups but the
/// last, and the last".
pub fn of_trace(trace: &[u8], gmin: u64, spacing: u64, event: Event) -> Tally {
    let events = burst::positions(trace, event);
    let groups = burst::groups(&events, gmin);
    let (last, closed) = match groups.split_last() {
        Some((last, closed)) => (*last, closed),
        None => (&[][..], &[][..]),
    };
    let width = |group: &[u64]| group.last().map_or(0, |last| last - group[0] + 1);
    let mut sums = Sums::default();
    for group in closed {
        sums.add_group(width(group), group.len() as u64, spacing);
    }
    let length = trace.len() as u64;
    Tally {
        gmin,
        spacing,
        event,
        seen: length,
        events: events.len() as u64,
        burst_packets: sums.burst_packets,
        burst_events: sums.burst_events,
        bursts: sums.bursts,
        duration_sum: sums.duration_sum,
        duration_squares: sums.duration_squares,
        open_events: last.len() as u64,
        open_packets: width(last),
        open_gap: last.last().map_or(length, |last| length - last - 1),
    }
}

#[cfg(test)]
mod tests;
