//! "The trace and its figures": one byte a packet, 0 received, 1 lost, 2 discarded, and
//! the checks that every call on a trace makes first. Refusals in order: 15, 10, 9.

use crate::card::{BATCH, GMIN, SPACING, THRESHOLD};
use crate::refusal::Refusal;
use std::ops::RangeInclusive;

/// "From 1 to 65,536 packets."
pub const MOST_PACKETS: usize = 65_536;

/// What counts: "for block 17 the events are the lost packets, for block 18 the discarded; all
/// others count as received", and by document 02's ticket 7 "the caller chooses what counts as a
/// loss: lost only, discarded only, or either".
#[derive(Debug, Clone, Copy, PartialEq, Eq)]
pub enum Event {
    Lost,
    Discarded,
    Either,
}

impl Event {
    /// Whether a packet with this trace byte counts.
    #[inline]
    pub fn counts(self, byte: u8) -> bool {
        match self {
            Event::Lost => byte == 1,
            Event::Discarded => byte == 2,
            Event::Either => byte == 1 || byte == 2,
        }
    }

    /// The bits of which a byte that counts has one. Of the bytes of an accepted trace no other
    /// has, so that a loop over packets tests each without a branch on the choice.
    #[inline]
    pub(crate) fn bits(self) -> u8 {
        match self {
            Event::Lost => 1,
            Event::Discarded => 2,
            Event::Either => 1 | 2,
        }
    }
}

/// Refuses with 10, then 9.
pub fn check(trace: &[u8]) -> Result<(), Refusal> {
    check_up_to(trace, MOST_PACKETS, 2)
}

/// Refuses with 10 for a trace that is empty or over `packets`, then 9 for a byte above `highest`.
#[inline]
pub(crate) fn check_up_to(trace: &[u8], packets: usize, highest: u8) -> Result<(), Refusal> {
    if trace.is_empty() || trace.len() > packets {
        return Err(Refusal::TRACE_LENGTH);
    }
    // The largest byte is found faster than a place, which only a bad trace has.
    if trace.iter().fold(0, |most, byte| most.max(*byte)) <= highest {
        return Ok(());
    }
    let bad = trace.iter().position(|byte| *byte > highest);
    Err(Refusal::trace_byte(bad.expect("the largest byte is bad")))
}

/// Refuses with 15: the settings of burst figures are Gmin and spacing.
pub fn check_burst_settings(gmin: u64, spacing: u64) -> Result<(), Refusal> {
    if within(&GMIN, gmin) && within(&SPACING, spacing) {
        Ok(())
    } else {
        Err(Refusal::SETTING)
    }
}

/// Refuses with 15: the settings of effective loss and the plan are B and T.
pub fn check_batch_settings(batch: u64, threshold: u64) -> Result<(), Refusal> {
    if within(&BATCH, batch) && within(&THRESHOLD, threshold) {
        Ok(())
    } else {
        Err(Refusal::SETTING)
    }
}

fn within(range: &RangeInclusive<u32>, setting: u64) -> bool {
    u64::from(*range.start()) <= setting && setting <= u64::from(*range.end())
}

#[cfg(test)]
mod tests;
