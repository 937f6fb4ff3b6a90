//! "For block 17 the events are the lost packets, for block 18 the discarded": the block that
//! reports a trace or a tally. By document 02's ticket 7 the two "keep their own events", so that
//! no block reports either. Refusals of a trace in order: 15, 10, 9; of a tally: 15.

use crate::block::Block;
use crate::burst;
use crate::refusal::Refusal;
use crate::tally::Tally;
use crate::trace::Event;

/// Block 17 with the figures of the lost packets of `trace`.
pub fn loss_of_trace(
    trace: &[u8],
    gmin: u64,
    spacing: u64,
    source: u32,
    flag: u8,
) -> Result<Block, Refusal> {
    let figures = burst::running_figures(trace, gmin, spacing, Event::Lost)?;
    Ok(burst::loss_block(&figures, source, flag))
}

/// Block 18 with the figures of its discarded packets.
pub fn discard_of_trace(
    trace: &[u8],
    gmin: u64,
    spacing: u64,
    source: u32,
    flag: u8,
) -> Result<Block, Refusal> {
    let figures = burst::running_figures(trace, gmin, spacing, Event::Discarded)?;
    Ok(burst::discard_block(&figures, source, flag))
}

/// The block with the figures that closing `tally` gives. For a block, either is a setting
/// outside its range: 15, as for a tally that is not sound.
#[inline]
pub fn of_tally(tally: Tally, source: u32, flag: u8) -> Result<Block, Refusal> {
    let figures = tally.close()?;
    match tally.event {
        Event::Lost => Ok(burst::loss_block(&figures, source, flag)),
        Event::Discarded => Ok(burst::discard_block(&figures, source, flag)),
        Event::Either => Err(Refusal::SETTING),
    }
}

#[cfg(test)]
mod tests;
