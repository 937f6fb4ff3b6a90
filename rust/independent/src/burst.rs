//! "The trace and its figures": the burst figures of a whole trace, once from the events'
//! positions and the formulas, once in a single pass. The variance is that of document 02's
//! ticket 3, and the events are those of its ticket 7. Refusals in order: 15, 10, 9.

use crate::block::{Block, Discard, Loss};
use crate::refusal::Refusal;
use crate::trace::{self, Event};

/// A rate, mean or variance that is unavailable.
pub const UNAVAILABLE: u16 = 65_535;
/// A mean or variance above 65,533.
pub const OVER_RANGE: u16 = 65_534;

/// The four numbers as a block holds them.
#[derive(Debug, Clone, Copy, PartialEq, Eq)]
pub struct Figures {
    pub burst_rate: u16,
    pub gap_rate: u16,
    pub mean: u16,
    pub variance: u16,
}

/// What the formulas are about.
#[derive(Debug, Clone, Copy, Default, PartialEq, Eq)]
pub struct Sums {
    /// E
    pub packets: u64,
    /// L
    pub events: u64,
    /// Eb
    pub burst_packets: u64,
    /// Lb
    pub burst_events: u64,
    /// n
    pub bursts: u64,
    /// S
    pub duration_sum: u64,
    /// Q
    pub duration_squares: u64,
}

/// "Two or more events", from the first one's position to the last one's.
#[derive(Debug, Clone, Copy, PartialEq, Eq)]
struct Burst {
    packets: u64,
    events: u64,
}

/// The figures of `trace`, from the formulas.
pub fn figures(trace: &[u8], gmin: u64, spacing: u64, event: Event) -> Result<Figures, Refusal> {
    trace::check_burst_settings(gmin, spacing)?;
    trace::check(trace)?;
    Ok(formulas(&sums(trace, gmin, spacing, event)))
}

/// The same figures, the trace read once.
pub fn running_figures(
    trace: &[u8],
    gmin: u64,
    spacing: u64,
    event: Event,
) -> Result<Figures, Refusal> {
    trace::check_burst_settings(gmin, spacing)?;
    if trace.is_empty() || trace.len() > trace::MOST_PACKETS {
        return Err(Refusal::TRACE_LENGTH);
    }
    let counted = event.bits();
    let mut sums = Sums {
        packets: trace.len() as u64,
        ..Sums::default()
    };
    // The group that the latest event belongs to: its first position, its last, its events.
    let (mut first, mut last, mut events) = (0, 0, 0);
    for (position, byte) in trace.iter().enumerate() {
        if *byte > 2 {
            return Err(Refusal::trace_byte(position));
        }
        if *byte & counted == 0 {
            continue;
        }
        let position = position as u64;
        if events > 0 && position - last > gmin {
            sums.add_group(last - first + 1, events, spacing);
            events = 0;
        }
        if events == 0 {
            first = position;
        }
        last = position;
        events += 1;
        sums.events += 1;
    }
    sums.add_group(last - first + 1, events, spacing);
    Ok(formulas(&sums))
}

/// Block 17 with these figures.
#[inline]
pub fn loss_block(figures: &Figures, source: u32, flag: u8) -> Block {
    Block::Loss(Loss {
        flag,
        source,
        burst_rate: figures.burst_rate,
        gap_rate: figures.gap_rate,
        mean: figures.mean,
        variance: figures.variance,
    })
}

/// Block 18 with these figures, which has no mean and no variance.
#[inline]
pub fn discard_block(figures: &Figures, source: u32, flag: u8) -> Block {
    Block::Discard(Discard {
        flag,
        source,
        burst_rate: figures.burst_rate,
        gap_rate: figures.gap_rate,
    })
}

/// E, L, Eb, Lb, n, S and Q of an accepted trace.
pub fn sums(trace: &[u8], gmin: u64, spacing: u64, event: Event) -> Sums {
    let events = positions(trace, event);
    let bursts = bursts(&groups(&events, gmin));
    let durations: Vec<u64> = bursts
        .iter()
        .map(|burst| duration(burst.packets, spacing))
        .collect();
    Sums {
        packets: trace.len() as u64,
        events: events.len() as u64,
        burst_packets: bursts.iter().map(|burst| burst.packets).sum(),
        burst_events: bursts.iter().map(|burst| burst.events).sum(),
        bursts: bursts.len() as u64,
        duration_sum: durations.iter().sum(),
        duration_squares: durations.iter().map(|duration| duration * duration).sum(),
    }
}

/// "Integer part of its packets × spacing / 1000, in milliseconds."
pub fn duration(packets: u64, spacing: u64) -> u64 {
    packets * spacing / 1_000
}

/// The four formulas over E, L, Eb, Lb, n, S and Q, of a trace or of a sound tally.
pub fn formulas(sums: &Sums) -> Figures {
    let in_gaps = (
        sums.events - sums.burst_events,
        sums.packets - sums.burst_packets,
    );
    let mean = sums.duration_sum.checked_div(sums.bursts);
    Figures {
        burst_rate: rate(sums.burst_events, sums.burst_packets),
        gap_rate: rate(in_gaps.0, in_gaps.1),
        mean: mean.map_or(UNAVAILABLE, capped),
        variance: variance(sums).map_or(UNAVAILABLE, capped),
    }
}

/// "The variance is to be the integer part of (n × Q − S × S) / (n × n)" (document 02's ticket
/// 3), none where n is 0, not yet capped.
fn variance(sums: &Sums) -> Option<u64> {
    let (n, s, q) = (sums.bursts, sums.duration_sum, sums.duration_squares);
    if n == 0 {
        return None;
    }
    // Of a trace or a sound tally n ≤ 32,768, S ≤ 2,621,440 and S × S ≤ n × Q ≤ n × S × S,
    // which is at most 25 × 2^53: nothing overflows 64 bits, nor falls below 0.
    Some((n * q - s * s) / (n * n))
}

impl Sums {
    /// Counts a group in: "a group of two or more events is a burst", one adds nothing.
    pub(crate) fn add_group(&mut self, packets: u64, events: u64, spacing: u64) {
        if events < 2 {
            return;
        }
        let duration = duration(packets, spacing);
        self.burst_packets += packets;
        self.burst_events += events;
        self.bursts += 1;
        self.duration_sum += duration;
        self.duration_squares += duration * duration;
    }
}

/// "Integer part of events × 32768 / packets; unavailable if packets is 0."
fn rate(events: u64, packets: u64) -> u16 {
    match (events * 32_768).checked_div(packets) {
        Some(rate) => rate as u16,
        None => UNAVAILABLE,
    }
}

/// "Above 65,533 sent as over range."
fn capped(number: u64) -> u16 {
    if number > 65_533 {
        OVER_RANGE
    } else {
        number as u16
    }
}

/// Where the events stand.
pub(crate) fn positions(trace: &[u8], event: Event) -> Vec<u64> {
    (0..trace.len())
        .filter(|position| event.counts(trace[*position]))
        .map(|position| position as u64)
        .collect()
}

/// "Two successive events belong together when fewer than Gmin packets stand between them."
pub(crate) fn groups(events: &[u64], gmin: u64) -> Vec<&[u64]> {
    events
        .chunk_by(|earlier, later| later - earlier - 1 < gmin)
        .collect()
}

/// The groups of two or more events.
fn bursts(groups: &[&[u64]]) -> Vec<Burst> {
    groups
        .iter()
        .filter(|group| group.len() >= 2)
        .map(|group| Burst {
            packets: group[group.len() - 1] - group[0] + 1,
            events: group.len() as u64,
        })
        .collect()
}

#[cfg(test)]
mod tests;
