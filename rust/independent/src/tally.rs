//! "The trace and its figures": a tally, which takes packets one after another. Its closing
//! gives the figures of the packets it took. The last line of its soundness is that of document
//! 02's ticket 3, and what it counts is the choice of ticket 7. Refusals in order: 15, 10, 9.

use crate::burst::{self, Figures, Sums};
use crate::refusal::Refusal;
use crate::trace::{self, Event};

/// What is kept from one packet to the next. The stretch from the latest events is open
/// until Gmin packets have come since; all others are closed and counted.
#[derive(Debug, Clone, Copy, PartialEq, Eq)]
pub struct Tally {
    pub gmin: u64,
    pub spacing: u64,
    pub event: Event,
    /// E
    pub seen: u64,
    /// L
    pub events: u64,
    /// Packets of the closed bursts.
    pub burst_packets: u64,
    /// Events of the closed bursts.
    pub burst_events: u64,
    /// How many bursts are closed.
    pub bursts: u64,
    /// The sum of their durations.
    pub duration_sum: u64,
    /// The sum of the squares of their durations.
    pub duration_squares: u64,
    /// The open stretch's events, 0 where none is open.
    pub open_events: u64,
    /// Its packets from its first event to its last.
    pub open_packets: u64,
    /// The packets since its last event.
    pub open_gap: u64,
}

impl Tally {
    /// A tally that has taken no packet. Refusal: 15.
    #[inline]
    pub fn open(gmin: u64, spacing: u64, event: Event) -> Result<Tally, Refusal> {
        trace::check_burst_settings(gmin, spacing)?;
        Ok(Tally {
            gmin,
            spacing,
            event,
            seen: 0,
            events: 0,
            burst_packets: 0,
            burst_events: 0,
            bursts: 0,
            duration_sum: 0,
            duration_squares: 0,
            open_events: 0,
            open_packets: 0,
            open_gap: 0,
        })
    }

    /// Takes one packet; "a tally comes back as given" where that is refused.
    #[inline]
    pub fn take(self, byte: u8) -> (Tally, Result<(), Refusal>) {
        if let Err(refusal) = self.check(byte) {
            return (self, Err(refusal));
        }
        let mut next = self;
        next.seen += 1;
        if self.event.counts(byte) {
            next.take_event();
        } else if self.open_events > 0 {
            next.take_other();
        }
        (next, Ok(()))
    }

    /// Whether it takes this packet.
    #[inline]
    pub(crate) fn check(&self, byte: u8) -> Result<(), Refusal> {
        if !self.sound() {
            return Err(Refusal::SETTING);
        }
        if self.seen == trace::MOST_PACKETS as u64 {
            return Err(Refusal::TRACE_LENGTH);
        }
        if byte > 2 {
            return Err(Refusal::trace_byte(0));
        }
        Ok(())
    }

    /// The figures of the packets taken. Refusal: 15, where the tally is not sound.
    #[inline]
    pub fn close(self) -> Result<Figures, Refusal> {
        if !self.sound() {
            return Err(Refusal::SETTING);
        }
        Ok(burst::formulas(&self.counted_in()))
    }

    /// Document 01's list of what is so "with its open stretch counted in", and document 02's
    /// "n × Q ≥ S × S in place of the last line". What is multiplied is bounded by then, so that
    /// no number overflows: n by Eb, S by its own line, Q by S × S.
    pub fn sound(&self) -> bool {
        let [e, l, open_events, open_packets, open_gap] = [
            self.seen,
            self.events,
            self.open_events,
            self.open_packets,
            self.open_gap,
        ]
        .map(u128::from);
        if trace::check_burst_settings(self.gmin, self.spacing).is_err()
            || e > 65_536
            || open_events > e
            || open_packets > e
            || open_gap > e
        {
            return false;
        }
        let [mut eb, mut lb, mut n, mut s, mut q] = [
            self.burst_packets,
            self.burst_events,
            self.bursts,
            self.duration_sum,
            self.duration_squares,
        ]
        .map(u128::from);
        if open_events >= 2 {
            let duration = open_packets * u128::from(self.spacing) / 1_000;
            eb += open_packets;
            lb += open_events;
            n += 1;
            s += duration;
            q += duration * duration;
        }
        eb <= e
            && lb <= eb
            && lb <= l
            && l - lb <= e - eb
            && 2 * n <= eb
            && s <= 2_621_440
            && q <= s * s
            && n * q >= s * s
    }

    /// The event starts a stretch, or carries the open one on to itself.
    fn take_event(&mut self) {
        self.events += 1;
        if self.open_events == 0 {
            (self.open_events, self.open_packets) = (1, 1);
        } else {
            self.open_events += 1;
            self.open_packets += self.open_gap + 1;
        }
        self.open_gap = 0;
    }

    /// One packet more since the open stretch's last event, which Gmin of them close.
    fn take_other(&mut self) {
        self.open_gap += 1;
        if self.open_gap < self.gmin {
            return;
        }
        self.close_stretch();
        (self.open_events, self.open_packets, self.open_gap) = (0, 0, 0);
    }

    /// Counts the open stretch into the sums.
    pub(crate) fn close_stretch(&mut self) {
        let closed = self.counted_in();
        self.burst_packets = closed.burst_packets;
        self.burst_events = closed.burst_events;
        self.bursts = closed.bursts;
        self.duration_sum = closed.duration_sum;
        self.duration_squares = closed.duration_squares;
    }

    /// The sums as if the open stretch were closed now.
    fn counted_in(&self) -> Sums {
        let mut sums = Sums {
            packets: self.seen,
            events: self.events,
            burst_packets: self.burst_packets,
            burst_events: self.burst_events,
            bursts: self.bursts,
            duration_sum: self.duration_sum,
            duration_squares: self.duration_squares,
        };
        sums.add_group(self.open_packets, self.open_events, self.spacing);
        sums
    }
}

#[cfg(test)]
mod tests;
