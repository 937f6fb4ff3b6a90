//! The tally of bursts and gaps, which takes the packets of a trace one after another.

use crate::{
    block::Block,
    boundary,
    figures::{measured, reported, Figures},
    trace::Event,
    Refusal,
};

/// What is summed over the packets so far. One made by hand begins as `Sums::default()`.
#[non_exhaustive]
#[derive(Debug, Clone, Copy, Default, PartialEq, Eq)]
pub struct Sums {
    /// All packets.
    pub packets: u64,
    /// Those that are counted.
    pub events: u64,
    /// The packets of bursts.
    pub burst_packets: u64,
    /// The events of bursts.
    pub burst_events: u64,
    /// How many bursts.
    pub bursts: u64,
    /// The sum of their durations, in milliseconds.
    pub durations: u64,
    /// The sum of the squares of their durations.
    pub squares: u64,
}

/// The last group of events, which the next event may join; its burst is not yet in the
/// sums.
#[derive(Debug, Clone, Copy, Default, PartialEq, Eq)]
pub struct Stretch {
    /// Its events; 0 where there was none so far.
    pub events: u64,
    /// Its packets from first event to last; 0 where there was no event.
    pub packets: u64,
    /// The packets since its last event, or since the start.
    pub since: u64,
}

/// A tally. Any may be [made by hand](Tally::from_parts); those that are not sound, by the
/// list at `tally::Tally::take` in docs/PROMISES.md, are refused with 15. One that was opened
/// and took packets is sound at every point.
///
/// ```
/// use nuvaskoe::{tally::Tally, trace::Event, values::Rate};
///
/// let mut tally = Tally::open(16, 1_000, Event::Lost)?;
/// for packet in [1, 1, 1] {
///     let (next, answer) = tally.take(packet);
///     answer?;
///     tally = next;
/// }
/// assert_eq!(tally.close()?.burst_rate, Rate::ALL);
/// # Ok::<(), nuvaskoe::Refusal>(())
/// ```
#[non_exhaustive]
#[derive(Debug, Clone, Copy, PartialEq, Eq)]
pub struct Tally {
    /// Gmin, 1 to 255 packets.
    pub gmin: u32,
    /// 1 to 40,000 microseconds.
    pub spacing: u32,
    /// The packets that it counts.
    pub event: Event,
    /// What is summed, without the open stretch's burst.
    pub sums: Sums,
    /// The open stretch.
    pub stretch: Stretch,
}

impl Tally {
    /// A tally that has taken no packet.
    ///
    /// Refusal: 15.
    #[inline]
    pub fn open(gmin: u32, spacing: u32, event: Event) -> Result<Tally, Refusal> {
        // SAFETY: it takes any numbers.
        let answer = unsafe { boundary::nuvaskoe_tally_open(gmin, spacing, event.number()) };
        match answer.refusal.unless_refused(()) {
            Ok(()) => Ok(Tally::new(&answer.tally)),
            Err(refusal) => {
                debug_assert_eq!(answer.tally, NONE);
                Err(refusal)
            }
        }
    }

    /// The tally of these numbers, sound or not.
    pub fn from_parts(
        gmin: u32,
        spacing: u32,
        event: Event,
        sums: Sums,
        stretch: Stretch,
    ) -> Tally {
        Tally {
            gmin,
            spacing,
            event,
            sums,
            stretch,
        }
    }

    /// Takes one packet, 0, 1 or 2: the next tally, or the tally as given where that is
    /// refused.
    ///
    /// Refusals, in this order: 15; 10, it has taken 65,536 packets; 9, with place 0.
    #[inline]
    pub fn take(self, packet: u8) -> (Tally, Result<(), Refusal>) {
        // SAFETY: it takes any numbers.
        let answer = unsafe { boundary::nuvaskoe_tally_take((&self).into(), packet) };
        (Tally::new(&answer.tally), answer.refusal.unless_refused(()))
    }

    /// The figures of all packets taken, each unavailable where there was none.
    ///
    /// Refusal: 15.
    #[inline]
    pub fn close(self) -> Result<Figures, Refusal> {
        // SAFETY: it takes any numbers.
        measured(unsafe { boundary::nuvaskoe_tally_close((&self).into()) })
    }

    /// The block of all packets taken, with this source and interval flag: [`Block::Loss`] of a
    /// tally that counts lost packets, [`Block::Discard`] of one that counts discarded ones.
    /// [`crate::packet::add`] does not refuse it with 16 where the flag is 1, 2 or 3.
    ///
    /// Refusal: 15, also of a tally that counts [either](Event::Either): no block has its events.
    ///
    /// ```
    /// use nuvaskoe::{block::Block, tally::Tally, trace::Event, values::Rate};
    ///
    /// let tally = Tally::open(16, 1_000, Event::Discarded)?;
    /// let (tally, answer) = tally.take(2);
    /// answer?;
    /// let Block::Discard(discard) = tally.block(7, 3)? else {
    ///     unreachable!("it counts discarded packets");
    /// };
    /// assert_eq!((discard.source, discard.flag), (7, 3));
    /// assert_eq!((discard.burst_rate, discard.gap_rate), (Rate::UNAVAILABLE, Rate::ALL));
    /// let either = Tally::open(16, 1_000, Event::Either)?;
    /// assert_eq!(either.block(7, 3).unwrap_err().number(), 15);
    /// # Ok::<(), nuvaskoe::Refusal>(())
    /// ```
    #[inline]
    pub fn block(self, source: u32, flag: u8) -> Result<Block, Refusal> {
        // SAFETY: it takes any numbers.
        let answer = unsafe { boundary::nuvaskoe_tally_block((&self).into(), source, flag) };
        reported(&answer)
    }

    /// The tally in an answer that has one.
    fn new(tally: &boundary::Tally) -> Tally {
        let (sums, stretch) = (&tally.sums, &tally.stretch);
        Tally {
            gmin: tally.gmin,
            spacing: tally.spacing,
            event: Event::numbered(tally.event),
            sums: Sums {
                packets: sums.packets,
                events: sums.events,
                burst_packets: sums.burst_packets,
                burst_events: sums.burst_events,
                bursts: sums.bursts,
                durations: sums.durations,
                squares: sums.squares,
            },
            stretch: Stretch {
                events: stretch.events,
                packets: stretch.packets,
                since: stretch.since,
            },
        }
    }
}

/// What a refused opening hands out.
const NONE: boundary::Tally = boundary::Tally {
    gmin: 0,
    spacing: 0,
    event: 0,
    sums: boundary::Sums {
        packets: 0,
        events: 0,
        burst_packets: 0,
        burst_events: 0,
        bursts: 0,
        durations: 0,
        squares: 0,
    },
    stretch: boundary::Stretch {
        events: 0,
        packets: 0,
        since: 0,
    },
};

impl From<&Tally> for boundary::Tally {
    fn from(tally: &Tally) -> Self {
        let (sums, stretch) = (&tally.sums, &tally.stretch);
        Self {
            gmin: tally.gmin,
            spacing: tally.spacing,
            event: tally.event.number(),
            sums: boundary::Sums {
                packets: sums.packets,
                events: sums.events,
                burst_packets: sums.burst_packets,
                burst_events: sums.burst_events,
                bursts: sums.bursts,
                durations: sums.durations,
                squares: sums.squares,
            },
            stretch: boundary::Stretch {
                events: stretch.events,
                packets: stretch.packets,
                since: stretch.since,
            },
        }
    }
}
