//! Bursts and gaps of a whole trace, and the blocks that report them.

use crate::{
    block::{Block, Discard, Loss},
    boundary,
    trace::Event,
    values::{Figure, Rate},
    Refusal,
};

/// The figures as blocks 17 and 18 hold them.
#[non_exhaustive]
#[derive(Debug, Clone, Copy, PartialEq, Eq)]
pub struct Figures {
    /// Rate of events in bursts.
    pub burst_rate: Rate,
    /// Rate of events in gaps.
    pub gap_rate: Rate,
    /// Mean burst duration, in milliseconds.
    pub mean: Figure,
    /// Variance of burst durations.
    pub variance: Figure,
}

/// The figures of a whole trace, with the packets that `event` counts as its events: those of a
/// [tally](crate::tally::Tally) that took all its packets. Gmin is 1 to 255 packets, spacing 1 to
/// 40,000 microseconds.
///
/// Refusals, in this order: 15, 10, 9 (placed at the index of the first byte above 2).
///
/// ```
/// use nuvaskoe::{figures, trace::Event, values::{Figure, Rate}};
///
/// let figures = figures::of_trace(&[1, 0, 1, 0, 0, 1, 0, 0, 0, 1, 1], 2, 1_000, Event::Lost)?;
/// assert_eq!((figures.burst_rate, figures.gap_rate), (Rate(26_214), Rate(5_461)));
/// assert_eq!((figures.mean, figures.variance), (Figure(2), Figure(0)));
///
/// // A lost packet and a late one close to it are a burst of either, and of neither alone.
/// let rate = |event| figures::of_trace(&[1, 2, 0, 0], 2, 1_000, event).map(|of| of.burst_rate);
/// assert_eq!(rate(Event::Either)?, Rate::ALL);
/// assert_eq!(rate(Event::Lost)?, Rate::UNAVAILABLE);
/// assert_eq!(rate(Event::Discarded)?, Rate::UNAVAILABLE);
/// # Ok::<(), nuvaskoe::Refusal>(())
/// ```
pub fn of_trace(trace: &[u8], gmin: u32, spacing: u32, event: Event) -> Result<Figures, Refusal> {
    let (start, length) = (trace.as_ptr(), trace.len());
    // SAFETY: a slice's pointer is never null and is good for reading its length.
    let answer =
        unsafe { boundary::nuvaskoe_figures(start, length, gmin, spacing, event.number()) };
    measured(answer)
}

/// The block 17 of a whole trace: the figures of its lost packets, with this source and
/// interval flag. [`crate::packet::add`] does not refuse it with 16 where the flag is 1, 2 or 3.
///
/// Refusals as of [`of_trace`].
///
/// ```
/// use nuvaskoe::{block::Block, figures, packet, values::{Figure, Rate}};
///
/// // The two discarded packets at the end are no loss.
/// let loss = figures::loss_of_trace(&[1, 0, 1, 0, 0, 0, 2, 2], 2, 1_000, 7, 3)?;
/// assert_eq!((loss.burst_rate, loss.gap_rate), (Rate(21_845), Rate(0)));
/// assert_eq!((loss.mean, loss.variance), (Figure(3), Figure(0)));
/// let mut buffer = [0; 24];
/// packet::new(1, &mut buffer)?;
/// assert_eq!(packet::add(&mut buffer, &Block::Loss(loss)), Ok(24));
/// # Ok::<(), nuvaskoe::Refusal>(())
/// ```
pub fn loss_of_trace(
    trace: &[u8],
    gmin: u32,
    spacing: u32,
    source: u32,
    flag: u8,
) -> Result<Loss, Refusal> {
    let (start, length) = (trace.as_ptr(), trace.len());
    // SAFETY: a slice's pointer is never null and is good for reading its length.
    let answer =
        unsafe { boundary::nuvaskoe_loss_of_trace(start, length, gmin, spacing, source, flag) };
    match reported(&answer)? {
        Block::Loss(loss) => Ok(loss),
        other => unreachable!("{other:?}"),
    }
}

/// The block 18 of a whole trace: the figures of its discarded packets, in the same way.
///
/// ```
/// use nuvaskoe::{figures, values::Rate};
///
/// let discard = figures::discard_of_trace(&[1, 0, 1, 0, 0, 0, 2, 2], 2, 1_000, 7, 3)?;
/// assert_eq!((discard.burst_rate, discard.gap_rate), (Rate::ALL, Rate(0)));
/// # Ok::<(), nuvaskoe::Refusal>(())
/// ```
pub fn discard_of_trace(
    trace: &[u8],
    gmin: u32,
    spacing: u32,
    source: u32,
    flag: u8,
) -> Result<Discard, Refusal> {
    let (start, length) = (trace.as_ptr(), trace.len());
    // SAFETY: a slice's pointer is never null and is good for reading its length.
    let answer =
        unsafe { boundary::nuvaskoe_discard_of_trace(start, length, gmin, spacing, source, flag) };
    match reported(&answer)? {
        Block::Discard(discard) => Ok(discard),
        other => unreachable!("{other:?}"),
    }
}

impl Figures {
    /// Figures that were measured elsewhere.
    pub fn new(burst_rate: Rate, gap_rate: Rate, mean: Figure, variance: Figure) -> Figures {
        Figures {
            burst_rate,
            gap_rate,
            mean,
            variance,
        }
    }

    /// The block 17 with these figures, whatever the flag: [`crate::packet::add`] takes 1, 2
    /// and 3. Nothing looks at where the figures come from, so that those of other events are
    /// taken as well: a block that was measured comes from [`loss_of_trace`] or
    /// [`Tally::block`](crate::tally::Tally::block).
    #[inline]
    pub fn loss_block(&self, source: u32, flag: u8) -> Block {
        // SAFETY: it takes any numbers.
        let block = unsafe { boundary::nuvaskoe_loss_block(self.into(), source, flag) };
        Block::Loss(block.into())
    }

    /// The block 18 with these rates, in the same way; it has no mean and no variance. One that
    /// was measured comes from [`discard_of_trace`] or
    /// [`Tally::block`](crate::tally::Tally::block).
    #[inline]
    pub fn discard_block(&self, source: u32, flag: u8) -> Block {
        // SAFETY: it takes any numbers.
        let block = unsafe { boundary::nuvaskoe_discard_block(self.into(), source, flag) };
        Block::Discard(block.into())
    }
}

/// The figures in an answer, which are all unavailable where it is a refusal.
pub(crate) fn measured(answer: boundary::Figured) -> Result<Figures, Refusal> {
    let figures = Figures {
        burst_rate: Rate(answer.figures.burst_rate),
        gap_rate: Rate(answer.figures.gap_rate),
        mean: Figure(answer.figures.burst_mean),
        variance: Figure(answer.figures.burst_variance),
    };
    debug_assert!(answer.refusal.number == 0 || figures == NONE);
    answer.refusal.unless_refused(figures)
}

/// The block that an answer fills; the other is all 0, and both are where it is a refusal.
#[inline]
pub(crate) fn reported(answer: &boundary::Summary) -> Result<Block, Refusal> {
    let (loss, discard) = (answer.loss, answer.discard);
    debug_assert!(answer.refusal.number == 0 || answer.block_type == 0);
    debug_assert!(answer.block_type == boundary::BLOCK_LOSS || loss == NO_LOSS);
    debug_assert!(answer.block_type == boundary::BLOCK_DISCARD || discard == NO_DISCARD);
    answer.refusal.unless_refused(())?;
    Ok(match answer.block_type {
        boundary::BLOCK_LOSS => Block::Loss(loss.into()),
        boundary::BLOCK_DISCARD => Block::Discard(discard.into()),
        other => unreachable!("measured block of type {other}"),
    })
}

/// Those of a refused answer.
const NONE: Figures = Figures {
    burst_rate: Rate::UNAVAILABLE,
    gap_rate: Rate::UNAVAILABLE,
    mean: Figure::UNAVAILABLE,
    variance: Figure::UNAVAILABLE,
};

/// A block 17 that is not filled.
const NO_LOSS: boundary::LossSummary = boundary::LossSummary {
    flag: 0,
    source: 0,
    burst_rate: 0,
    gap_rate: 0,
    burst_mean: 0,
    burst_variance: 0,
};

/// A block 18 that is not filled.
const NO_DISCARD: boundary::DiscardSummary = boundary::DiscardSummary {
    flag: 0,
    source: 0,
    burst_rate: 0,
    gap_rate: 0,
};

impl From<&Figures> for boundary::BurstFigures {
    fn from(figures: &Figures) -> Self {
        Self {
            burst_rate: figures.burst_rate.0,
            gap_rate: figures.gap_rate.0,
            burst_mean: figures.mean.0,
            burst_variance: figures.variance.0,
        }
    }
}
