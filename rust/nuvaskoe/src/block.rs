//! One report block: the five kinds, Loss RLE, and what reading a block comes to.

mod numbers;

use crate::{
    boundary,
    values::{EffectiveIndex, Figure, Rate},
};

/// A block of one of the five kinds. One that was read keeps to the ranges named here; one to
/// be written may not, and [`crate::packet::add`] refuses it.
#[non_exhaustive]
#[derive(Debug, Clone, Copy, PartialEq, Eq)]
pub enum Block {
    /// Type 14.
    Measurement(Measurement),
    /// Type 17.
    Loss(Loss),
    /// Type 18.
    Discard(Discard),
    /// Type 240.
    Effective(Effective),
    /// Type 241.
    TransportStream(TransportStream),
}

/// The span that the figures of a source were measured over.
#[derive(Debug, Clone, Copy, PartialEq, Eq)]
pub struct Measurement {
    /// The measured source.
    pub source: u32,
    /// First sequence number.
    pub first: u16,
    /// Extended first sequence number of the interval.
    pub extended_first: u32,
    /// Extended last sequence number.
    pub extended_last: u32,
    /// Interval duration.
    pub interval: u32,
    /// Cumulative duration, its seconds.
    pub seconds: u32,
    /// Cumulative duration, its fraction.
    pub fraction: u32,
}

/// Bursts and gaps of lost packets.
#[derive(Debug, Clone, Copy, PartialEq, Eq)]
pub struct Loss {
    /// Interval flag, 1 to 3.
    pub flag: u8,
    /// The measured source.
    pub source: u32,
    /// Loss rate in bursts.
    pub burst_rate: Rate,
    /// Loss rate in gaps.
    pub gap_rate: Rate,
    /// Mean burst duration, in milliseconds.
    pub mean: Figure,
    /// Variance of burst durations.
    pub variance: Figure,
}

/// Bursts and gaps of discarded packets.
#[derive(Debug, Clone, Copy, PartialEq, Eq)]
pub struct Discard {
    /// Interval flag, 1 to 3.
    pub flag: u8,
    /// The measured source.
    pub source: u32,
    /// Discard rate in bursts.
    pub burst_rate: Rate,
    /// Discard rate in gaps.
    pub gap_rate: Rate,
}

/// Effective loss.
#[derive(Debug, Clone, Copy, PartialEq, Eq)]
pub struct Effective {
    /// The measured source.
    pub source: u32,
    /// Effective loss index.
    pub index: EffectiveIndex,
}

/// Counts of transport stream errors.
#[derive(Debug, Clone, Copy, PartialEq, Eq)]
pub struct TransportStream {
    /// The measured source.
    pub source: u32,
    /// First sequence number.
    pub begin: u16,
    /// Sequence number after the last.
    pub end: u16,
    /// Number of transport streams.
    pub streams: u32,
    /// Losses of synchronization; errors of the sync byte, continuity count, transport,
    /// PCR, PCR repetition, PCR discontinuity indicator, PTS.
    pub counts: [u32; 8],
}

impl TransportStream {
    /// The packets covered: end minus begin modulo 65,536.
    pub fn packets(&self) -> u16 {
        self.end.wrapping_sub(self.begin)
    }
}

/// A good block of type 1, Loss RLE: which packets of an interval were lost. It is none of the
/// five kinds: [`crate::packet::add_rle`] writes one from a trace, and [`crate::packet::rle`]
/// reads the trace out of it.
#[derive(Debug, Clone, Copy, PartialEq, Eq)]
pub struct LossRle {
    /// The measured source.
    pub source: u32,
    /// First sequence number.
    pub begin: u16,
    /// Sequence number after the last.
    pub end: u16,
    /// How many packets of the interval were lost.
    pub lost: u16,
}

impl LossRle {
    /// The most packets of an interval.
    pub const MOST_PACKETS: u16 = boundary::INTERVAL_MAX;

    /// The packets of the interval: end minus begin modulo 65,536.
    pub fn packets(&self) -> u16 {
        self.end.wrapping_sub(self.begin)
    }
}

/// Why a block is dropped: the first reason that applies.
#[non_exhaustive]
#[derive(Debug, Clone, Copy, PartialEq, Eq)]
pub enum Reason {
    /// D1: one of the five types with another length; a type 1 of fewer than two words, or not
    /// of whole words.
    BadSize,
    /// D2: interval flag 0; of a type 1, a thinning other than 0.
    BadFlag,
    /// D3: a rate from 32,769 to 65,534.
    BadRate,
    /// D4: no measurement block for its source in the packet.
    Unmeasured,
    /// D5: a type 1 on over 65,533 packets, or whose chunks cover too few, are null before the end
    /// or not null behind it.
    BadChunks,
}

/// What reading a block comes to.
#[non_exhaustive]
#[derive(Debug, Clone, Copy, PartialEq, Eq)]
pub enum Verdict {
    /// A block of one of the five kinds.
    Typed(Block),
    /// A good block of type 1.
    Rle(LossRle),
    /// A type that is not listed: its body is all there is.
    Unknown,
    /// A listed type, or type 1, that cannot be used.
    Dropped(Reason),
}

impl Verdict {
    /// The number that [`crate::packet::list`] writes: 0 for typed, 1 to 5 for the
    /// reasons D1 to D5, 254 for Loss RLE, 255 for unknown.
    pub fn number(&self) -> u32 {
        match self {
            Verdict::Typed(_) => boundary::VERDICT_TYPED,
            Verdict::Rle(_) => boundary::VERDICT_RLE,
            Verdict::Unknown => boundary::VERDICT_UNKNOWN,
            Verdict::Dropped(reason) => reason.number(),
        }
    }
}

/// A block as it was read.
#[non_exhaustive]
#[derive(Debug, Clone, Copy, PartialEq, Eq)]
pub struct Reading {
    /// The block's type.
    pub block_type: u8,
    /// What it comes to.
    pub verdict: Verdict,
}

/// Reads one block by itself. Never refused, and never dropped as unmeasured.
///
/// ```
/// use nuvaskoe::block::{self, Reason, Verdict};
///
/// // A block 18 with interval flag 0.
/// let reading = block::read(18, 0, &[0; 8]);
/// assert_eq!(reading.verdict, Verdict::Dropped(Reason::BadFlag));
/// ```
#[inline]
pub fn read(block_type: u8, specific: u8, body: &[u8]) -> Reading {
    // SAFETY: a slice's pointer is never null and is good for reading its length.
    let answer =
        unsafe { boundary::nuvaskoe_block_read(block_type, specific, body.as_ptr(), body.len()) };
    debug_assert_eq!((answer.refusal.number, answer.refusal.place), (0, 0));
    Reading::new(&answer)
}
