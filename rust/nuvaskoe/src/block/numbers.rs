//! Blocks and the numbers that the boundary has for them.

use super::{
    Block, Discard, Effective, Loss, LossRle, Measurement, Reading, Reason, TransportStream,
    Verdict,
};
use crate::{
    boundary,
    values::{EffectiveIndex, Figure, Rate},
};

impl Reading {
    /// The reading in an answer that is no refusal.
    pub(crate) fn new(answer: &boundary::Block) -> Reading {
        let verdict = match answer.verdict {
            boundary::VERDICT_TYPED => {
                Verdict::Typed(Block::new(answer.block_type, &answer.fields))
            }
            boundary::VERDICT_RLE => Verdict::Rle(LossRle::new(&answer.fields)),
            without_fields => {
                unused(&answer.fields);
                match Reason::numbered(without_fields) {
                    Some(reason) => Verdict::Dropped(reason),
                    None if without_fields == boundary::VERDICT_UNKNOWN => Verdict::Unknown,
                    None => unreachable!("verdict {without_fields}"),
                }
            }
        };
        Reading {
            block_type: narrow(answer.block_type),
            verdict,
        }
    }
}

type Fields = [u32; boundary::FIELDS];

impl Block {
    fn new(block_type: u32, fields: &Fields) -> Block {
        match block_type {
            boundary::BLOCK_MEASUREMENT => Block::Measurement(Measurement::new(fields)),
            boundary::BLOCK_LOSS => Block::Loss(Loss::new(fields)),
            boundary::BLOCK_DISCARD => Block::Discard(Discard::new(fields)),
            boundary::BLOCK_EFFECTIVE => Block::Effective(Effective::new(fields)),
            boundary::BLOCK_STREAMS => Block::TransportStream(TransportStream::new(fields)),
            other => unreachable!("typed block of type {other}"),
        }
    }
}

impl Measurement {
    fn new(fields: &Fields) -> Measurement {
        let [source, first, extended_first, extended_last, interval, seconds, fraction, rest @ ..] =
            fields;
        unused(rest);
        Measurement {
            source: *source,
            first: narrow(*first),
            extended_first: *extended_first,
            extended_last: *extended_last,
            interval: *interval,
            seconds: *seconds,
            fraction: *fraction,
        }
    }
}

impl Loss {
    fn new(fields: &Fields) -> Loss {
        let [flag, source, burst_rate, gap_rate, mean, variance, rest @ ..] = fields;
        unused(rest);
        Loss {
            flag: narrow(*flag),
            source: *source,
            burst_rate: Rate(narrow(*burst_rate)),
            gap_rate: Rate(narrow(*gap_rate)),
            mean: Figure(narrow(*mean)),
            variance: Figure(narrow(*variance)),
        }
    }
}

impl Discard {
    fn new(fields: &Fields) -> Discard {
        let [flag, source, burst_rate, gap_rate, rest @ ..] = fields;
        unused(rest);
        Discard {
            flag: narrow(*flag),
            source: *source,
            burst_rate: Rate(narrow(*burst_rate)),
            gap_rate: Rate(narrow(*gap_rate)),
        }
    }
}

impl Effective {
    fn new(fields: &Fields) -> Effective {
        let [source, index, rest @ ..] = fields;
        unused(rest);
        Effective {
            source: *source,
            index: EffectiveIndex(narrow(*index)),
        }
    }
}

impl TransportStream {
    fn new(fields: &Fields) -> TransportStream {
        let [source, begin, end, packets, streams, counts @ ..] = fields;
        let stream = TransportStream {
            source: *source,
            begin: narrow(*begin),
            end: narrow(*end),
            streams: *streams,
            counts: *counts,
        };
        debug_assert_eq!(u32::from(stream.packets()), *packets);
        stream
    }
}

impl LossRle {
    fn new(fields: &Fields) -> LossRle {
        let [source, begin, end, packets, lost, rest @ ..] = fields;
        unused(rest);
        let rle = LossRle {
            source: *source,
            begin: narrow(*begin),
            end: narrow(*end),
            lost: narrow(*lost),
        };
        debug_assert_eq!(u32::from(rle.packets()), *packets);
        rle
    }
}

impl From<&Measurement> for boundary::Measurement {
    fn from(block: &Measurement) -> Self {
        Self {
            source: block.source,
            first: block.first,
            extended_first: block.extended_first,
            extended_last: block.extended_last,
            interval: block.interval,
            seconds: block.seconds,
            fraction: block.fraction,
        }
    }
}

impl From<&Loss> for boundary::LossSummary {
    fn from(block: &Loss) -> Self {
        Self {
            flag: block.flag,
            source: block.source,
            burst_rate: block.burst_rate.0,
            gap_rate: block.gap_rate.0,
            burst_mean: block.mean.0,
            burst_variance: block.variance.0,
        }
    }
}

impl From<&Discard> for boundary::DiscardSummary {
    fn from(block: &Discard) -> Self {
        Self {
            flag: block.flag,
            source: block.source,
            burst_rate: block.burst_rate.0,
            gap_rate: block.gap_rate.0,
        }
    }
}

impl From<boundary::LossSummary> for Loss {
    #[inline]
    fn from(block: boundary::LossSummary) -> Self {
        Self {
            flag: block.flag,
            source: block.source,
            burst_rate: Rate(block.burst_rate),
            gap_rate: Rate(block.gap_rate),
            mean: Figure(block.burst_mean),
            variance: Figure(block.burst_variance),
        }
    }
}

impl From<boundary::DiscardSummary> for Discard {
    #[inline]
    fn from(block: boundary::DiscardSummary) -> Self {
        Self {
            flag: block.flag,
            source: block.source,
            burst_rate: Rate(block.burst_rate),
            gap_rate: Rate(block.gap_rate),
        }
    }
}

impl From<&Effective> for boundary::EffectiveSummary {
    fn from(block: &Effective) -> Self {
        Self {
            source: block.source,
            index: block.index.0,
        }
    }
}

impl From<&TransportStream> for boundary::StreamCounts {
    fn from(block: &TransportStream) -> Self {
        let [sync_losses, sync_byte_errors, continuity_errors, transport_errors, rest @ ..] =
            block.counts;
        let [pcr_errors, pcr_repetition_errors, pcr_discontinuity_errors, pts_errors] = rest;
        Self {
            source: block.source,
            begin: block.begin,
            end: block.end,
            streams: block.streams,
            sync_losses,
            sync_byte_errors,
            continuity_errors,
            transport_errors,
            pcr_errors,
            pcr_repetition_errors,
            pcr_discontinuity_errors,
            pts_errors,
        }
    }
}

/// The boundary holds every number in 32 bits, within the width it has here.
fn narrow<T: TryFrom<u32>>(number: u32) -> T {
    T::try_from(number).unwrap_or_else(|_| unreachable!("{number} is too wide"))
}

/// The boundary leaves 0 in the fields that an answer does not have.
fn unused(fields: &[u32]) {
    debug_assert!(fields.iter().all(|field| *field == 0), "{fields:?}");
}
