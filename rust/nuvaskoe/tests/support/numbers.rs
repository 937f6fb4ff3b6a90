//! Independent blocks in the numbers of the boundary, by the words of include/nuvaskoe.h.

use super::{
    answers::{refusal, Answer},
    boundary,
};
use independent::block::{Block, Discard, Effective, Loss, Measurement, Reading, TransportStream};

/// The whole answer to asking for a block. Where refused, the verdict is unknown and all else 0.
pub fn block_answer(answer: &Answer<(u8, Reading)>) -> boundary::Block {
    let (block_type, verdict, fields) = match answer {
        Ok((block_type, reading)) => (u32::from(*block_type), reading.verdict(), fields(reading)),
        Err(_) => (0, Reading::Unknown.verdict(), [0; boundary::FIELDS]),
    };
    boundary::Block {
        refusal: refusal(answer),
        block_type,
        verdict,
        fields,
    }
}

/// "Where typed, or Loss RLE, by the names of its type's places; all others 0".
fn fields(reading: &Reading) -> [u32; boundary::FIELDS] {
    let front = match reading {
        Reading::Typed(block) => typed_fields(block),
        Reading::Rle(block) => vec![
            block.source,
            block.begin.into(),
            block.end.into(),
            block.packets().into(),
            block.lost.into(),
        ],
        Reading::Unknown | Reading::Dropped(_) => Vec::new(),
    };
    let mut fields = [0; boundary::FIELDS];
    fields[..front.len()].copy_from_slice(&front);
    fields
}

fn typed_fields(block: &Block) -> Vec<u32> {
    match block {
        Block::Measurement(block) => vec![
            block.source,
            block.first.into(),
            block.extended_first,
            block.extended_last,
            block.interval,
            block.seconds,
            block.fraction,
        ],
        Block::Loss(block) => vec![
            block.flag.into(),
            block.source,
            block.burst_rate.into(),
            block.gap_rate.into(),
            block.mean.into(),
            block.variance.into(),
        ],
        Block::Discard(block) => vec![
            block.flag.into(),
            block.source,
            block.burst_rate.into(),
            block.gap_rate.into(),
        ],
        Block::Effective(block) => vec![block.source, block.index.into()],
        Block::TransportStream(block) => stream_fields(block),
    }
}

/// "Source, begin, end, packets covered, streams, eight counts in the draft's order".
fn stream_fields(block: &TransportStream) -> Vec<u32> {
    let mut fields = vec![
        block.source,
        block.begin.into(),
        block.end.into(),
        block.packets().into(),
        block.streams,
    ];
    fields.extend(block.counts);
    fields
}

impl From<&Measurement> for boundary::Measurement {
    fn from(block: &Measurement) -> Self {
        Self {
            source: block.source,
            first: block.first,
            extended_first: block.extended_first,
            extended_last: block.extended_last,
            interval: block.interval,
            seconds: block.seconds,
            fraction: block.fraction,
        }
    }
}

impl From<&Loss> for boundary::LossSummary {
    fn from(block: &Loss) -> Self {
        Self {
            flag: block.flag,
            source: block.source,
            burst_rate: block.burst_rate,
            gap_rate: block.gap_rate,
            burst_mean: block.mean,
            burst_variance: block.variance,
        }
    }
}

impl From<&Discard> for boundary::DiscardSummary {
    fn from(block: &Discard) -> Self {
        Self {
            flag: block.flag,
            source: block.source,
            burst_rate: block.burst_rate,
            gap_rate: block.gap_rate,
        }
    }
}

impl From<&Effective> for boundary::EffectiveSummary {
    fn from(block: &Effective) -> Self {
        Self {
            source: block.source,
            index: block.index,
        }
    }
}

impl From<&TransportStream> for boundary::StreamCounts {
    fn from(block: &TransportStream) -> Self {
        Self {
            source: block.source,
            begin: block.begin,
            end: block.end,
            streams: block.streams,
            sync_losses: block.counts[0],
            sync_byte_errors: block.counts[1],
            continuity_errors: block.counts[2],
            transport_errors: block.counts[3],
            pcr_errors: block.counts[4],
            pcr_repetition_errors: block.counts[5],
            pcr_discontinuity_errors: block.counts[6],
            pts_errors: block.counts[7],
        }
    }
}
