//! The library's figures and their blocks beside the independent ones, and traces to measure.

use super::{
    adding::library_block,
    answers::{ours, refusal, theirs, Answer},
    batches::spoil,
    boundary::{BurstFigures, DiscardSummary, Figured, LossSummary, Summary},
    events::{event_numbered, library_event, number_of},
    raw, Random,
};
use independent::{
    block::Block,
    burst::{self, Figures},
    summary,
    trace::Event,
};
use nuvaskoe::{
    block, figures as library,
    values::{Figure, Rate},
};

/// The longest trace.
pub const LONGEST: usize = 65_536;
pub const UNAVAILABLE: u16 = burst::UNAVAILABLE;
pub const OVER_RANGE: u16 = burst::OVER_RANGE;

/// Measures `trace`, and gives the answer on which all agree. An event that is none is refused.
pub fn figures_numbered(trace: &[u8], gmin: u32, spacing: u32, event: u32) -> Answer<Figures> {
    let expected = match event_numbered(event) {
        None => Err((15, 0)),
        Some(event) => safe_both(trace, gmin, spacing, event),
    };
    assert_eq!(
        raw::figures(trace, gmin, spacing, event),
        figured(&expected),
        "{} packets {:?}, {gmin}, {spacing}, {event}",
        trace.len(),
        &trace[..trace.len().min(64)]
    );
    expected
}

/// The whole answer of the boundary: all figures are unavailable where refused.
pub fn figured(answer: &Answer<Figures>) -> Figured {
    let numbers = |part: fn(&Figures) -> u16| answer.as_ref().map_or(UNAVAILABLE, part);
    Figured {
        refusal: refusal(answer),
        figures: BurstFigures {
            burst_rate: numbers(|figures| figures.burst_rate),
            gap_rate: numbers(|figures| figures.gap_rate),
            burst_mean: numbers(|figures| figures.mean),
            burst_variance: numbers(|figures| figures.variance),
        },
    }
}

/// The same of an event.
pub fn figures_both(trace: &[u8], gmin: u32, spacing: u32, event: Event) -> Answer<Figures> {
    figures_numbered(trace, gmin, spacing, number_of(event))
}

/// Measures `trace` with the library's safe call and with both independent forms.
fn safe_both(trace: &[u8], gmin: u32, spacing: u32, event: Event) -> Answer<Figures> {
    let library = library::of_trace(trace, gmin, spacing, library_event(event));
    let library = ours(library).map(|figures| independent_figures(&figures));
    let (wide_gmin, wide_spacing) = (u64::from(gmin), u64::from(spacing));
    for independent in [burst::figures, burst::running_figures] {
        assert_eq!(
            library,
            theirs(independent(trace, wide_gmin, wide_spacing, event)),
            "{} packets {:?}, {gmin}, {spacing}, {event:?}",
            trace.len(),
            &trace[..trace.len().min(64)]
        );
    }
    library
}

/// The block 17 of these figures, on which both agree.
pub fn loss_block_both(figures: &Figures, source: u32, flag: u8) -> Block {
    let library = library_figures(figures).loss_block(source, flag);
    let independent = burst::loss_block(figures, source, flag);
    assert_eq!(library, library_block(&independent), "{source}, {flag}");
    independent
}

/// The block 18 of these figures, on which both agree.
pub fn discard_block_both(figures: &Figures, source: u32, flag: u8) -> Block {
    let library = library_figures(figures).discard_block(source, flag);
    let independent = burst::discard_block(figures, source, flag);
    assert_eq!(library, library_block(&independent), "{source}, {flag}");
    independent
}

/// The block of a whole trace that reports these events, on which all agree.
pub fn trace_block_both(
    trace: &[u8],
    (gmin, spacing): (u32, u32),
    event: Event,
    (source, flag): (u32, u8),
) -> Answer<Block> {
    let (wide_gmin, wide_spacing) = (u64::from(gmin), u64::from(spacing));
    let (whole, safe, independent) = match event {
        Event::Lost => (
            raw::loss_of_trace(trace, gmin, spacing, source, flag),
            library::loss_of_trace(trace, gmin, spacing, source, flag).map(block::Block::Loss),
            summary::loss_of_trace(trace, wide_gmin, wide_spacing, source, flag),
        ),
        Event::Discarded => (
            raw::discard_of_trace(trace, gmin, spacing, source, flag),
            library::discard_of_trace(trace, gmin, spacing, source, flag)
                .map(block::Block::Discard),
            summary::discard_of_trace(trace, wide_gmin, wide_spacing, source, flag),
        ),
        Event::Either => unreachable!("no block has these events"),
    };
    let expected = theirs(independent);
    let input = || {
        let front = &trace[..trace.len().min(64)];
        let packets = trace.len();
        format!("{packets} packets {front:?}, {gmin}, {spacing}, {event:?}, {source}, {flag}")
    };
    let in_our_words = expected.map(|block| library_block(&block));
    assert_eq!(ours(safe), in_our_words, "{}", input());
    assert_eq!(whole, summarized(&expected), "{}", input());
    expected
}

/// The whole answer of the boundary: a block that is not filled is all 0, and so are both where
/// refused.
pub fn summarized(answer: &Answer<Block>) -> Summary {
    let mut summary = Summary {
        refusal: refusal(answer),
        block_type: 0,
        loss: NO_LOSS,
        discard: NO_DISCARD,
    };
    match answer {
        Err(_) => {}
        Ok(Block::Loss(block)) => (summary.block_type, summary.loss) = (17, block.into()),
        Ok(Block::Discard(block)) => (summary.block_type, summary.discard) = (18, block.into()),
        Ok(other) => unreachable!("{other:?}"),
    }
    summary
}

const NO_LOSS: LossSummary = LossSummary {
    flag: 0,
    source: 0,
    burst_rate: 0,
    gap_rate: 0,
    burst_mean: 0,
    burst_variance: 0,
};

const NO_DISCARD: DiscardSummary = DiscardSummary {
    flag: 0,
    source: 0,
    burst_rate: 0,
    gap_rate: 0,
};

/// The independent figures in the library's words.
pub fn library_figures(figures: &Figures) -> library::Figures {
    library::Figures::new(
        Rate(figures.burst_rate),
        Rate(figures.gap_rate),
        Figure(figures.mean),
        Figure(figures.variance),
    )
}

/// The library's figures in the independent words.
pub fn independent_figures(figures: &library::Figures) -> Figures {
    Figures {
        burst_rate: figures.burst_rate.0,
        gap_rate: figures.gap_rate.0,
        mean: figures.mean.0,
        variance: figures.variance.0,
    }
}

/// Every trace of `length` packets.
pub fn all_traces(length: u32) -> impl Iterator<Item = Vec<u8>> {
    (0..3_u32.pow(length)).map(move |number| {
        let digit = |place| (number / 3_u32.pow(place) % 3) as u8;
        (0..length).map(digit).collect()
    })
}

/// Short and long runs of mostly one kind of packet.
pub fn random_trace(random: &mut Random, length: usize) -> Vec<u8> {
    let mut trace = Vec::with_capacity(length);
    while trace.len() < length {
        let longest = random.one_of(&[2, 20, 300, 5_000]);
        let run = 1 + random.below(longest);
        let kind = random.one_of(&[0, 0, 1, 2]);
        let one_in = random.one_of(&[2, 5, 17, 256, 100_000]);
        for _ in 0..run.min(length - trace.len()) {
            let other = random.below(one_in) == 0;
            trace.push(if other { random.below(3) as u8 } else { kind });
        }
    }
    trace
}

/// A trace of any length, empty and too long ones among them, at times with bytes above 2.
pub fn any_trace(random: &mut Random) -> Vec<u8> {
    let most = random.one_of(&[2, 12, 100, 1_000, 6_000]);
    let length = match random.below(400) {
        0 => LONGEST,
        1..=12 => 0,
        13..=24 => LONGEST + 1 + random.below(2),
        _ => 1 + random.below(most),
    };
    let mut trace = random_trace(random, length);
    spoil(random, &mut trace);
    trace
}

/// Gmin, often at its limits.
pub fn random_gmin(random: &mut Random) -> u32 {
    let any = random.within(&(1..=255));
    random.one_of(&[1, 2, 3, 16, 254, 255, any, any])
}

/// Spacing, often at its limits.
pub fn random_spacing(random: &mut Random) -> u32 {
    let any = random.within(&(1..=40_000));
    random.one_of(&[1, 999, 1_000, 1_001, 39_999, 40_000, any, any])
}

/// Gmin and spacing at their limits, some past them.
pub fn any_settings(random: &mut Random) -> (u32, u32) {
    const PAST: [u32; 8] = [0, 256, 40_001, 65_536, 65_537, 65_791, 1 << 31, u32::MAX];
    let (mut gmin, mut spacing) = (random_gmin(random), random_spacing(random));
    match random.below(12) {
        0 => gmin = random.one_of(&PAST),
        1 => spacing = random.one_of(&[0, 40_001, 65_536, 65_537, 1 << 31, u32::MAX]),
        2 => (gmin, spacing) = (spacing, gmin),
        _ => {}
    }
    (gmin, spacing)
}

/// A source and an interval flag, good or not.
pub fn any_report(random: &mut Random) -> (u32, u8) {
    let any = random.byte();
    let flag = random.one_of(&[0, 1, 2, 3, 4, any]);
    (random.draw() as u32, flag)
}

/// Figures that a trace may or may not have.
pub fn any_figures(random: &mut Random) -> Figures {
    let mut half = || {
        let any = random.draw() as u16;
        random.one_of(&[0, 1, 32_768, 32_769, 65_534, 65_535, any])
    };
    Figures {
        burst_rate: half(),
        gap_rate: half(),
        mean: half(),
        variance: half(),
    }
}
