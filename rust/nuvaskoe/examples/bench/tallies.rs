//! Tallies opened, given a packet, closed, and run over a whole trace; blocks of a tally and from
//! figures.

use super::{
    measuring::{Named, GMIN, REPORT, SPACING},
    print, race,
    support::{
        events::library_event,
        measuring::{discard_block_both, figures_both, library_figures, loss_block_both, LONGEST},
        tallies::{close_both, open_both, take_both, tally_block_both},
    },
};
use independent::{
    burst::{self, Figures},
    summary,
    tally::Tally as Independent,
    trace::Event,
};
use nuvaskoe::{figures, tally::Tally};
use std::hint::black_box;

/// The packets of a tally that is given one more and closed.
const TAKEN: usize = 1_000;

pub fn time(traces: &[Named]) {
    let lost = library_event(Event::Lost);
    open_both(GMIN, SPACING, lost).expect("good settings");
    let (gmin, spacing) = (u64::from(GMIN), u64::from(SPACING));
    let times = race(
        || Tally::open(black_box(GMIN), black_box(SPACING), black_box(lost)),
        || Independent::open(black_box(gmin), black_box(spacing), black_box(Event::Lost)),
    );
    print("tally", 0, "open", times);
    let (_, trace) = &traces[0];
    time_steps(&trace[..TAKEN]);
    for (name, trace) in traces {
        time_whole(name, trace);
    }
    let measured = figures_both(trace, GMIN, SPACING, Event::Lost).expect("a good trace");
    time_blocks(&measured);
}

/// A tally of each, after the same packets: a lost packet more, a received one, closing, and its
/// block.
fn time_steps(trace: &[u8]) {
    let (ours, theirs) = (take_ours(trace), take_theirs(trace));
    let closed = close_both(ours);
    assert_eq!(closed, Ok(theirs.close().expect("a sound tally")));
    for (name, packet) in [("tally, a lost packet", 1), ("tally, a received one", 0)] {
        let (next, answer) = take_both(ours, packet);
        assert_eq!(answer, Ok(()));
        let (their_next, _) = theirs.take(packet);
        assert_eq!(
            close_both(next),
            Ok(their_next.close().expect("a sound tally"))
        );
        let times = race(
            || black_box(ours).take(black_box(packet)),
            || black_box(theirs).take(black_box(packet)),
        );
        print(name, trace.len(), "take", times);
    }
    let times = race(|| black_box(ours).close(), || black_box(theirs).close());
    print("tally", trace.len(), "close", times);
    let (source, flag) = REPORT;
    let block = tally_block_both(ours, source, flag).expect("a sound tally");
    assert_eq!(summary::of_tally(theirs, source, flag), Ok(block));
    let times = race(
        || black_box(ours).block(black_box(source), black_box(flag)),
        || summary::of_tally(black_box(theirs), black_box(source), black_box(flag)),
    );
    print("tally, its 17", trace.len(), "block", times);
}

/// Opened, given every packet of the trace, and closed.
fn time_whole(name: &str, trace: &[u8]) {
    assert_eq!(trace.len(), LONGEST);
    let figures = figures_both(trace, GMIN, SPACING, Event::Lost).expect("a good trace");
    assert_eq!(close_both(take_ours(trace)), Ok(figures));
    assert_eq!(take_theirs(trace).close(), Ok(figures));
    let times = race(
        || take_ours(black_box(trace)).close(),
        || take_theirs(black_box(trace)).close(),
    );
    print(name, trace.len(), "tally", times);
}

fn take_ours(trace: &[u8]) -> Tally {
    let event = library_event(Event::Lost);
    let mut tally = Tally::open(GMIN, SPACING, event).expect("good settings");
    for packet in trace {
        let (next, answer) = tally.take(*packet);
        answer.expect("a good packet");
        tally = next;
    }
    tally
}

fn take_theirs(trace: &[u8]) -> Independent {
    let (gmin, spacing) = (GMIN.into(), SPACING.into());
    let mut tally = Independent::open(gmin, spacing, Event::Lost).expect("good settings");
    for packet in trace {
        let (next, answer) = tally.take(*packet);
        answer.expect("a good packet");
        tally = next;
    }
    tally
}

/// The two kinds of block that report figures.
fn time_blocks(theirs: &Figures) {
    let ours: figures::Figures = library_figures(theirs);
    let (source, flag) = REPORT;
    loss_block_both(theirs, source, flag);
    discard_block_both(theirs, source, flag);
    let times = race(
        || black_box(&ours).loss_block(black_box(source), black_box(flag)),
        || burst::loss_block(black_box(theirs), black_box(source), black_box(flag)),
    );
    print("figures, their 17", 16, "block", times);
    let times = race(
        || black_box(&ours).discard_block(black_box(source), black_box(flag)),
        || burst::discard_block(black_box(theirs), black_box(source), black_box(flag)),
    );
    print("figures, their 18", 12, "block", times);
}
