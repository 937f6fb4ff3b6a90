//! Traces measured, and their blocks.

use super::{
    print, race,
    support::{
        events::library_event,
        measuring::{figures_both, trace_block_both, LONGEST},
        Random,
    },
};
use independent::{burst, summary, trace::Event};
use nuvaskoe::figures;
use std::hint::black_box;

pub const GMIN: u32 = 16;
pub const SPACING: u32 = 400;
/// The source and the interval flag of a block.
pub const REPORT: (u32, u8) = (5, 2);

/// A trace as long as one may be, and its name.
pub type Named = (&'static str, Vec<u8>);

pub fn time(traces: &[Named]) {
    for (name, trace) in traces {
        time_trace(name, trace, Event::Lost);
    }
    let (_, one_in_20) = &traces[0];
    time_loss("5 % lost, its 17", one_in_20);
    let discarded: Vec<u8> = one_in_20.iter().map(|packet| 2 * packet).collect();
    time_discard("5 % discarded, its 18", &discarded);
}

/// The traces that are measured.
pub fn traces() -> [Named; 4] {
    let mut random = Random::new("bench");
    let one_in_20: Vec<u8> = (0..LONGEST)
        .map(|_| u8::from(random.below(20) == 0))
        .collect();
    [
        ("5 % lost at random", one_in_20),
        ("lost in bursts", bursty(&mut random)),
        ("all lost", vec![1; LONGEST]),
        ("none lost", vec![0; LONGEST]),
    ]
}

/// Runs of up to 30 packets, four of five lost, between up to 400 received.
fn bursty(random: &mut Random) -> Vec<u8> {
    let mut trace = Vec::new();
    while trace.len() < LONGEST {
        trace.resize(trace.len() + 1 + random.below(400), 0);
        for _ in 0..random.below(30) {
            trace.push(u8::from(random.below(5) != 0));
        }
    }
    trace.truncate(LONGEST);
    trace
}

pub fn time_trace(name: &str, trace: &[u8], event: Event) {
    figures_both(trace, GMIN, SPACING, event).expect("a good trace");
    let choice = library_event(event);
    let (wide_gmin, wide_spacing) = (GMIN.into(), SPACING.into());
    let times = race(
        || figures::of_trace(black_box(trace), GMIN, SPACING, choice),
        || burst::running_figures(black_box(trace), wide_gmin, wide_spacing, event),
    );
    print(name, trace.len(), "figs", times);
}

fn time_loss(name: &str, trace: &[u8]) {
    trace_block_both(trace, (GMIN, SPACING), Event::Lost, REPORT).expect("a good trace");
    let (wide_gmin, wide_spacing) = (GMIN.into(), SPACING.into());
    let (source, flag) = black_box(REPORT);
    let times = race(
        || figures::loss_of_trace(black_box(trace), GMIN, SPACING, source, flag),
        || summary::loss_of_trace(black_box(trace), wide_gmin, wide_spacing, source, flag),
    );
    print(name, trace.len(), "block", times);
}

fn time_discard(name: &str, trace: &[u8]) {
    trace_block_both(trace, (GMIN, SPACING), Event::Discarded, REPORT).expect("a good trace");
    let (wide_gmin, wide_spacing) = (GMIN.into(), SPACING.into());
    let (source, flag) = black_box(REPORT);
    let times = race(
        || figures::discard_of_trace(black_box(trace), GMIN, SPACING, source, flag),
        || summary::discard_of_trace(black_box(trace), wide_gmin, wide_spacing, source, flag),
    );
    print(name, trace.len(), "block", times);
}
