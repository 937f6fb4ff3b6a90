//! Tallies, figures and their blocks.

use super::{call, number, Call};
use crate::support::{
    boundary::Tally,
    drawn_tallies::any_numbers,
    events::any_event,
    measuring::{
        any_figures, any_report, any_settings, any_trace, discard_block_both, figures_numbered,
        loss_block_both, trace_block_both,
    },
    tallies::{close_numbered, open_numbered, take_numbered, tally_block_numbered},
    Random,
};
use independent::{burst::Figures, trace::Event};

pub fn calls() -> Vec<Call> {
    vec![
        call(
            "tally_open",
            &[15],
            |random| (any_settings(random), any_event(random)),
            |((gmin, spacing), event)| number(&open_numbered(*gmin, *spacing, *event)),
        ),
        call("tally_take", &[15, 10, 9], taking, |(tally, packet)| {
            number(&take_numbered(*tally, *packet).1)
        }),
        call("tally_close", &[15], any_numbers, |tally| {
            number(&close_numbered(*tally))
        }),
        call(
            "tally_block",
            &[15],
            |random| (any_numbers(random), any_report(random)),
            |(tally, (source, flag))| number(&tally_block_numbered(*tally, *source, *flag)),
        ),
        call(
            "figures",
            &[15, 10, 9],
            measuring,
            |(trace, (gmin, spacing), event)| {
                number(&figures_numbered(trace, *gmin, *spacing, *event))
            },
        ),
        call("loss_of_trace", &[15, 10, 9], traced, |traced| {
            block_of(traced, Event::Lost)
        }),
        call("discard_of_trace", &[15, 10, 9], traced, |traced| {
            block_of(traced, Event::Discarded)
        }),
        call("loss_block", &[], reported, |(figures, source, flag)| {
            loss_block_both(figures, *source, *flag);
            0
        }),
        call("discard_block", &[], reported, |(figures, source, flag)| {
            discard_block_both(figures, *source, *flag);
            0
        }),
    ]
}

/// A tally and a packet, at times one that no trace has.
fn taking(random: &mut Random) -> (Tally, u8) {
    let any = random.byte();
    let packet = random.one_of(&[0, 0, 1, 1, 1, 2, 2, 2, 3, any]);
    (any_numbers(random), packet)
}

fn measuring(random: &mut Random) -> (Vec<u8>, (u32, u32), u32) {
    let event = any_event(random);
    (any_trace(random), any_settings(random), event)
}

/// A trace, its settings, and the source and flag of its block.
type Traced = (Vec<u8>, (u32, u32), (u32, u8));

fn traced(random: &mut Random) -> Traced {
    let report = any_report(random);
    (any_trace(random), any_settings(random), report)
}

fn block_of((trace, settings, report): &Traced, event: Event) -> u32 {
    number(&trace_block_both(trace, *settings, event, *report))
}

/// Figures, a source and an interval flag.
fn reported(random: &mut Random) -> (Figures, u32, u8) {
    let (source, flag) = any_report(random);
    (any_figures(random), source, flag)
}
