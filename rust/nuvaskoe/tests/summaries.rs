//! The blocks of whole traces and of tallies, with both implementations: a 17 is of the lost
//! packets and an 18 of the discarded, and no block is of either.

mod support;

use independent::{
    block::{Block, Discard, Loss, Reading},
    burst::Figures,
    trace::Event,
};
use nuvaskoe::tally::Tally;
use support::{
    adding::{add_both, add_lawfully, with_room},
    answers::Answer,
    boundary,
    compare::block_both,
    drawn_tallies::{random_hostile, random_reached},
    events::{independent_event, library_event, many_no_events, REPORTED},
    from_env,
    measuring::{
        all_traces, any_report, any_trace, discard_block_both, figures_both, loss_block_both,
        random_gmin, random_spacing, random_trace, trace_block_both, LONGEST, OVER_RANGE,
        UNAVAILABLE,
    },
    packets::{listed, packet},
    tallies::{at_boundary, close_both, tally_block_both, tally_block_numbered},
    Random,
};

/// The block that reports figures of these events; there is none of either.
fn block_of(event: Event, figures: &Figures, (source, flag): (u32, u8)) -> Answer<Block> {
    match event {
        Event::Lost => Ok(loss_block_both(figures, source, flag)),
        Event::Discarded => Ok(discard_block_both(figures, source, flag)),
        Event::Either => Err((15, 0)),
    }
}

/// Each block of the trace is the one of the figures of its event, or refused as they are.
fn check_trace(trace: &[u8], settings: (u32, u32), report: (u32, u8)) {
    for event in REPORTED {
        let measured = figures_both(trace, settings.0, settings.1, event);
        let expected = measured.and_then(|figures| block_of(event, &figures, report));
        assert_eq!(trace_block_both(trace, settings, event, report), expected);
    }
}

#[test]
fn all_short_traces() {
    for length in 1..=8 {
        for trace in all_traces(length) {
            for gmin in 1..=3 {
                check_trace(&trace, (gmin, 40_000), (7, 3));
            }
        }
    }
}

#[test]
fn random_traces() {
    let mut random = Random::new("random_traces");
    for _ in 0..from_env("NUVASKOE_TRACES", 400) {
        let most = random.one_of(&[30, 1_000, LONGEST]);
        let length = 1 + random.below(most);
        let trace = random_trace(&mut random, length);
        let settings = (random_gmin(&mut random), random_spacing(&mut random));
        check_trace(&trace, settings, any_report(&mut random));
    }
}

/// Settings past their limits, and traces that are bad, empty or too long: 15, 10, 9.
#[test]
fn refused_traces() {
    let mut random = Random::new("refused_traces");
    let mut traces: Vec<_> = (0..40).map(|_| any_trace(&mut random)).collect();
    traces.extend([vec![], vec![3], vec![1; LONGEST], vec![1; LONGEST + 1]]);
    for gmin in [0, 1, 255, 256, 65_537, u32::MAX] {
        for spacing in [0, 1, 40_000, 40_001, 1 << 31, u32::MAX] {
            for trace in &traces {
                check_trace(trace, (gmin, spacing), any_report(&mut random));
            }
        }
    }
}

fn loss([burst_rate, gap_rate, mean, variance]: [u16; 4]) -> Answer<Block> {
    Ok(Block::Loss(Loss {
        flag: 3,
        source: 7,
        burst_rate,
        gap_rate,
        mean,
        variance,
    }))
}

fn discard([burst_rate, gap_rate]: [u16; 2]) -> Answer<Block> {
    Ok(Block::Discard(Discard {
        flag: 3,
        source: 7,
        burst_rate,
        gap_rate,
    }))
}

/// A trace, Gmin, the figures of its 17 and the rates of its 18.
type Measured<'a> = (&'a [u8], u32, [u16; 4], [u16; 2]);

/// Traces with both kinds of packets, or with the other one alone.
#[test]
fn both_kinds_of_packets() {
    const NO_BURST: [u16; 4] = [UNAVAILABLE, 0, UNAVAILABLE, UNAVAILABLE];
    let cases: [Measured; 6] = [
        // Bursts of 2 and 5 milliseconds: 9 / 4.
        (
            &[1, 1, 0, 1, 1, 1, 1, 1],
            1,
            [32_768, 0, 3, 2],
            [UNAVAILABLE, 0],
        ),
        // Two lost together, and one discarded by itself.
        (&[1, 1, 0, 0, 2], 1, [32_768, 0, 2, 0], [UNAVAILABLE, 6_553]),
        (
            &[2, 2, 0, 0, 1],
            1,
            [UNAVAILABLE, 6_553, UNAVAILABLE, UNAVAILABLE],
            [32_768, 0],
        ),
        // A 17 counts no discarded packet, and an 18 no lost one.
        (&[2, 2, 2], 16, NO_BURST, [32_768, UNAVAILABLE]),
        (
            &[1, 1, 1],
            16,
            [32_768, UNAVAILABLE, 3, 0],
            [UNAVAILABLE, 0],
        ),
        // Each kind stands between the other's.
        (&[1, 2, 1, 2, 0, 0], 2, [21_845, 0, 3, 0], [21_845, 0]),
    ];
    for (trace, gmin, of_lost, of_discarded) in cases {
        let both = REPORTED.map(|event| trace_block_both(trace, (gmin, 1_000), event, (7, 3)));
        assert_eq!(both, [loss(of_lost), discard(of_discarded)]);
    }
}

/// Where the figures differ, a 17 with those of the discarded is not the block of the trace.
#[test]
fn figures_of_the_other_event() {
    let (trace, report) = ([1, 1, 0, 0, 2], (7, 3));
    let [lost, discarded] = REPORTED.map(|event| {
        let measured = figures_both(&trace, 1, 1_000, event);
        measured.expect("a good trace")
    });
    for (event, own, other) in [
        (Event::Lost, lost, discarded),
        (Event::Discarded, discarded, lost),
    ] {
        let measured = trace_block_both(&trace, (1, 1_000), event, report);
        assert_eq!(measured, block_of(event, &own, report));
        assert_ne!(measured, block_of(event, &other, report));
    }
}

/// A lone loss, no figure at all, and a mean over range.
#[test]
fn marks_of_figures() {
    let lone = [UNAVAILABLE, 32_768, UNAVAILABLE, UNAVAILABLE];
    let longest = vec![1; LONGEST];
    let over = [32_768, UNAVAILABLE, OVER_RANGE, 0];
    for (trace, figures) in [(&[1][..], lone), (&longest, over)] {
        let answer = trace_block_both(trace, (16, 1_000), Event::Lost, (7, 3));
        assert_eq!(answer, loss(figures));
    }
    let unavailable = [loss([UNAVAILABLE; 4]), discard([UNAVAILABLE; 2])];
    for (event, expected) in REPORTED.into_iter().zip(unavailable) {
        let opened = Tally::open(16, 1_000, library_event(event)).expect("good settings");
        assert_eq!(tally_block_both(opened, 7, 3), expected);
    }
}

/// After every packet a tally's block is that of the packets so far, and of its event's kind.
#[test]
fn tallies_of_traces() {
    let mut random = Random::new("tallies_of_traces");
    for _ in 0..from_env("NUVASKOE_TRACES", 150) {
        let length = 1 + random.below(300);
        let trace = random_trace(&mut random, length);
        let (gmin, spacing) = (random_gmin(&mut random), random_spacing(&mut random));
        for event in REPORTED {
            let mut tally =
                Tally::open(gmin, spacing, library_event(event)).expect("good settings");
            for length in 1..=trace.len() {
                let (next, answer) = tally.take(trace[length - 1]);
                assert_eq!(answer, Ok(()));
                tally = next;
                let (source, flag) = any_report(&mut random);
                let prefix = &trace[..length];
                let whole = trace_block_both(prefix, (gmin, spacing), event, (source, flag));
                assert!(whole.is_ok());
                assert_eq!(tally_block_both(tally, source, flag), whole);
            }
        }
    }
}

/// Also of tallies that no trace gives: the block of what closing gives, or 15 as closing. One that
/// counts either closes, and has no block.
#[test]
fn any_tallies() {
    let mut random = Random::new("any_tallies");
    let (mut sound, mut unsound) = (0, 0);
    for _ in 0..from_env("NUVASKOE_HOSTILE", 300_000) {
        let given = random_hostile(&mut random);
        let (source, flag) = any_report(&mut random);
        let event = independent_event(given.event);
        let closed = close_both(given);
        let expected = closed.and_then(|figures| block_of(event, &figures, (source, flag)));
        assert_eq!(tally_block_both(given, source, flag), expected);
        match closed {
            Ok(_) => sound += 1,
            Err(refusal) => {
                assert_eq!(refusal, (15, 0));
                unsound += 1;
            }
        }
    }
    println!("{sound} sound, {unsound} not");
    assert!(sound >= 3_000 && unsound >= 30_000);
}

/// A number that is no event has no kind of block.
#[test]
fn no_event() {
    let mut random = Random::new("no_event");
    for event in many_no_events(&mut random) {
        for tally in [random_reached(&mut random), random_hostile(&mut random)] {
            let given = boundary::Tally {
                event,
                ..at_boundary(&tally)
            };
            for flag in [0, 1, 3, 255] {
                assert_eq!(tally_block_numbered(given, 7, flag), Err((15, 0)));
            }
        }
    }
}

/// The block reads back where its flag is 1 to 3, and is else refused with 16.
fn check_added(block: &Block, (source, flag): (u32, u8)) {
    let mut buffer = with_room(&packet(1, &[listed(14, source)]), 16);
    let added = add_lawfully(&mut buffer, block);
    if !(1..=3).contains(&flag) {
        assert_eq!(added, Err((16, 0)), "{block:?}");
        return;
    }
    let size = added.unwrap_or_else(|refusal| panic!("{block:?}: {refusal:?}"));
    let (_, reading) = block_both(&buffer[..size], 1).expect("the block added");
    assert_eq!(reading, Reading::Typed(*block));
}

#[test]
fn measured_blocks_are_added() {
    let mut random = Random::new("measured_blocks_are_added");
    for trace in all_traces(6) {
        let source = random.draw() as u32;
        for event in REPORTED {
            let mut tally = Tally::open(2, 40_000, library_event(event)).expect("good settings");
            for byte in &trace {
                tally = tally.take(*byte).0;
            }
            for flag in [0, 1, 2, 3, 4, 64, 255] {
                let report = (source, flag);
                let block = trace_block_both(&trace, (2, 40_000), event, report);
                assert_eq!(tally_block_both(tally, source, flag), block);
                check_added(&block.expect("a good trace"), report);
            }
        }
    }
}

/// A block that is not filled is refused where it is added all the same: its flag is 0.
#[test]
fn unfilled_blocks_are_not_added() {
    let unfilled = [
        Block::Loss(Loss {
            flag: 0,
            source: 0,
            burst_rate: 0,
            gap_rate: 0,
            mean: 0,
            variance: 0,
        }),
        Block::Discard(Discard {
            flag: 0,
            source: 0,
            burst_rate: 0,
            gap_rate: 0,
        }),
    ];
    for block in &unfilled {
        let mut buffer = with_room(&packet(1, &[listed(14, 0)]), 16);
        assert_eq!(add_both(&mut buffer, block), Err((16, 0)));
    }
}
