//! Figures of whole traces, and their blocks, with both implementations, by each choice of what
//! counts.

mod support;

use independent::{block::Reading, burst::Figures, trace::Event};
use support::{
    adding::{add_lawfully, writable},
    answers::Answer,
    compare::block_both,
    events::{by_each, EVENTS, REPORTED},
    from_env,
    measuring::{
        all_traces, any_figures, discard_block_both, figures_both, loss_block_both, random_gmin,
        random_spacing, random_trace, LONGEST, OVER_RANGE, UNAVAILABLE,
    },
    packets::{listed, packet},
    Random,
};

const LOST: Event = Event::Lost;

fn figures(burst_rate: u16, gap_rate: u16, mean: u16, variance: u16) -> Answer<Figures> {
    Ok(Figures {
        burst_rate,
        gap_rate,
        mean,
        variance,
    })
}

/// The figures by each choice, of a trace in which that counts the packets lost in this one.
fn figures_by_each(trace: &[u8], gmin: u32, spacing: u32) -> Answer<Figures> {
    by_each(trace, |trace, event| {
        figures_both(trace, gmin, spacing, event)
    })
}

/// P6 to P9 of document 01, P6 with document 02's variance.
#[test]
fn sheet() {
    let cases: [(&[u8], u32, _); 4] = [
        (
            &[1, 0, 1, 0, 0, 1, 0, 0, 0, 1, 1],
            2,
            figures(26_214, 5_461, 2, 0),
        ),
        (&[1, 1, 1], 16, figures(32_768, UNAVAILABLE, 3, 0)),
        (
            &[1],
            16,
            figures(UNAVAILABLE, 32_768, UNAVAILABLE, UNAVAILABLE),
        ),
        (
            &[0, 0, 0],
            16,
            figures(UNAVAILABLE, 0, UNAVAILABLE, UNAVAILABLE),
        ),
    ];
    for (trace, gmin, expected) in cases {
        assert_eq!(figures_by_each(trace, gmin, 1_000), expected);
    }
}

#[test]
fn all_short_traces() {
    for length in 1..=9 {
        for trace in all_traces(length) {
            for gmin in 1..=4 {
                for spacing in [700, 40_000] {
                    assert!(figures_by_each(&trace, gmin, spacing).is_ok());
                }
            }
        }
    }
}

#[test]
fn random_traces() {
    let mut random = Random::new("random_traces");
    for _ in 0..from_env("NUVASKOE_TRACES", 400) {
        let most = random.one_of(&[30, 1_000, LONGEST]);
        let length = 1 + random.below(most);
        let trace = random_trace(&mut random, length);
        for event in EVENTS {
            let (gmin, spacing) = (random_gmin(&mut random), random_spacing(&mut random));
            assert!(figures_both(&trace, gmin, spacing, event).is_ok());
        }
    }
}

/// Two events belong together when fewer than Gmin packets stand between them, whether
/// those are received or of a kind that does not count, and the two of one kind or not.
#[test]
fn every_gmin() {
    for gmin in 1..=255_u32 {
        for between in [gmin - 1, gmin, gmin + 1] {
            for (first, last, other, event) in [
                (1, 1, 0, LOST),
                (1, 1, 2, LOST),
                (2, 2, 0, Event::Discarded),
                (2, 2, 1, Event::Discarded),
                (1, 1, 0, Event::Either),
                (1, 2, 0, Event::Either),
                (2, 1, 0, Event::Either),
            ] {
                let mut trace = vec![other; between as usize + 2];
                (trace[0], trace[between as usize + 1]) = (first, last);
                let rate = (2 * 32_768 / (between + 2)) as u16;
                let expected = match between < gmin {
                    true => figures(rate, UNAVAILABLE, between as u16 + 2, 0),
                    false => figures(UNAVAILABLE, rate, UNAVAILABLE, UNAVAILABLE),
                };
                assert_eq!(figures_both(&trace, gmin, 1_000, event), expected);
            }
        }
    }
}

#[test]
fn every_spacing() {
    for spacing in 0..=40_001 {
        let expected = match spacing {
            1..=40_000 => figures(32_768, 0, (7 * spacing / 1_000).min(65_534) as u16, 0),
            _ => Err((15, 0)),
        };
        let trace = [1, 1, 1, 1, 1, 1, 1, 0];
        assert_eq!(figures_by_each(&trace, 1, spacing), expected);
    }
}

/// Settings at their limits, lengths and bytes: 15 comes before 10, and 10 before 9.
#[test]
fn refusals_in_order() {
    const SETTINGS: [u32; 11] = [
        0,
        1,
        2,
        255,
        256,
        257,
        40_000,
        40_001,
        65_537,
        1 << 31,
        u32::MAX,
    ];
    let mut traces = Vec::new();
    for length in [0, 1, 2, 3, LONGEST - 1, LONGEST, LONGEST + 1] {
        traces.push((vec![1; length], None));
        for place in [0, 1, 2, length / 2, length.saturating_sub(1)] {
            if place < length {
                let mut trace = vec![0; length];
                trace[place] = 3;
                trace[length - 1] = trace[length - 1].max(2);
                traces.push((trace, Some(place)));
            }
        }
    }
    for gmin in SETTINGS {
        for spacing in SETTINGS {
            let in_range = (1..=255).contains(&gmin) && (1..=40_000).contains(&spacing);
            for (trace, bad) in &traces {
                let refusal = match (in_range, trace.len(), bad) {
                    (false, ..) => Some((15, 0)),
                    (true, 0 | 65_537, _) => Some((10, 0)),
                    (true, _, Some(place)) => Some((9, *place)),
                    (true, _, None) => None,
                };
                for event in EVENTS {
                    let answer = figures_both(trace, gmin, spacing, event);
                    assert_eq!(answer.err(), refusal);
                }
            }
        }
    }
}

/// Every byte at every place of traces around a word's size, and another behind it.
#[test]
fn every_byte() {
    for length in [1, 2, 7, 8, 9, 15, 16, 17, 33] {
        for place in 0..length {
            for byte in 0..=u8::MAX {
                let mut trace = vec![1; length];
                trace[place] = byte;
                let expected = if byte > 2 { Some((9, place)) } else { None };
                assert_eq!(figures_by_each(&trace, 2, 1_000).err(), expected);
                if let (Some(_), Some(last)) = (expected, trace[place + 1..].last_mut()) {
                    *last = 255;
                    assert_eq!(figures_by_each(&trace, 2, 1_000).err(), expected);
                }
            }
        }
    }
}

/// The longest traces, of which all packets count or none.
#[test]
fn longest_traces() {
    for gmin in [1, 255] {
        for (spacing, mean) in [
            (1, 65),
            (999, 65_470),
            (1_000, OVER_RANGE),
            (40_000, OVER_RANGE),
        ] {
            let all = figures_by_each(&vec![1; LONGEST], gmin, spacing);
            assert_eq!(all, figures(32_768, UNAVAILABLE, mean, 0));
            for kind in [0, 2] {
                let none = figures_by_each(&vec![kind; LONGEST], gmin, spacing);
                assert_eq!(none, figures(UNAVAILABLE, 0, UNAVAILABLE, UNAVAILABLE));
            }
        }
    }
}

/// Bursts of these lengths with Gmin 1, and a received packet after each.
fn bursts(lengths: &[usize]) -> Vec<u8> {
    let mut trace = Vec::new();
    for length in lengths {
        trace.extend(vec![1; *length]);
        trace.push(0);
    }
    trace
}

/// Mean and variance of bursts of these lengths.
fn measured(lengths: &[usize], spacing: u32) -> Answer<(u16, u16)> {
    let answer = figures_both(&bursts(lengths), 1, spacing, LOST);
    answer.map(|figures| (figures.mean, figures.variance))
}

/// The squares of the differences over all pairs, divided by n × n: 1 / 4, 74 / 9 and 256 / 64;
/// and 0 of bursts of one duration.
#[test]
fn variances() {
    assert_eq!(measured(&[3, 2], 1_000), Ok((2, 0)));
    assert_eq!(measured(&[2, 5, 9], 1_000), Ok((5, 8)));
    assert_eq!(measured(&[2, 4, 4, 4, 5, 5, 7, 9], 1_000), Ok((5, 4)));
    for (lengths, spacing, mean) in [
        (vec![2; 1], 499, 0),
        (vec![2; 21_000], 1_000, 2),
        (vec![600; 100], 40_000, 24_000),
        (vec![30_000; 2], 40_000, OVER_RANGE),
        // Of 1.2 and of 1.6 milliseconds.
        (vec![3, 4, 4, 3], 400, 1),
    ] {
        assert_eq!(measured(&lengths, spacing), Ok((mean, 0)));
    }
}

/// Mean and variance up to 65,533 are sent as they are.
#[test]
fn over_range() {
    assert_eq!(measured(&[65_532], 1_000), Ok((65_532, 0)));
    assert_eq!(measured(&[65_533], 1_000), Ok((65_533, 0)));
    assert_eq!(measured(&[65_534], 1_000), Ok((OVER_RANGE, 0)));
    assert_eq!(measured(&[65_535], 1_000), Ok((OVER_RANGE, 0)));
    // Half the difference, squared: 255, 255.5 and 256.
    assert_eq!(measured(&[2, 512], 1_000), Ok((257, 65_025)));
    assert_eq!(measured(&[2, 513], 1_000), Ok((257, 65_280)));
    assert_eq!(measured(&[2, 514], 1_000), Ok((258, OVER_RANGE)));
    // 589,794 / 9, 12,844,468 / 196 and 589,806 / 9: 65,532, 65,533 and 65,534.
    assert_eq!(measured(&[2, 10, 549], 1_000), Ok((187, 65_532)));
    let fourteen = [vec![2; 13], vec![996]].concat();
    assert_eq!(measured(&fourteen, 1_000), Ok((73, 65_533)));
    assert_eq!(measured(&[2, 308, 629], 1_000), Ok((313, OVER_RANGE)));
    // Both over range, and a variance of 400 with a mean over range.
    assert_eq!(
        measured(&[30_000, 20_000], 40_000),
        Ok((OVER_RANGE, OVER_RANGE))
    );
    assert_eq!(measured(&[30_001, 30_000], 40_000), Ok((OVER_RANGE, 400)));
}

/// The blocks hold the figures and, unless refused with 16, read back. Those of `measured`
/// figures are not refused.
fn check_blocks(figures: &Figures, source: u32, flag: u8, measured: bool) {
    let blocks = [
        (loss_block_both(figures, source, flag), 56),
        (discard_block_both(figures, source, flag), 52),
    ];
    for (block, size) in blocks {
        let mut buffer = packet(1, &[listed(14, source)]);
        buffer.resize(64, 0);
        let good = writable(&block);
        assert!(good || !measured, "{block:?}");
        let expected = if good { Ok(size) } else { Err((16, 0)) };
        assert_eq!(add_lawfully(&mut buffer, &block), expected, "{block:?}");
        if good {
            let (_, reading) = block_both(&buffer[..size], 1).expect("the block added");
            assert_eq!(reading, Reading::Typed(block));
        }
    }
}

#[test]
fn blocks_of_traces() {
    let mut random = Random::new("blocks_of_traces");
    for length in 1..=7 {
        for trace in all_traces(length) {
            let flag = 1 + random.below(3) as u8;
            for event in REPORTED {
                let measured = figures_both(&trace, 2, 40_000, event).expect("a good trace");
                check_blocks(&measured, random.draw() as u32, flag, true);
            }
        }
    }
    for _ in 0..from_env("NUVASKOE_TRACES", 400) {
        let length = 1 + random.below(3_000);
        let trace = random_trace(&mut random, length);
        let (gmin, spacing) = (random_gmin(&mut random), random_spacing(&mut random));
        for event in REPORTED {
            let measured = figures_both(&trace, gmin, spacing, event).expect("a good trace");
            for flag in 1..=3 {
                check_blocks(&measured, random.draw() as u32, flag, true);
            }
        }
    }
}

/// A block is made of any figures and any flag; adding it judges them.
#[test]
fn blocks_of_any_figures() {
    let mut random = Random::new("blocks_of_any_figures");
    for flag in 0..=u8::MAX {
        for _ in 0..20 {
            let any = any_figures(&mut random);
            check_blocks(&any, random.draw() as u32, flag, false);
        }
    }
}
