//! Tallies fed packet by packet, with both implementations: at every point they close with
//! the figures of the packets so far, by each choice of what counts. No other number is an event.

mod support;

use independent::{burst::Figures, late_tally, tally::Tally as Independent, trace::Event};
use nuvaskoe::tally::{Stretch, Sums, Tally};
use support::{
    answers::Answer,
    boundary,
    drawn_tallies::{random_hostile, random_reached},
    events::{library_event, many_no_events, EVENTS},
    from_env,
    measuring::{
        figures_both, figures_numbered, random_gmin, random_spacing, random_trace, LONGEST,
        UNAVAILABLE,
    },
    tallies::{
        at_boundary, close_both, close_numbered, independent_tally, open_both, open_numbered,
        take_both, take_numbered,
    },
    Random,
};

const NO_PACKET: Answer<Figures> = Ok(Figures {
    burst_rate: UNAVAILABLE,
    gap_rate: UNAVAILABLE,
    mean: UNAVAILABLE,
    variance: UNAVAILABLE,
});

/// A tally of each, fed alike.
#[derive(Clone, Copy)]
struct Pair {
    ours: Tally,
    theirs: Independent,
}

impl Pair {
    fn open(gmin: u32, spacing: u32, event: Event) -> Pair {
        let ours = Tally::open(gmin, spacing, library_event(event)).expect("good settings");
        let theirs = Independent::open(gmin.into(), spacing.into(), event).expect("good settings");
        Pair { ours, theirs }
    }

    /// Both take a good packet.
    fn take(self, packet: u8) -> Pair {
        let (ours, answer) = take_both(self.ours, packet);
        assert_eq!(answer, Ok(()), "{:?}, {packet}", self.ours);
        let (theirs, answer) = self.theirs.take(packet);
        assert_eq!(answer, Ok(()), "{:?}, {packet}", self.theirs);
        Pair { ours, theirs }
    }

    /// Both are sound, and close alike.
    fn close(self) -> Answer<Figures> {
        assert!(independent_tally(&self.ours).sound(), "{:?}", self.ours);
        let answer = close_both(self.ours);
        assert_eq!(answer, Ok(self.theirs.close().expect("a sound tally")));
        answer
    }
}

#[test]
fn opened() {
    const SETTINGS: [u32; 9] = [0, 1, 2, 255, 256, 40_000, 40_001, 1 << 31, u32::MAX];
    for gmin in SETTINGS {
        for spacing in SETTINGS {
            for event in EVENTS {
                let answer = open_both(gmin, spacing, library_event(event));
                let good = (1..=255).contains(&gmin) && (1..=40_000).contains(&spacing);
                let (sums, stretch) = (Sums::default(), Stretch::default());
                let fresh = Tally::from_parts(gmin, spacing, library_event(event), sums, stretch);
                let expected = if good { Ok(fresh) } else { Err((15, 0)) };
                assert_eq!(answer, expected);
                // Handed in as it is, the same tally is refused for the same reason.
                let expected = if good { NO_PACKET } else { Err((15, 0)) };
                assert_eq!(close_both(fresh), expected);
                assert_eq!(take_both(fresh, 1).1.is_ok(), good);
            }
        }
    }
}

/// The tally holds the sums over all groups but the last, and the last.
fn check_held(tally: &Tally, trace: &[u8]) {
    let held = independent_tally(tally);
    let expected = late_tally::of_trace(trace, held.gmin, held.spacing, held.event);
    assert_eq!(held, expected, "{} packets", trace.len());
}

/// All traces that go on from `trace`, up to nine packets.
fn check_from(pair: Pair, trace: &mut Vec<u8>, gmin: u32, spacing: u32, event: Event) {
    let expected = match trace.is_empty() {
        true => NO_PACKET,
        false => figures_both(trace, gmin, spacing, event),
    };
    assert_eq!(pair.close(), expected, "{trace:?}");
    check_held(&pair.ours, trace);
    if trace.len() == 9 {
        return;
    }
    for packet in 0..=2 {
        trace.push(packet);
        check_from(pair.take(packet), trace, gmin, spacing, event);
        trace.pop();
    }
}

#[test]
fn all_short_traces() {
    for gmin in 1..=4 {
        for spacing in [1, 700, 40_000] {
            for event in EVENTS {
                let pair = Pair::open(gmin, spacing, event);
                check_from(pair, &mut Vec::new(), gmin, spacing, event);
            }
        }
    }
}

/// Closes after every packet as the independent tally does, and after some as the figures
/// of the packets so far.
fn check_fed(trace: &[u8], gmin: u32, spacing: u32, event: Event, every: usize) -> Tally {
    let mut pair = Pair::open(gmin, spacing, event);
    for (index, packet) in trace.iter().enumerate() {
        pair = pair.take(*packet);
        let closed = pair.close();
        let length = index + 1;
        if length % every == 0 || length == trace.len() {
            let prefix = figures_both(&trace[..length], gmin, spacing, event);
            assert_eq!(closed, prefix, "{length}");
        }
    }
    check_held(&pair.ours, trace);
    pair.ours
}

#[test]
fn every_prefix() {
    let mut random = Random::new("every_prefix");
    for _ in 0..from_env("NUVASKOE_TRACES", 150) {
        let most = random.one_of(&[30, 600]);
        let length = 1 + random.below(most);
        let trace = random_trace(&mut random, length);
        let (gmin, spacing) = (random_gmin(&mut random), random_spacing(&mut random));
        for event in EVENTS {
            check_fed(&trace, gmin, spacing, event, 1);
        }
    }
}

/// A tally at 65,536 packets takes no more, and is not changed by asking.
fn check_full(tally: Tally) {
    assert_eq!(tally.sums.packets, LONGEST as u64);
    for packet in 0..=u8::MAX {
        assert_eq!(take_both(tally, packet), (tally, Err((10, 0))));
    }
}

#[test]
fn long_traces() {
    let mut random = Random::new("long_traces");
    for _ in 0..from_env("NUVASKOE_LONG_TRACES", 6) {
        let trace = random_trace(&mut random, LONGEST);
        let (gmin, spacing) = (random_gmin(&mut random), random_spacing(&mut random));
        for event in EVENTS {
            check_full(check_fed(&trace, gmin, spacing, event, 9_973));
        }
    }
}

/// The longest traces of events alone, and with events just near enough or just too far apart.
#[test]
fn longest_regular_traces() {
    for (kinds, event) in [
        ([1, 1], Event::Lost),
        ([2, 2], Event::Discarded),
        ([1, 2], Event::Either),
    ] {
        for (gmin, spacing) in [(1, 1), (255, 40_000)] {
            for apart in [1, 2, 3, 255, 256, 257, LONGEST] {
                let mut trace = vec![0; LONGEST];
                let events = trace.iter_mut().step_by(apart);
                for (packet, kind) in events.zip(kinds.into_iter().cycle()) {
                    *packet = kind;
                }
                check_full(check_fed(&trace, gmin, spacing, event, 16_411));
            }
        }
    }
}

/// A byte above 2 is refused with place 0, wherever the tally stands, and changes nothing.
#[test]
fn bad_bytes() {
    let mut random = Random::new("bad_bytes");
    let trace = random_trace(&mut random, 300);
    for event in EVENTS {
        let mut pair = Pair::open(3, 1_000, event);
        for packet in &trace {
            for byte in 3..=u8::MAX {
                assert_eq!(take_both(pair.ours, byte), (pair.ours, Err((9, 0))));
            }
            pair = pair.take(*packet);
        }
    }
}

/// A number that is no event is refused with 15, whatever else is good or bad: no tally is
/// handed out, one that is handed in comes back as given, and no figure is available.
#[test]
fn every_number_that_is_no_event() {
    let mut random = Random::new("every_number_that_is_no_event");
    for event in many_no_events(&mut random) {
        for (gmin, spacing) in [(16, 1_000), (0, 1_000), (255, 40_000), (1, 40_001)] {
            assert_eq!(open_numbered(gmin, spacing, event), Err((15, 0)));
            for trace in [&[][..], &[0, 1, 2], &[1, 1, 3]] {
                let answer = figures_numbered(trace, gmin, spacing, event);
                assert_eq!(answer, Err((15, 0)));
            }
        }
        for tally in [random_reached(&mut random), random_hostile(&mut random)] {
            let given = boundary::Tally {
                event,
                ..at_boundary(&tally)
            };
            assert_eq!(close_numbered(given), Err((15, 0)));
            for packet in [0, 1, 2, 3, 255] {
                assert_eq!(take_numbered(given, packet), (given, Err((15, 0))));
            }
        }
    }
}
