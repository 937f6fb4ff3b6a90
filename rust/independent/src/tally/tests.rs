mod choices;
mod hostile;
mod last_line;

use super::*;
use crate::burst::{figures, UNAVAILABLE};
use crate::choices::EVENTS;
use Event::{Discarded, Either, Lost};

const NOTHING: Figures = Figures {
    burst_rate: UNAVAILABLE,
    gap_rate: UNAVAILABLE,
    mean: UNAVAILABLE,
    variance: UNAVAILABLE,
};

fn opened(gmin: u64, spacing: u64) -> Tally {
    Tally::open(gmin, spacing, Lost).unwrap()
}

fn after(mut tally: Tally, trace: &[u8]) -> Tally {
    for byte in trace {
        let answer;
        (tally, answer) = tally.take(*byte);
        assert_eq!(answer, Ok(()));
    }
    tally
}

fn lost(digits: &str, gmin: u64) -> Tally {
    let trace: Vec<u8> = digits.bytes().map(|digit| digit - b'0').collect();
    after(opened(gmin, 1_000), &trace)
}

/// Refused alike by both calls; the tally comes back as given, whatever the byte.
fn unsound(tally: Tally) {
    assert!(!tally.sound(), "{tally:?}");
    for byte in [0, 1, 2, 3, 255] {
        assert_eq!(tally.take(byte), (tally, Err(Refusal::SETTING)));
    }
    assert_eq!(tally.close(), Err(Refusal::SETTING));
}

/// Sound: both calls answer.
fn sound(tally: Tally) {
    assert!(tally.sound(), "{tally:?}");
    assert!(tally.close().is_ok());
    let full = tally.seen == 65_536;
    for byte in 0..=2 {
        let answer = tally.take(byte).1;
        assert_eq!(answer == Err(Refusal::TRACE_LENGTH), full);
    }
}

fn numbers(seed: u64) -> impl FnMut(u64) -> u64 {
    let mut state = seed;
    move |below| {
        state = state.wrapping_mul(6_364_136_223_846_793_005);
        state = state.wrapping_add(1_442_695_040_888_963_407);
        (state >> 33) % below
    }
}

/// P6 to P9, P6 with document 02's variance.
#[test]
fn the_sheet() {
    let sheet = [
        ("10100100011", 2, [26_214, 5_461, 2, 0]),
        ("111", 16, [32_768, UNAVAILABLE, 3, 0]),
        ("1", 16, [UNAVAILABLE, 32_768, UNAVAILABLE, UNAVAILABLE]),
        ("000", 16, [UNAVAILABLE, 0, UNAVAILABLE, UNAVAILABLE]),
    ];
    for (digits, gmin, [burst_rate, gap_rate, mean, variance]) in sheet {
        let expected = Figures {
            burst_rate,
            gap_rate,
            mean,
            variance,
        };
        assert_eq!(lost(digits, gmin).close(), Ok(expected), "{digits}");
    }
}

#[test]
fn no_packet_taken() {
    assert_eq!(opened(1, 1).close(), Ok(NOTHING));
}

#[test]
fn opening_checks_its_settings() {
    let settings = [
        (0, 1, false),
        (1, 0, false),
        (1, 1, true),
        (255, 40_000, true),
        (256, 1, false),
        (1, 40_001, false),
        (u64::MAX, u64::MAX, false),
    ];
    for (gmin, spacing, good) in settings {
        for event in EVENTS {
            match Tally::open(gmin, spacing, event) {
                Ok(tally) => assert!(good && tally.sound() && tally.event == event),
                Err(refusal) => assert!(!good && refusal == Refusal::SETTING),
            }
        }
    }
}

#[test]
fn a_stretch_is_closed_when_its_gap_reaches_gmin() {
    let open = |tally: Tally| (tally.open_events, tally.open_packets, tally.open_gap);
    let closed = |tally: Tally| (tally.bursts, tally.burst_packets, tally.burst_events);
    assert_eq!(open(lost("0", 2)), (0, 0, 0));
    assert_eq!(open(lost("01", 2)), (1, 1, 0));
    assert_eq!(open(lost("010", 2)), (1, 1, 1));
    // A lone event adds nothing.
    assert_eq!(open(lost("0100", 2)), (0, 0, 0));
    assert_eq!(closed(lost("0100", 2)), (0, 0, 0));
    assert_eq!(open(lost("0101", 2)), (2, 3, 0));
    assert_eq!(closed(lost("01010", 2)), (0, 0, 0));
    assert_eq!(open(lost("010100", 2)), (0, 0, 0));
    assert_eq!(closed(lost("010100", 2)), (1, 3, 2));
    assert_eq!(open(lost("11", 1)), (2, 2, 0));
    assert_eq!(closed(lost("110", 1)), (1, 2, 2));
    // A discarded packet stands between as a received one does.
    assert_eq!(open(lost("12", 2)), (1, 1, 1));
    assert_eq!(open(lost("122", 2)), (0, 0, 0));
}

/// Every prefix is a trace of its own; every tally on the way is sound.
fn follow(trace: &[u8], gmin: u64, spacing: u64, event: Event) {
    let mut tally = Tally::open(gmin, spacing, event).unwrap();
    for end in 1..=trace.len() {
        let answer;
        (tally, answer) = tally.take(trace[end - 1]);
        assert_eq!(answer, Ok(()));
        assert!(tally.sound());
        let open = tally.open_events > 0;
        assert!(tally.open_gap < if open { gmin } else { 1 });
        assert_eq!(open, tally.open_packets > 0);
        assert_eq!(tally.close(), figures(&trace[..end], gmin, spacing, event));
    }
}

#[test]
fn closing_equals_the_formulas_on_all_short_traces() {
    for number in 0..3_usize.pow(8) {
        let trace: Vec<u8> = (0..8)
            .map(|place| (number / 3_usize.pow(place) % 3) as u8)
            .collect();
        for gmin in 1..=4 {
            for event in EVENTS {
                follow(&trace, gmin, 700, event);
            }
        }
    }
}

#[test]
fn closing_equals_the_formulas_on_longer_traces() {
    let mut next = numbers(1);
    for _ in 0..300 {
        let (gmin, spacing) = (1 + next(255), 1 + next(40_000));
        let often = 1 + next(100);
        let trace: Vec<u8> = (0..200 + next(600))
            .map(|_| {
                if next(often) == 0 {
                    1 + next(2) as u8
                } else {
                    0
                }
            })
            .collect();
        for event in EVENTS {
            follow(&trace, gmin, spacing, event);
        }
    }
}

#[test]
fn the_longest_trace() {
    let mut next = numbers(2);
    for often in [1, 2, 20, 300] {
        let trace: Vec<u8> = (0..65_536).map(|_| u8::from(next(often) == 0)).collect();
        for gmin in [1, 16, 255] {
            let tally = after(opened(gmin, 40_000), &trace);
            assert_eq!(tally.close(), figures(&trace, gmin, 40_000, Lost));
            for byte in [0, 1, 2, 3, 255] {
                assert_eq!(tally.take(byte), (tally, Err(Refusal::TRACE_LENGTH)));
            }
        }
    }
}

#[test]
fn a_byte_above_2_comes_last() {
    for tally in [opened(2, 1_000), lost("10100100011", 2), lost("1", 16)] {
        for byte in 3..=255 {
            assert_eq!(tally.take(byte), (tally, Err(Refusal::trace_byte(0))));
        }
    }
}

/// One line of the list after another, at its limit and one past it.
#[test]
fn each_line_of_the_list() {
    // E 100, L 20, Eb 10, Lb 8, n 2, durations 4 and 6.
    let base = Tally {
        seen: 100,
        events: 20,
        burst_packets: 10,
        burst_events: 8,
        bursts: 2,
        duration_sum: 10,
        duration_squares: 52,
        ..opened(2, 1_000)
    };
    sound(base);
    type Set = fn(&mut Tally, u64);
    let lines: [(Set, u64, u64); 16] = [
        (|tally, number| tally.gmin = number, 1, 0),
        (|tally, number| tally.gmin = number, 255, 256),
        (|tally, number| tally.spacing = number, 1, 0),
        (|tally, number| tally.spacing = number, 40_000, 40_001),
        (|tally, number| tally.seen = number, 65_536, 65_537),
        // L − Lb ≤ E − Eb: 12 and 90 as it stands.
        (|tally, number| tally.seen = number, 22, 21),
        (|tally, number| tally.events = number, 98, 99),
        // Lb ≤ L.
        (|tally, number| tally.events = number, 8, 7),
        // Lb ≤ Eb.
        (|tally, number| tally.burst_events = number, 10, 11),
        // 2n ≤ Eb, with n × Q = 260 or 312, at least S × S = 100 either way.
        (|tally, number| tally.bursts = number, 5, 6),
        (|tally, number| tally.open_packets = number, 100, 101),
        (|tally, number| tally.open_gap = number, 100, 101),
        // Q ≤ S × S.
        (|tally, number| tally.duration_squares = number, 100, 101),
        // n × Q ≥ S × S: 100 and 98, and 104 and 52, against 100.
        (|tally, number| tally.duration_squares = number, 50, 49),
        (|tally, number| tally.bursts = number, 2, 1),
        (
            |tally, number| {
                tally.duration_sum = number;
                tally.duration_squares = number * number;
            },
            2_621_440,
            2_621_441,
        ),
    ];
    for (set, good, bad) in lines {
        let mut tally = base;
        set(&mut tally, good);
        sound(tally);
        set(&mut tally, bad);
        unsound(tally);
    }
    // An event in the open stretch of no packets.
    unsound(Tally {
        open_events: 1,
        ..opened(2, 1_000)
    });
}

#[test]
fn the_open_stretch_counts_in() {
    // Two events over four packets are a burst of 4 ms.
    let open = Tally {
        seen: 6,
        events: 3,
        open_events: 2,
        open_packets: 4,
        open_gap: 1,
        ..opened(3, 1_000)
    };
    sound(open);
    let with = |set: fn(&mut Tally)| {
        let mut tally = open;
        set(&mut tally);
        tally
    };
    // Eb ≤ E.
    unsound(with(|tally| tally.burst_packets = 3));
    // Lb ≤ L: 2 events are in the stretch alone.
    unsound(with(|tally| tally.events = 1));
    // Lb ≤ Eb.
    unsound(with(|tally| (tally.open_events, tally.events) = (5, 5)));
    // 2n ≤ Eb.
    unsound(with(|tally| tally.bursts = 2));
    // n × Q ≥ S × S: 16 against 4 × 4, and against 5 × 5.
    sound(with(|tally| tally.duration_sum = 0));
    unsound(with(|tally| {
        (tally.duration_sum, tally.duration_squares) = (1, 0);
    }));
    // Q ≤ S × S counts the stretch's 16 in: 17 is too much for S = 4.
    unsound(with(|tally| tally.duration_squares = 1));
    // The limits of a single event: nothing is counted in.
    let one = with(|tally| (tally.open_events, tally.open_packets) = (1, 6));
    sound(Tally { events: 1, ..one });
}

/// Packets and events of no burst, which have no duration: with 7 ms, 0 × 49 is below 49.
#[test]
fn sums_without_bursts_are_closed_all_the_same() {
    let tally = Tally {
        seen: 10,
        events: 3,
        burst_packets: 4,
        burst_events: 2,
        ..opened(2, 1_000)
    };
    sound(tally);
    unsound(Tally {
        duration_sum: 7,
        duration_squares: 49,
        ..tally
    });
    let expected = Figures {
        burst_rate: 16_384,
        gap_rate: 5_461,
        ..NOTHING
    };
    assert_eq!(tally.close(), Ok(expected));
}

/// A sound tally that no trace leads to may be unsound after one packet more.
#[test]
fn a_step_does_not_keep_every_sound_tally_sound() {
    let tally = Tally {
        seen: 1,
        events: 1,
        open_events: 1,
        open_packets: 1,
        open_gap: 1,
        ..opened(2, 1_000)
    };
    sound(tally);
    let (next, answer) = tally.take(1);
    assert_eq!(answer, Ok(()));
    assert_eq!((next.seen, next.open_packets), (2, 3));
    unsound(next);
    // No trace leads to 10 ms with 60 as their square. At half a millisecond a packet, the open
    // stretch is of 1 ms with two events and with three, and of 2 ms with four: n is 2, S 11 and
    // then 12, Q 61 and then 64. 122 is at least 121, and 128 less than 144: that line alone
    // does not hold.
    let mut tally = Tally {
        seen: 4,
        events: 4,
        burst_packets: 2,
        burst_events: 2,
        bursts: 1,
        duration_sum: 10,
        duration_squares: 60,
        open_events: 2,
        open_packets: 2,
        ..opened(1, 500)
    };
    for _ in 0..2 {
        sound(tally);
        tally = after(tally, &[1]);
    }
    assert_eq!((tally.open_events, tally.open_packets), (4, 4));
    assert_eq!(last_line::of(&tally), Some((128, 144)));
    unsound(tally);
}
