//! Document 02's ticket 3: "A sound tally now needs n × Q ≥ S × S in place of the last line".

use super::*;
use crate::burst::OVER_RANGE;

/// These sums of closed bursts, to which all of 65,536 packets belong, each an event.
fn of_sums(bursts: u64, duration_sum: u64, duration_squares: u64) -> Tally {
    Tally {
        seen: 65_536,
        events: 65_536,
        burst_packets: 65_536,
        burst_events: 65_536,
        bursts,
        duration_sum,
        duration_squares,
        ..opened(2, 1_000)
    }
}

/// n, S and the least Q, which is S × S / n or the next number above.
#[test]
fn at_its_limit() {
    let cases = [
        (1, 1, 1),
        (1, 3, 9),
        (2, 1, 1),
        (2, 4, 8),
        (2, 3, 5),
        (2, 11, 61),
        (3, 10, 34),
        (5, 5, 5),
        (25, 5, 1),
        (25, 6, 2),
        (1, 2_621_440, 6_871_947_673_600),
        (32_768, 2_621_440, 209_715_200),
        // 209,715,200 less 160, and 1 / n.
        (32_768, 2_621_439, 209_715_041),
    ];
    for (n, s, q) in cases {
        sound(of_sums(n, s, q));
        unsound(of_sums(n, s, q - 1));
    }
    for n in [0, 1, 2, 32_768] {
        sound(of_sums(n, 0, 0));
    }
}

/// The line has no "if n is not 0": without a burst S is 0, and so is Q, by Q ≤ S × S.
#[test]
fn without_a_burst() {
    sound(of_sums(0, 0, 0));
    unsound(of_sums(0, 0, 1));
    for s in [1, 2, 7, 2_621_440] {
        for q in [0, 1, s, s * s] {
            unsound(of_sums(0, s, q));
        }
    }
}

/// Sound while the last line was "the integer part of Q / n is at least m × m": m is 0, 1 and 5.
#[test]
fn sound_no_more() {
    let cases = [
        // 0 ≥ 0, but 0 < 1.
        (2, 1, 0),
        // 1 ≥ 1 and 2 ≥ 1, but 4 and 8 < 9.
        (2, 3, 2),
        (2, 3, 4),
        // 25 ≥ 25 and 30 ≥ 25, but 100 and 120 < 121.
        (2, 11, 50),
        (2, 11, 60),
    ];
    for (n, s, q) in cases {
        assert!(q / n >= (s / n) * (s / n));
        unsound(of_sums(n, s, q));
    }
}

/// Two bursts, by their sums alone: (2Q − S × S) / 4 is sent up to 65,533.
#[test]
fn variances_at_the_limit() {
    let cases = [
        // 2Q − 262,144 is 262,130 to 262,144, and 4 × 65,533 is 262,132.
        (512, 262_137, 65_532),
        (512, 262_138, 65_533),
        (512, 262_139, 65_533),
        (512, 262_140, OVER_RANGE),
        (512, 262_142, OVER_RANGE),
        (512, 262_144, OVER_RANGE),
        // 2Q − 263,169 is 262,131 to 262,141, and 4 × 65,534 is 262,136.
        (513, 262_650, 65_532),
        (513, 262_651, 65_533),
        (513, 262_652, 65_533),
        (513, 262_653, OVER_RANGE),
        (513, 262_654, OVER_RANGE),
        (513, 262_655, OVER_RANGE),
        // At the line's own limit, and up to where the variance is 1: 2Q − 121 is 1, 3 and 5.
        (11, 61, 0),
        (11, 62, 0),
        (11, 63, 1),
    ];
    for (s, q, variance) in cases {
        let expected = Figures {
            burst_rate: 32_768,
            mean: (s / 2) as u16,
            variance,
            ..NOTHING
        };
        assert_eq!(of_sums(2, s, q).close(), Ok(expected), "S {s}, Q {q}");
    }
}

/// The largest n, S and Q together: the mean is 80 and the variance 32,767 × 80 × 80.
#[test]
fn the_largest_sound_sums() {
    let largest = of_sums(32_768, 2_621_440, 2_621_440 * 2_621_440);
    sound(largest);
    let expected = Figures {
        burst_rate: 32_768,
        mean: 80,
        variance: OVER_RANGE,
        ..NOTHING
    };
    assert_eq!(largest.close(), Ok(expected));
}

/// u64::MAX in any of n, S and Q is over a limit, and the open stretch adds to it.
#[test]
fn no_number_overflows() {
    let open = |closed: Tally| Tally {
        spacing: 40_000,
        burst_packets: 0,
        burst_events: 0,
        open_events: 65_536,
        open_packets: 65_536,
        ..closed
    };
    sound(open(of_sums(0, 0, 0)));
    for which in 1..8 {
        let number = |bit: u32| if which >> bit & 1 == 1 { u64::MAX } else { 0 };
        let closed = of_sums(number(0), number(1), number(2));
        unsound(closed);
        unsound(open(closed));
        unsound(Tally {
            burst_packets: u64::MAX,
            burst_events: u64::MAX,
            ..open(closed)
        });
    }
}

/// Two events over four packets are a burst of 4 ms, one event is none.
#[test]
fn with_the_open_stretch() {
    let cases = [
        // 3 ms closed, S is 7: 2 × 25 and 2 × 24 against 49. By Q / n and m × m Q was to be 18.
        (2, [1, 3, 9], true),
        (2, [1, 3, 8], false),
        // n is 1: Q = 16 against 4 × 4, 25 and 24 against 5 × 5.
        (2, [0, 0, 0], true),
        (2, [0, 1, 9], true),
        (2, [0, 1, 8], false),
        // n is 0.
        (1, [0, 0, 0], true),
        (1, [0, 1, 0], false),
        (1, [0, 1, 1], false),
    ];
    for (open_events, [bursts, duration_sum, duration_squares], is_sound) in cases {
        let tally = Tally {
            seen: 6,
            events: 3,
            bursts,
            duration_sum,
            duration_squares,
            open_events,
            open_packets: 4,
            open_gap: 1,
            ..opened(3, 1_000)
        };
        match is_sound {
            true => sound(tally),
            false => unsound(tally),
        }
    }
}

/// n × Q and S × S, where all lines but the last hold.
pub(super) fn of(tally: &Tally) -> Option<(u128, u128)> {
    // With S and Q 0 before the open stretch, the lines on them hold of themselves.
    let without = Tally {
        duration_sum: 0,
        duration_squares: 0,
        ..*tally
    };
    if !without.sound() {
        return None;
    }
    let sums = [tally.bursts, tally.duration_sum, tally.duration_squares];
    let [mut n, mut s, mut q] = sums.map(u128::from);
    if tally.open_events >= 2 {
        let duration = u128::from(tally.open_packets * tally.spacing / 1_000);
        n += 1;
        s += duration;
        q += duration * duration;
    }
    (s <= 2_621_440 && q <= s * s).then_some((n * q, s * s))
}

/// A tally whose lines on E, L, Eb, Lb and n hold, with n × Q near to S × S.
pub(super) fn near_the_limit(next: &mut impl FnMut(u64) -> u64) -> Tally {
    let mut below = |limits: [u64; 3]| {
        let limit = limits[next(3) as usize];
        next(limit)
    };
    let spacing = 1 + below([10, 1_000, 40_000]);
    let bursts = below([3, 40, 32_000]);
    let (open_events, open_packets) = (below([2, 3, 4]), 3 + below([1, 10, 1_000]));
    let duration_sum = below([3, 1_000, 2_581_000]);
    let (more, duration) = match open_events {
        0 | 1 => (0, 0),
        _ => (1, open_packets * spacing / 1_000),
    };
    let s = duration_sum + duration;
    let q = (s * s).checked_div(bursts + more).unwrap_or(0) + below([2, 3, 4]);
    Tally {
        seen: 65_536,
        events: bursts + open_events,
        burst_packets: 2 * bursts,
        burst_events: bursts,
        bursts,
        duration_sum,
        // Q is from 1 below the integer part of S × S / n to 2 above it, where it can be.
        duration_squares: q.saturating_sub(1 + duration * duration),
        open_events,
        open_packets,
        open_gap: below([1, 10, 65_537]),
        ..opened(1 + below([1, 10, 255]), spacing)
    }
}
