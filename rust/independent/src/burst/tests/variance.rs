//! Document 02's ticket 3, "the integer part of (n × Q − S × S) / (n × n)". By hand it is worked
//! out from the differences: n × Q − S × S is the sum of their squares, over all pairs of bursts.

use super::*;

/// The mean and the variance of bursts of these lengths, with Gmin 1.
fn of_bursts(lengths: &[usize], spacing: u64) -> (u16, u16) {
    let answer = both(&bursts_of(lengths), 1, spacing, Lost).unwrap();
    (answer.mean, answer.variance)
}

/// `count` times the same number.
fn times(count: usize, number: usize) -> Vec<usize> {
    vec![number; count]
}

/// The request's own case: n 2, S 5 and Q 13 make (26 − 25) / 4. Document 01's "integer part of
/// Q / n, less m × m" made 6 − 4, which was sent as 2.
#[test]
fn bursts_of_3_and_2_ms() {
    assert_eq!(of_bursts(&[3, 2], 1_000), (2, 0));
    assert_eq!(of_bursts(&[2, 3], 1_000), (2, 0));
    // 3.5 and 2.5 ms, each cut before it is summed.
    assert_eq!(of_bursts(&[7, 5], 500), (2, 0));
}

#[test]
fn by_hand() {
    // S 7, Q 17: (51 − 49) / 9.
    assert_eq!(of_bursts(&[2, 2, 3], 1_000), (2, 0));
    // S 16, Q 110: (330 − 256) / 9 is 74 / 9.
    assert_eq!(of_bursts(&[2, 5, 9], 1_000), (5, 8));
    // S 40, Q 232: (1,856 − 1,600) / 64.
    assert_eq!(of_bursts(&[2, 4, 4, 4, 5, 5, 7, 9], 1_000), (5, 4));
    // The same at 40 ms a packet: 1,600 times as much.
    assert_eq!(of_bursts(&[2, 4, 4, 4, 5, 5, 7, 9], 40_000), (200, 6_400));
}

/// Two bursts have one difference d, and the variance d × d / 4 however long they are.
#[test]
fn two_bursts() {
    let cases = [
        (0, 0),
        (1, 0),
        (2, 1),
        (3, 2),
        (509, 64_770),
        (511, 65_280),
        (512, OVER_RANGE),
    ];
    for (difference, variance) in cases {
        for length in [2, 3, 508, 32_000] {
            let lengths = [length, length + difference];
            assert_eq!(of_bursts(&lengths, 1_000).1, variance, "{lengths:?}");
        }
    }
}

#[test]
fn bursts_of_one_duration() {
    let cases = [
        (1, 2, 1, 0),
        (1, 65_536, 1_000, OVER_RANGE),
        (2, 2, 1_000, 2),
        (2, 32_767, 1_000, 32_767),
        (2, 32_767, 2_000, OVER_RANGE),
        (3, 500, 1_999, 999),
        (38, 1_700, 40_000, OVER_RANGE),
        (100, 600, 40_000, 24_000),
        (21_845, 2, 499, 0),
        (21_845, 2, 40_000, 80),
    ];
    for (count, length, spacing, mean) in cases {
        let answer = of_bursts(&times(count, length), spacing);
        assert_eq!(answer, (mean, 0), "{count} times {length}");
    }
    // Of one duration, though not of one length: 1.2 and 1.6 ms.
    assert_eq!(of_bursts(&[3, 4, 4, 3, 3], 400), (1, 0));
}

/// 65,533 is the last that is sent as it is: above it only "over range" is sent, though 65,534
/// and 65,535 are 16-bit numbers too. Each comment has the squares over all pairs, and n × n.
#[test]
fn variances_at_the_limit() {
    let cases = [
        // 64 + 290,521 + 299,209 = 589,794 = 9 × 65,532 + 6.
        (vec![0, 8, 547], 65_532, 65_532),
        // 13 × 988,036 = 12,844,468 = 196 × 65,533.
        ([times(13, 0), times(1, 994)].concat(), 65_533, 65_533),
        // 176 × 271,441 = 47,773,616 = 729 × 65,533 + 59.
        ([times(16, 0), times(11, 521)].concat(), 65_533, 65_533),
        // 93,636 + 103,041 + 393,129 = 589,806 = 9 × 65,534.
        (vec![0, 306, 627], 65_534, OVER_RANGE),
        // 22,201 + 205,209 + 362,404 = 589,814 = 9 × 65,534 + 8.
        (vec![0, 149, 602], 65_534, OVER_RANGE),
        // 255 × 263,169 = 67,108,095 = 1,024 × 65,535 + 255.
        ([times(17, 0), times(15, 513)].concat(), 65_535, OVER_RANGE),
        // 262,144 = 4 × 65,536.
        (vec![0, 512], 65_536, OVER_RANGE),
    ];
    for (differences, before, sent) in cases {
        for shortest in [2, 700] {
            let lengths: Vec<_> = differences.iter().map(|more| shortest + more).collect();
            let sums = sums(&bursts_of(&lengths), 1, 1_000, Lost);
            assert_eq!(variance(&sums), Some(before), "{lengths:?}");
            assert_eq!(of_bursts(&lengths, 1_000).1, sent, "{lengths:?}");
        }
    }
}

/// It is of S and Q, whether or not the mean is sent.
#[test]
fn the_variance_of_a_mean_over_range() {
    let cases = [
        (&[30_000, 30_000][..], 0),
        // 40 × 40 / 4.
        (&[30_000, 30_001], 400),
        // (1,600 + 1,600 + 6,400) / 9 is 9,600 / 9.
        (&[20_000, 20_001, 20_002], 1_066),
    ];
    for (lengths, variance) in cases {
        assert_eq!(of_bursts(lengths, 40_000), (OVER_RANGE, variance));
    }
}

/// About the largest n × Q of any trace: all bursts but one are as short as can be, and there is
/// one for every nine packets. 7,281 pairs differ by 43,691 × 40 ms, which is far over range when
/// divided by 7,282 × 7,282. S is 7,281 × 80 and 1,747,720, together 2,330,200.
#[test]
fn large_products() {
    let lengths = [times(7_281, 2), times(1, 43_693)].concat();
    assert_eq!(bursts_of(&lengths).len(), 65_536);
    assert_eq!(of_bursts(&lengths, 40_000), (319, OVER_RANGE));
}

fn numbers(seed: u64) -> impl FnMut(u64) -> u64 {
    let mut state = seed;
    move |below| {
        state = state.wrapping_mul(6_364_136_223_846_793_005);
        state = state.wrapping_add(1_442_695_040_888_963_407);
        (state >> 33) % below
    }
}

/// Up to 40 groups of one to five events, and the durations of those that are bursts.
fn drawn(next: &mut impl FnMut(u64) -> u64, gmin: u64, spacing: u64) -> (Vec<u8>, Vec<u128>) {
    let (mut trace, mut durations) = (vec![0], Vec::new());
    for _ in 0..next(41) {
        // Whatever stands between, the other kind counts as received.
        let other = 2 * next(2) as u8;
        let start = trace.len();
        let events = 1 + next(5);
        trace.push(1);
        for _ in 1..events {
            trace.extend(vec![other; next(gmin) as usize]);
            trace.push(1);
        }
        if events >= 2 {
            let packets = (trace.len() - start) as u128;
            durations.push(packets * u128::from(spacing) / 1_000);
        }
        trace.extend(vec![other; (gmin + next(3)) as usize]);
    }
    (trace, durations)
}

/// The sum over all pairs of the difference's square.
fn squared_differences(durations: &[u128]) -> u128 {
    let from = |first: usize| {
        let later = durations[first + 1..].iter();
        later.map(move |later| later.abs_diff(durations[first]).pow(2))
    };
    (0..durations.len()).flat_map(from).sum()
}

/// The integer part of a division is the one number v that, times the divisor, is not above
/// what is divided, while v + 1 times it is. None has this property where n is 0.
fn check(sums: &Sums, durations: &[u128]) -> Option<u128> {
    let n = durations.len() as u128;
    let s: u128 = durations.iter().sum();
    let q: u128 = durations.iter().map(|duration| duration.pow(2)).sum();
    let counted = [sums.bursts, sums.duration_sum, sums.duration_squares];
    assert_eq!(counted.map(u128::from), [n, s, q]);
    let divided = n * q - s * s;
    assert_eq!(divided, squared_differences(durations));
    let Some(v) = variance(sums).map(u128::from) else {
        assert_eq!(n, 0);
        return None;
    };
    assert!(
        v * n * n <= divided && divided < (v + 1) * n * n,
        "{sums:?}"
    );
    Some(v)
}

#[test]
fn random_bursts() {
    let mut next = numbers(4);
    // Without a burst; sent as they are; over range.
    let mut met = [0; 3];
    for round in 0..3_000 {
        let most_gmin = if round % 2 == 0 { 4 } else { 255 };
        let (gmin, spacing) = (1 + next(most_gmin), 1 + next(40_000));
        let (trace, durations) = drawn(&mut next, gmin, spacing);
        let v = check(&sums(&trace, gmin, spacing, Lost), &durations);
        let (kind, sent) = match v {
            None => (0, UNAVAILABLE),
            Some(v @ 0..=65_533) => (1, v as u16),
            Some(_) => (2, OVER_RANGE),
        };
        met[kind] += 1;
        let answer = both(&trace, gmin, spacing, Lost).unwrap();
        assert_eq!(answer.variance, sent, "{durations:?}");
    }
    assert!(met.iter().all(|count| *count > 50), "{met:?}");
}
