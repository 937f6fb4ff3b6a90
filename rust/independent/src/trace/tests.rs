use super::*;
use crate::choices::EVENTS;

#[test]
fn refusals_have_the_table_numbers_and_places() {
    let length = Refusal::TRACE_LENGTH;
    assert_eq!((length.number, length.place), (10, 0));
    let byte = Refusal::trace_byte(24);
    assert_eq!((byte.number, byte.place), (9, 24));
}

/// "Lost only, discarded only, or either": of all bytes only 1 and 2 ever count.
#[test]
fn what_counts() {
    for byte in 0..=255 {
        let counted = EVENTS.map(|event| event.counts(byte));
        let expected = match byte {
            1 => [true, false, true],
            2 => [false, true, true],
            _ => [false; 3],
        };
        assert_eq!(counted, expected, "{byte}");
    }
    // In an accepted trace the bits tell the same.
    for byte in 0..=2 {
        for event in EVENTS {
            assert_eq!(byte & event.bits() != 0, event.counts(byte));
        }
    }
}

#[test]
fn from_1_to_65_536_packets() {
    for (length, good) in [(0, false), (1, true), (65_536, true), (65_537, false)] {
        let expected = if good {
            Ok(())
        } else {
            Err(Refusal::TRACE_LENGTH)
        };
        assert_eq!(check(&vec![0; length]), expected, "{length} packets");
    }
    // 10 comes before 9.
    assert_eq!(check(&vec![3; 65_537]), Err(Refusal::TRACE_LENGTH));
}

#[test]
fn the_first_byte_above_2() {
    for byte in 0..=255 {
        let expected = if byte <= 2 {
            Ok(())
        } else {
            Err(Refusal::trace_byte(2))
        };
        assert_eq!(check(&[0, 1, byte, 2, byte]), expected);
    }
    let mut longest = vec![2; MOST_PACKETS];
    longest[65_535] = 3;
    assert_eq!(check(&longest), Err(Refusal::trace_byte(65_535)));
    longest[0] = 255;
    assert_eq!(check(&longest), Err(Refusal::trace_byte(0)));
}

#[test]
fn settings_at_the_ends_of_their_ranges() {
    let burst = [(0, false), (1, true), (255, true), (256, false)];
    for (gmin, good) in burst {
        assert_eq!(check_burst_settings(gmin, 1).is_ok(), good, "Gmin {gmin}");
    }
    let spacings = [(0, false), (1, true), (40_000, true), (40_001, false)];
    for (spacing, good) in spacings {
        let answer = check_burst_settings(1, spacing);
        assert_eq!(answer.is_ok(), good, "spacing {spacing}");
    }
    let batches = [(0, false), (1, true), (1_024, true), (1_025, false)];
    for (batch, good) in batches {
        let answer = check_batch_settings(batch, 0);
        assert_eq!(answer.is_ok(), good, "B {batch}");
    }
    let thresholds = [(0, true), (1_024, true), (1_025, false)];
    for (threshold, good) in thresholds {
        let answer = check_batch_settings(1, threshold);
        assert_eq!(answer.is_ok(), good, "T {threshold}");
    }
    // Numbers that 32 bits would cut to 1.
    let wide = (1 << 32) + 1;
    for answer in [
        check_burst_settings(wide, 1),
        check_burst_settings(1, wide),
        check_batch_settings(wide, 1),
        check_batch_settings(1, wide),
        check_batch_settings(u64::MAX, u64::MAX),
    ] {
        assert_eq!(answer, Err(Refusal::SETTING));
    }
}
