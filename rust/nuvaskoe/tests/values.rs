//! Every 16-bit number as a rate, a mean or variance, and an index: what it says, and how it
//! is shown.

use nuvaskoe::values::{EffectiveIndex, Figure, Rate, Value};

#[test]
fn every_rate() {
    for number in 0..=u16::MAX {
        let rate = Rate(number);
        let fraction = f64::from(number) / 32_768.0;
        match number {
            ..=32_768 => {
                assert_eq!(rate.measured(), Some(number));
                assert_eq!(rate.fraction(), Some(fraction));
                assert_eq!(rate.to_string(), number.to_string());
            }
            65_535 => {
                assert_eq!(rate, Rate::UNAVAILABLE);
                assert_eq!((rate.measured(), rate.fraction()), (None, None));
                assert_eq!(rate.to_string(), "none");
            }
            // No rate, but a number that a block to be written may be given.
            _ => {
                assert_eq!((rate.measured(), rate.fraction()), (None, None));
                assert_eq!(rate.to_string(), number.to_string());
            }
        }
        let dropped = (32_769..=65_534).contains(&number);
        assert_eq!(rate.is_sendable(), !dropped, "{number}");
    }
    assert_eq!(Rate::ALL.fraction(), Some(1.0));
}

#[test]
fn every_mean_and_variance() {
    for number in 0..=65_533 {
        let figure = Figure(number);
        assert_eq!(figure.value(), Value::Measured(number));
        assert_eq!(figure.measured(), Some(number));
        assert_eq!(figure.to_string(), number.to_string());
    }
    assert_eq!(
        (Figure::OVER_RANGE.0, Figure::UNAVAILABLE.0),
        (65_534, 65_535)
    );
    for (figure, value, shown) in [
        (Figure(65_534), Value::OverRange, "over"),
        (Figure(65_535), Value::Unavailable, "none"),
    ] {
        assert_eq!((figure.value(), figure.measured()), (value, None));
        assert_eq!(
            (figure.to_string(), value.to_string()),
            (shown.into(), shown.into())
        );
    }
}

/// No index is unavailable: the largest is full loss.
#[test]
fn every_index() {
    for number in 0..=u16::MAX {
        let index = EffectiveIndex(number);
        assert_eq!(index.to_string(), number.to_string());
        assert_eq!(index.fraction(), f64::from(number) / 65_535.0);
    }
    assert_eq!(EffectiveIndex::FULL_LOSS, EffectiveIndex(65_535));
    assert_eq!(EffectiveIndex::FULL_LOSS.fraction(), 1.0);
}

/// Words are put into columns as numbers are.
#[test]
fn columns() {
    assert_eq!(
        format!("{:>5}|{:<6}|", Rate(7), Rate::UNAVAILABLE),
        "    7|none  |"
    );
    assert_eq!(
        format!("{:>6}|{:>2}", Figure::OVER_RANGE, EffectiveIndex(5)),
        "  over| 5"
    );
}
