//! The 16-bit numbers of blocks 17, 18 and 240 as they are sent, and what each says.
//!
//! Any number can be held, also one that no block may have: reading drops such a block, and
//! [`crate::packet::add`] refuses it. Shown, each is as a listing has it: a decimal, `over` or
//! `none`.
//!
//! ```
//! use nuvaskoe::values::{EffectiveIndex, Figure, Rate, Value};
//!
//! assert_eq!(Rate(8_192).fraction(), Some(0.25));
//! assert_eq!(Rate::UNAVAILABLE.measured(), None);
//! assert_eq!(Figure(40).value(), Value::Measured(40));
//! assert_eq!(Figure::OVER_RANGE.to_string(), "over");
//! assert_eq!(EffectiveIndex(65_535).fraction(), 1.0);
//! ```

use crate::boundary;
use std::fmt;

/// A rate: parts of 32,768, or unavailable. The numbers from 32,769 to 65,534 are no rates.
#[derive(Debug, Clone, Copy, PartialEq, Eq, Hash)]
pub struct Rate(
    /// The number as it is sent.
    pub u16,
);

impl Rate {
    /// There was nothing to measure it over.
    pub const UNAVAILABLE: Rate = Rate(boundary::UNAVAILABLE);
    /// Every packet is an event.
    pub const ALL: Rate = Rate(boundary::RATE_MAX);

    /// The parts of 32,768; none where it is unavailable, or no rate.
    pub fn measured(self) -> Option<u16> {
        (self.0 <= Rate::ALL.0).then_some(self.0)
    }

    /// The same as a fraction from 0 to 1, which is exact.
    pub fn fraction(self) -> Option<f64> {
        let parts = self.measured()?;
        Some(f64::from(parts) / f64::from(Rate::ALL.0))
    }

    /// Whether a block may have it: it is measured or unavailable.
    pub fn is_sendable(self) -> bool {
        self.measured().is_some() || self == Rate::UNAVAILABLE
    }
}

impl fmt::Display for Rate {
    fn fmt(&self, f: &mut fmt::Formatter<'_>) -> fmt::Result {
        match *self {
            Rate::UNAVAILABLE => f.pad("none"),
            Rate(number) => number.fmt(f),
        }
    }
}

/// The mean of burst durations in milliseconds, or their variance.
#[derive(Debug, Clone, Copy, PartialEq, Eq, Hash)]
pub struct Figure(
    /// The number as it is sent.
    pub u16,
);

impl Figure {
    /// There was no burst.
    pub const UNAVAILABLE: Figure = Figure(boundary::UNAVAILABLE);
    /// It is above 65,533.
    pub const OVER_RANGE: Figure = Figure(boundary::OVER_RANGE);

    /// What the number says.
    pub fn value(self) -> Value {
        match self {
            Figure::UNAVAILABLE => Value::Unavailable,
            Figure::OVER_RANGE => Value::OverRange,
            Figure(number) => Value::Measured(number),
        }
    }

    /// The number, where it was measured and is in range.
    pub fn measured(self) -> Option<u16> {
        match self.value() {
            Value::Measured(number) => Some(number),
            Value::OverRange | Value::Unavailable => None,
        }
    }
}

impl fmt::Display for Figure {
    fn fmt(&self, f: &mut fmt::Formatter<'_>) -> fmt::Result {
        self.value().fmt(f)
    }
}

/// What a [`Figure`] says.
#[derive(Debug, Clone, Copy, PartialEq, Eq, Hash)]
pub enum Value {
    /// So much, from 0 to 65,533.
    Measured(u16),
    /// Too large to send.
    OverRange,
    /// Not measured.
    Unavailable,
}

impl fmt::Display for Value {
    fn fmt(&self, f: &mut fmt::Formatter<'_>) -> fmt::Result {
        match self {
            Value::Measured(number) => number.fmt(f),
            Value::OverRange => f.pad("over"),
            Value::Unavailable => f.pad("none"),
        }
    }
}

/// The effective loss index: parts of 65,535. No number is reserved.
#[derive(Debug, Clone, Copy, PartialEq, Eq, PartialOrd, Ord, Hash)]
pub struct EffectiveIndex(
    /// The number as it is sent.
    pub u16,
);

impl EffectiveIndex {
    /// Every batch is over the threshold.
    pub const FULL_LOSS: EffectiveIndex = EffectiveIndex(boundary::FULL_LOSS as u16);

    /// The same as a fraction from 0 to 1.
    pub fn fraction(self) -> f64 {
        f64::from(self.0) / f64::from(EffectiveIndex::FULL_LOSS.0)
    }
}

impl fmt::Display for EffectiveIndex {
    fn fmt(&self, f: &mut fmt::Formatter<'_>) -> fmt::Result {
        self.0.fmt(f)
    }
}
