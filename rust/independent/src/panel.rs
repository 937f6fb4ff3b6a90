//! "Drive the old dials" (document 02, ticket 4): "two needles, burst and gap, and a lamp".
//! "The panel shows only a block 17 or 18 that refusal 16 lets through; anything else, dropped
//! blocks included, leaves both needles dark." So nothing here is refused.

use crate::block::{Block, Reading};
use crate::packet;

/// "Either lit at its position or dark when the rate is unavailable."
#[derive(Clone, Copy, Debug, PartialEq)]
pub enum Needle {
    Lit(f32),
    Dark,
}

/// The panel setting.
#[derive(Clone, Copy, Debug, PartialEq)]
pub struct Panel {
    pub burst: Needle,
    pub gap: Needle,
}

impl Panel {
    /// Both needles dark.
    pub const DARK: Panel = Panel {
        burst: Needle::Dark,
        gap: Needle::Dark,
    };

    /// "The lamp is on exactly when at least one needle is lit."
    pub fn lamp(&self) -> bool {
        matches!(self.burst, Needle::Lit(_)) || matches!(self.gap, Needle::Lit(_))
    }
}

/// The panel of block `index` of a packet; dark where the packet or the index is refused.
#[inline]
pub fn of_packet(packet: &[u8], index: usize) -> Panel {
    match packet::block(packet, index) {
        Ok((_, reading)) => of_reading(&reading),
        Err(_) => Panel::DARK,
    }
}

/// The panel of what reading a block answered.
#[inline]
pub fn of_reading(reading: &Reading) -> Panel {
    match reading {
        // Judged again: a caller may have made it by hand.
        Reading::Typed(block) => of_block(block),
        Reading::Unknown | Reading::Dropped(_) | Reading::Rle(_) => Panel::DARK,
    }
}

/// The panel of a block given as a value. Refusal 16 looks at flag and rates alone, so mean
/// and variance do not matter.
#[inline]
pub fn of_block(block: &Block) -> Panel {
    let (flag, burst_rate, gap_rate) = match block {
        Block::Loss(loss) => (loss.flag, loss.burst_rate, loss.gap_rate),
        Block::Discard(discard) => (discard.flag, discard.burst_rate, discard.gap_rate),
        Block::Measurement(_) | Block::Effective(_) | Block::TransportStream(_) => {
            return Panel::DARK;
        }
    };
    match (flag, needle(burst_rate), needle(gap_rate)) {
        (1..=3, Some(burst), Some(gap)) => Panel { burst, gap },
        _ => Panel::DARK,
    }
}

/// The needle of a rate, or none for a rate that reading would drop: such a rate darkens the
/// other needle too, an unavailable one only its own.
fn needle(rate: u16) -> Option<Needle> {
    match rate {
        0..=32_768 => Some(Needle::Lit(f32::from_bits(position_bits(rate)))),
        32_769..=65_534 => None,
        65_535 => Some(Needle::Dark),
    }
}

/// The bits, by IEEE 754's binary32, of "a rate divided by 32,768, which is exact": a sign bit,
/// 8 bits of exponent with 127 added, 23 bits of fraction. A rate has at most 16 bits, the top
/// one left out of the fraction, so none is lost. Numbers above 32,768 have their quotient too,
/// though no needle stands there.
pub fn position_bits(rate: u16) -> u32 {
    // The one rate without a top bit.
    if rate == 0 {
        return 0;
    }
    let top = rate.ilog2();
    // Dividing by 32,768, which is 2 to the 15th, takes 15 from the exponent.
    let exponent = 127 + top - 15;
    let below_top = u32::from(rate) - (1 << top);
    let fraction = below_top << (23 - top);
    exponent << 23 | fraction
}

#[cfg(test)]
mod tests;
