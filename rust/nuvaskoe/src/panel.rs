//! The front panel: two needles, burst and gap, and a lamp, as one block sets them.
//!
//! Shown is a block 17 or 18 that is given as a value or was read as typed, where
//! [`crate::packet::add`] would not refuse it with 16: each needle is lit at its rate, or dark where
//! that is unavailable. Everything else, a dropped block among it, leaves both needles dark.
//!
//! ```
//! use nuvaskoe::{block, panel::{self, Needle, Panel}};
//!
//! // A block 18 with flag 1, a burst rate of 8,192 and no gap rate.
//! let reading = block::read(18, 0x40, &[0, 0, 0, 1, 0x20, 0, 0xFF, 0xFF]);
//! let panel = panel::of_reading(&reading);
//! assert_eq!((panel.burst, panel.gap), (Needle::Lit(0.25), Needle::Dark));
//! assert!(panel.lamp());
//! assert_eq!(panel::of_packet(b"no packet", 0), Panel::DARK);
//! ```

use crate::{
    block::{Block, Reading, Verdict},
    boundary,
};

/// A needle of the panel.
#[derive(Debug, Clone, Copy, PartialEq)]
pub enum Needle {
    /// Lit at this position, from 0 to 1: the rate divided by 32,768, exactly.
    Lit(f32),
    /// Dark.
    Dark,
}

impl Needle {
    /// Whether it is lit.
    pub fn is_lit(self) -> bool {
        matches!(self, Needle::Lit(_))
    }
}

/// The setting of the panel.
#[derive(Debug, Clone, Copy, PartialEq)]
pub struct Panel {
    /// The needle of the burst rate.
    pub burst: Needle,
    /// The needle of the gap rate.
    pub gap: Needle,
}

impl Panel {
    /// Both needles dark.
    pub const DARK: Panel = Panel {
        burst: Needle::Dark,
        gap: Needle::Dark,
    };

    /// Whether the lamp is on: at least one needle is lit.
    pub fn lamp(&self) -> bool {
        self.burst.is_lit() || self.gap.is_lit()
    }
}

/// The panel of block number `index` of a packet; dark where [`crate::packet::block`] refuses.
#[inline]
pub fn of_packet(packet: &[u8], index: usize) -> Panel {
    // SAFETY: a slice's pointer is never null and is good for reading its length.
    let answer =
        unsafe { boundary::nuvaskoe_panel_of_packet(packet.as_ptr(), packet.len(), index) };
    answer.into()
}

/// The panel of what was read. A typed block has it by its value: `nuvaskoe_panel_of_read` is for
/// those who have the boundary's numbers alone.
#[inline]
pub fn of_reading(reading: &Reading) -> Panel {
    match &reading.verdict {
        Verdict::Typed(block) => of_block(block),
        Verdict::Rle(_) | Verdict::Unknown | Verdict::Dropped(_) => Panel::DARK,
    }
}

/// The panel of a block given as a value; dark for one that is no block 17 or 18.
#[inline]
pub fn of_block(block: &Block) -> Panel {
    // SAFETY: both take any numbers.
    match block {
        Block::Loss(block) => unsafe { boundary::nuvaskoe_panel_of_loss(block.into()) }.into(),
        Block::Discard(block) => {
            unsafe { boundary::nuvaskoe_panel_of_discard(block.into()) }.into()
        }
        Block::Measurement(_) | Block::Effective(_) | Block::TransportStream(_) => Panel::DARK,
    }
}

impl From<boundary::Panel> for Panel {
    #[inline]
    fn from(answer: boundary::Panel) -> Panel {
        let panel = Panel {
            burst: answer.burst.into(),
            gap: answer.gap.into(),
        };
        debug_assert_eq!(answer.lamp, u32::from(panel.lamp()));
        panel
    }
}

impl From<boundary::Needle> for Needle {
    #[inline]
    fn from(answer: boundary::Needle) -> Needle {
        match answer.lit {
            0 => {
                debug_assert_eq!(answer.position.to_bits(), 0);
                Needle::Dark
            }
            lit => {
                debug_assert_eq!(lit, 1);
                Needle::Lit(answer.position)
            }
        }
    }
}
