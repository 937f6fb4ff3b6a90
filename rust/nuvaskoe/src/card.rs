//! The settings card: four settings and a check in twenty ASCII digits.

use crate::{boundary, Refusal};

/// The four settings of a card.
#[derive(Debug, Clone, Copy, PartialEq, Eq)]
pub struct Settings {
    /// 1 to 255 packets.
    pub gmin: u32,
    /// 1 to 1,024 packets.
    pub batch: u32,
    /// 0 to 1,024 losses.
    pub threshold: u32,
    /// 1 to 40,000 microseconds.
    pub spacing: u32,
}

/// The settings on `card`, which holds twenty ASCII digits and nothing else.
///
/// Refusals, in this order: 11, 12, 13.
#[inline]
pub fn read(card: &[u8]) -> Result<Settings, Refusal> {
    // SAFETY: a slice's pointer is never null and is good for reading its length.
    let answer = unsafe { boundary::nuvaskoe_card_read(card.as_ptr(), card.len()) };
    let boundary::Settings {
        gmin,
        batch,
        threshold,
        spacing,
    } = answer.settings;
    debug_assert!(answer.refusal.number == 0 || [gmin, batch, threshold, spacing] == [0; 4]);
    answer.refusal.unless_refused(Settings {
        gmin,
        batch,
        threshold,
        spacing,
    })
}

/// Writes the one card of `settings` into the first 20 bytes of `out` and answers 20;
/// the bytes after them keep what they held.
///
/// Refusals, in this order: 15, 8.
#[inline]
pub fn write(settings: Settings, out: &mut [u8]) -> Result<usize, Refusal> {
    let settings = boundary::Settings {
        gmin: settings.gmin,
        batch: settings.batch,
        threshold: settings.threshold,
        spacing: settings.spacing,
    };
    // SAFETY: a slice's pointer is never null, and `out` lends all its length for writing.
    let answer = unsafe { boundary::nuvaskoe_card_write(settings, out.as_mut_ptr(), out.len()) };
    answer.size()
}
