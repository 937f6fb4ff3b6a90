//! Effective loss: how many batches of a trace lose more than a threshold.
//!
//! A trace has one byte a packet: 0 received, 1 lost, 2 discarded. Its losses are the packets that
//! the caller's [`Event`] counts. Batches are all runs of `batch` consecutive packets.
//! [`packed`](crate::packed) has the same of a trace with one bit a packet.

use crate::{boundary, trace::Event, values::EffectiveIndex, Refusal};

/// How many batches of a trace are over the threshold.
#[non_exhaustive]
#[derive(Debug, Clone, Copy, PartialEq, Eq)]
pub struct EffectiveLoss {
    /// How many batches hold more losses than the threshold.
    pub over: usize,
    /// How many batches there are.
    pub batches: usize,
    /// The integer part of `over` × 65,535 / `batches`.
    pub index: EffectiveIndex,
    /// The first batch that is over, by the index of its first packet.
    pub first: Option<usize>,
}

/// The effective loss of `trace`, with the packets that `event` counts as its losses.
///
/// Refusals, in this order: 15, `batch` not 1 to 1,024 or `threshold` over 1,024; 10, a trace
/// of none or over 65,536 packets; 9, a byte above 2, placed at the first; 14, a batch longer
/// than the trace.
///
/// ```
/// use nuvaskoe::{effective::effective_loss, trace::Event};
///
/// let loss = effective_loss(&[0, 1, 1, 0, 1, 0, 1, 0, 0], 3, 1, Event::Lost)?;
/// assert_eq!((loss.over, loss.batches), (4, 7));
/// assert_eq!((loss.index.0, loss.first), (37_448, Some(0)));
///
/// // The last two of these losses are late packets.
/// let late = [0, 1, 1, 0, 2, 0, 2, 0, 0];
/// assert_eq!(effective_loss(&late, 3, 1, Event::Lost)?.over, 2);
/// assert_eq!(effective_loss(&late, 3, 1, Event::Discarded)?.over, 1);
/// assert_eq!(effective_loss(&late, 3, 1, Event::Either)?, loss);
/// # Ok::<(), nuvaskoe::Refusal>(())
/// ```
pub fn effective_loss(
    trace: &[u8],
    batch: u32,
    threshold: u32,
    event: Event,
) -> Result<EffectiveLoss, Refusal> {
    let (start, length) = (trace.as_ptr(), trace.len());
    // SAFETY: a slice's pointer is never null and is good for reading its length.
    let answer = unsafe {
        boundary::nuvaskoe_effective_loss(start, length, batch, threshold, event.number())
    };
    answer.effective_loss()
}

impl boundary::Loss {
    /// The answer of a call that counts batches.
    pub(crate) fn effective_loss(self) -> Result<EffectiveLoss, Refusal> {
        // What the header says of answers and no answer in Rust shows.
        debug_assert!(self.refusal.number == 0 || (self.over, self.batches) == (0, 0));
        debug_assert!(self.refusal.number == 0 || (self.index, self.found) == (0, 0));
        debug_assert!(self.found == 1 || (self.found, self.first) == (0, 0));
        let index = u16::try_from(self.index).expect("an index has 16 bits");
        self.refusal.unless_refused(EffectiveLoss {
            over: self.over,
            batches: self.batches,
            index: EffectiveIndex(index),
            first: (self.found == 1).then_some(self.first),
        })
    }
}
