//! The resend plan: the fewest counted packets to resend so that no batch of a trace is left
//! with more losses than a threshold.
//!
//! Traces, losses and batches are those of [`effective`](crate::effective).
//! [`packed`](crate::packed) has the same of a trace with one bit a packet.

use crate::{boundary, trace::Event, Refusal};

/// Writes the smallest plan for `trace` into the front of `out` and answers how many packets
/// it marks. It has one byte a packet, 1 for a packet to resend that `event` counts and 0 for any
/// other; the bytes after it keep what they held.
///
/// Refusals, in this order: 15, 10, 9 and 14 as for
/// [`effective_loss`](crate::effective::effective_loss), then 8, `out` is shorter than `trace`.
///
/// ```
/// use nuvaskoe::{resend::plan, trace::Event};
///
/// let mut out = [7; 10];
/// let marks = plan(&[0, 1, 1, 0, 1, 0, 1, 0, 0], 3, 1, Event::Lost, &mut out)?;
/// assert_eq!(marks, 2);
/// assert_eq!(out, [0, 0, 1, 0, 0, 0, 1, 0, 0, 7]);
///
/// // The last two losses are late packets, which are resent too where they count.
/// let late = [0, 1, 1, 0, 2, 0, 2, 0, 0];
/// assert_eq!(plan(&late, 3, 1, Event::Lost, &mut out)?, 1);
/// assert_eq!(plan(&late, 3, 1, Event::Either, &mut out)?, 2);
/// assert_eq!(out, [0, 0, 1, 0, 0, 0, 1, 0, 0, 7]);
/// # Ok::<(), nuvaskoe::Refusal>(())
/// ```
pub fn plan(
    trace: &[u8],
    batch: u32,
    threshold: u32,
    event: Event,
    out: &mut [u8],
) -> Result<usize, Refusal> {
    // SAFETY: a slice's pointer is never null and is good for reading its length, and
    // `out` lends all its length for writing.
    let answer = unsafe {
        boundary::nuvaskoe_resend_plan(
            trace.as_ptr(),
            trace.len(),
            batch,
            threshold,
            event.number(),
            out.as_mut_ptr(),
            out.len(),
        )
    };
    answer.marks()
}

impl boundary::Marks {
    /// How many packets a plan marks.
    pub(crate) fn marks(self) -> Result<usize, Refusal> {
        // What the header says of refused answers and no answer in Rust shows.
        debug_assert!(self.refusal.number == 0 || self.marks == 0);
        self.refusal.unless_refused(self.marks)
    }
}
