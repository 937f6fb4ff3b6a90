//! Packed traces: one bit a packet in 64-bit words, which says whether the packet is counted.
//!
//! Packet `i` is in word `i / 64` at bit `i % 64`, counted from the lowest: 1 where the [`Event`]
//! that the trace was packed by counts it, 0 for any other. The words do not keep which event that
//! was: their ones are the losses. So many packets need a word for each 64, and the bits of the
//! last needed word that are past the end are 0. Words behind it are neither read nor changed.
//!
//! The refusals of the words, in this order: 10, `packets` is 0 or over 65,536; 8, there are fewer
//! words than the packets need; 9, a bit past the end is not 0, placed at the first such bit,
//! which is counted on from the packets.

use crate::{boundary, effective::EffectiveLoss, trace::Event, Refusal};

/// The packets of a word.
const WORD: usize = 64;

/// How many words so many packets need.
///
/// ```
/// assert_eq!([1, 64, 65, 65_536].map(nuvaskoe::packed::words_for), [1, 1, 2, 1_024]);
/// ```
pub fn words_for(packets: usize) -> usize {
    packets.div_ceil(WORD)
}

/// Packs `trace` into the front of `out`, a one for each packet that `event` counts, and answers
/// how many words it takes; the words after them keep what they held.
///
/// Refusals, in this order: 10, a trace of none or over 65,536 packets; 9, a byte above 2, placed
/// at the first; 8, `out` has fewer words than the packets need.
///
/// ```
/// use nuvaskoe::{packed::pack, trace::Event};
///
/// let trace = [0, 1, 1, 0, 2, 0, 1, 0, 2];
/// let mut out = [7; 2];
/// assert_eq!(pack(&trace, Event::Lost, &mut out)?, 1);
/// assert_eq!(out, [0b0_0100_0110, 7]);
/// pack(&trace, Event::Discarded, &mut out)?;
/// assert_eq!(out, [0b1_0001_0000, 7]);
/// pack(&trace, Event::Either, &mut out)?;
/// assert_eq!(out, [0b1_0101_0110, 7]);
/// # Ok::<(), nuvaskoe::Refusal>(())
/// ```
#[inline]
pub fn pack(trace: &[u8], event: Event, out: &mut [u64]) -> Result<usize, Refusal> {
    let (start, length) = (trace.as_ptr(), trace.len());
    let (out, room) = (out.as_mut_ptr(), out.len());
    // SAFETY: a slice's pointer is never null and is good for reading its length, and
    // `out` lends all its length for writing.
    let answer = unsafe { boundary::nuvaskoe_trace_pack(start, length, event.number(), out, room) };
    answer.size()
}

/// The words of `trace`, packed by `event`, in a vector of their own.
///
/// Refusals, in this order: 10 and 9 as of [`pack`].
pub fn words_of(trace: &[u8], event: Event) -> Result<Vec<u64>, Refusal> {
    let mut words = vec![0; words_for(trace.len())];
    let size = pack(trace, event, &mut words)?;
    debug_assert_eq!(size, words.len());
    Ok(words)
}

/// Unpacks the words of so many packets into the front of `out`, one byte a packet, 1 for each one
/// and 0 for each zero, and answers `packets`; the bytes after them keep what they held. It is the
/// trace that was packed, where that had no discarded packets and was packed by [`Event::Lost`] or
/// [`Event::Either`].
///
/// Refusals, in this order: those of the words, then 8, `out` has fewer bytes than there are
/// packets.
///
/// ```
/// let mut out = [7; 10];
/// assert_eq!(nuvaskoe::packed::unpack(&[0b101_0110], 9, &mut out)?, 9);
/// assert_eq!(out, [0, 1, 1, 0, 1, 0, 1, 0, 0, 7]);
/// // Bit 6 is past the end of six packets.
/// let refusal = nuvaskoe::packed::unpack(&[0b101_0110], 6, &mut out).unwrap_err();
/// assert_eq!((refusal.number(), refusal.place), (9, 6));
/// # Ok::<(), nuvaskoe::Refusal>(())
/// ```
#[inline]
pub fn unpack(words: &[u64], packets: usize, out: &mut [u8]) -> Result<usize, Refusal> {
    // SAFETY: a slice's pointer is never null and is good for reading its length, and
    // `out` lends all its length for writing.
    let answer = unsafe {
        boundary::nuvaskoe_trace_unpack(
            words.as_ptr(),
            words.len(),
            packets,
            out.as_mut_ptr(),
            out.len(),
        )
    };
    answer.size()
}

/// The trace of so many packets in a vector of its own.
///
/// Refusals, in this order: those of the words.
pub fn trace_of(words: &[u64], packets: usize) -> Result<Vec<u8>, Refusal> {
    // More packets are refused before any room is looked at.
    let mut trace = vec![0; packets.min(boundary::TRACE_MAX)];
    let size = unpack(words, packets, &mut trace)?;
    debug_assert_eq!(size, trace.len());
    Ok(trace)
}

/// The effective loss of a packed trace, with its ones as the losses:
/// [that of the trace](crate::effective::effective_loss) which was packed, by the same event.
///
/// Refusals, in this order: 15, `batch` not 1 to 1,024 or `threshold` over 1,024; those of the
/// words; 14, a batch longer than the trace.
///
/// ```
/// let loss = nuvaskoe::packed::effective_loss(&[0b101_0110], 9, 3, 1)?;
/// assert_eq!((loss.over, loss.batches), (4, 7));
/// assert_eq!((loss.index.0, loss.first), (37_448, Some(0)));
/// # Ok::<(), nuvaskoe::Refusal>(())
/// ```
pub fn effective_loss(
    words: &[u64],
    packets: usize,
    batch: u32,
    threshold: u32,
) -> Result<EffectiveLoss, Refusal> {
    let (start, length) = (words.as_ptr(), words.len());
    // SAFETY: a slice's pointer is never null and is good for reading its length.
    let answer =
        unsafe { boundary::nuvaskoe_packed_loss(start, length, packets, batch, threshold) };
    answer.effective_loss()
}

/// Writes the smallest resend plan for a packed trace into the front of `out` and answers how many
/// packets it marks: [the plan](crate::resend::plan) for the trace which was packed, by the same
/// event, one byte a packet. The bytes after it keep what they held.
///
/// Refusals, in this order: 15, those of the words and 14 as of [`effective_loss`], then 8, `out`
/// has fewer bytes than there are packets.
///
/// ```
/// let mut out = [7; 10];
/// let marks = nuvaskoe::packed::plan(&[0b101_0110], 9, 3, 1, &mut out)?;
/// assert_eq!(marks, 2);
/// assert_eq!(out, [0, 0, 1, 0, 0, 0, 1, 0, 0, 7]);
/// # Ok::<(), nuvaskoe::Refusal>(())
/// ```
pub fn plan(
    words: &[u64],
    packets: usize,
    batch: u32,
    threshold: u32,
    out: &mut [u8],
) -> Result<usize, Refusal> {
    // SAFETY: a slice's pointer is never null and is good for reading its length, and
    // `out` lends all its length for writing.
    let answer = unsafe {
        boundary::nuvaskoe_packed_plan(
            words.as_ptr(),
            words.len(),
            packets,
            batch,
            threshold,
            out.as_mut_ptr(),
            out.len(),
        )
    };
    answer.marks()
}
