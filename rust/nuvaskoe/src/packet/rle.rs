//! Loss RLE, blocks of type 1: traces read out of them, and added to a packet as one.

use super::block;
use crate::{block::Verdict, boundary, Refusal};

/// Reads the trace of block number `index`, a good type 1, into the front of `out`: one byte a
/// packet, 0 received and 1 lost. Answers how many packets it has, as
/// [`LossRle::packets`](crate::block::LossRle::packets); the bytes after them keep what they held.
///
/// Further refusals: 7, no block with that index, or one that is no good type 1; then 8, `out`
/// has fewer bytes than the trace packets.
///
/// ```
/// // Type 1: packets 65,534 to 1, of which a vector says that the second and the last were lost.
/// let packet = b"\x80\xCF\0\x05\0\0\0\x01\x01\0\0\x03\0\0\0\x02\xFF\xFE\0\x02\xD0\0\0\0";
/// let mut out = [7; 5];
/// assert_eq!(nuvaskoe::packet::rle(packet, 0, &mut out)?, 4);
/// assert_eq!(out, [0, 1, 0, 1, 7]);
/// # Ok::<(), nuvaskoe::Refusal>(())
/// ```
#[inline]
pub fn rle(packet: &[u8], index: usize, out: &mut [u8]) -> Result<usize, Refusal> {
    // SAFETY: a slice's pointer is never null and is good for reading its length, and
    // `out` lends all its length for writing.
    let answer = unsafe {
        boundary::nuvaskoe_packet_rle(
            packet.as_ptr(),
            packet.len(),
            index,
            out.as_mut_ptr(),
            out.len(),
        )
    };
    answer.size()
}

/// The same trace in a vector of its own.
///
/// Further refusal: 7, as above.
pub fn rle_trace(packet: &[u8], index: usize) -> Result<Vec<u8>, Refusal> {
    let packets = match block(packet, index)?.verdict {
        Verdict::Rle(found) => found.packets(),
        // Refused below.
        _ => 0,
    };
    let mut trace = vec![0; packets.into()];
    let size = rle(packet, index, &mut trace)?;
    debug_assert_eq!(size, trace.len());
    Ok(trace)
}

/// Adds a trace of received and lost packets as a block of type 1 to the packet at the front of
/// `out`, as [`add`](super::add) adds a typed block, and answers the packet's new size in bytes.
/// `begin` is the sequence number of the trace's first packet.
///
/// Refusal 4 is here a length field that asks for more than `out` or for under 8 bytes. Further
/// refusals, in this order: 10, a trace empty or over 65,533 packets; 9, a byte other than 0 and 1,
/// so that 2, a discarded packet, is refused too; 17, the length field would pass 65,535; 8, no
/// room for the block.
///
/// ```
/// use nuvaskoe::packet;
///
/// let trace = [0, 1, 1, 0, 1, 0];
/// let mut buffer = [0; 64];
/// packet::new(1, &mut buffer)?;
/// let size = packet::add_rle(&mut buffer, 2, 65_534, &trace)?;
/// assert_eq!(size, 24);
/// assert_eq!(packet::rle_trace(&buffer[..size], 0)?, trace);
/// # Ok::<(), nuvaskoe::Refusal>(())
/// ```
#[inline]
pub fn add_rle(out: &mut [u8], source: u32, begin: u16, trace: &[u8]) -> Result<usize, Refusal> {
    // SAFETY: a slice's pointer is never null and is good for reading its length, and
    // `out` lends all its length for writing.
    let answer = unsafe {
        boundary::nuvaskoe_packet_add_rle(
            out.as_mut_ptr(),
            out.len(),
            source,
            begin,
            trace.as_ptr(),
            trace.len(),
        )
    };
    answer.size()
}
