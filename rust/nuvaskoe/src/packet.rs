//! Report packets: one RTCP XR packet (RFC 3611) as a slice of bytes, read and written.
//!
//! Every call that takes a packet judges all of it first. Refusals, in this order: 1, 2, 3,
//! 4, 5, 6 (placed at the block that runs past the end), then what the call itself names.

// The debug assertions here are what the header says of refused answers and no answer in
// Rust shows.

mod blocks;
mod differences;
mod rle;

pub use blocks::{blocks, Blocks, PacketBlock};
pub use differences::{compare, differences, Difference};
pub use rle::{add_rle, rle, rle_trace};

use crate::{
    block::{Block, Reading},
    boundary, Refusal,
};

/// What a packet says of itself.
#[non_exhaustive]
#[derive(Debug, Clone, Copy, PartialEq, Eq)]
pub struct Summary {
    /// The sender.
    pub sender: u32,
    /// How many blocks it has.
    pub blocks: usize,
}

/// The sender and the number of blocks.
#[inline]
pub fn read(packet: &[u8]) -> Result<Summary, Refusal> {
    // SAFETY: a slice's pointer is never null and is good for reading its length.
    let answer = unsafe { boundary::nuvaskoe_packet_read(packet.as_ptr(), packet.len()) };
    debug_assert!(answer.refusal.number == 0 || (answer.sender, answer.blocks) == (0, 0));
    answer.refusal.unless_refused(Summary {
        sender: answer.sender,
        blocks: answer.blocks,
    })
}

/// Block number `index`, from 0. [`blocks`] gives all of them in less time.
///
/// Further refusal: 7, no block with that index.
#[inline]
pub fn block(packet: &[u8], index: usize) -> Result<Reading, Refusal> {
    // SAFETY: a slice's pointer is never null and is good for reading its length.
    let answer = unsafe { boundary::nuvaskoe_packet_block(packet.as_ptr(), packet.len(), index) };
    match answer.refusal.unless_refused(()) {
        Ok(()) => Ok(Reading::new(&answer)),
        Err(refusal) => {
            debug_assert_eq!(
                (answer.block_type, answer.verdict),
                (0, boundary::VERDICT_UNKNOWN)
            );
            debug_assert_eq!(answer.fields, [0; boundary::FIELDS]);
            Err(refusal)
        }
    }
}

/// The body of block number `index`, as the part of `packet` it lies in: the words after
/// the block's first. Empty where [`block`] refuses.
#[inline]
pub fn body(packet: &[u8], index: usize) -> &[u8] {
    // SAFETY: a slice's pointer is never null and is good for reading its length.
    let part = unsafe { boundary::nuvaskoe_packet_body(packet.as_ptr(), packet.len(), index) };
    packet
        .get(part.start..)
        .and_then(|rest| rest.get(..part.length))
        .expect("a body lies in its packet")
}

/// All blocks in one call: for each block two entries of `out`, its offset in the packet
/// and [its verdict's number](crate::block::Verdict::number). Answers how many entries
/// were written; those after them keep what they held.
///
/// Further refusal: 8, fewer than two entries for each block.
#[inline]
pub fn list(packet: &[u8], out: &mut [u32]) -> Result<usize, Refusal> {
    // SAFETY: a slice's pointer is never null and is good for reading its length, and
    // `out` lends all its length for writing.
    let answer = unsafe {
        boundary::nuvaskoe_packet_list(packet.as_ptr(), packet.len(), out.as_mut_ptr(), out.len())
    };
    answer.size()
}

/// Writes a packet with this sender and no blocks into the first 8 bytes of `out` and
/// answers 8; the bytes after them keep what they held.
///
/// Refusal: 8.
#[inline]
pub fn new(sender: u32, out: &mut [u8]) -> Result<usize, Refusal> {
    // SAFETY: a slice's pointer is never null, and `out` lends all its length for writing.
    let answer = unsafe { boundary::nuvaskoe_packet_new(sender, out.as_mut_ptr(), out.len()) };
    answer.size()
}

/// Adds a block to the packet at the front of `out`, which may be longer than the packet,
/// and answers the packet's new size in bytes. Only the length field and the new bytes
/// change; reserved bits are written zero.
///
/// Refusal 4 is here a length field that asks for more than `out` or for under 8 bytes.
/// Further refusals, in this order: 16, a block 17 or 18 with a flag or rate outside its
/// range; 17, the length field would pass 65,535; 8, no room for the block.
///
/// ```
/// use nuvaskoe::{block::{Block, Effective, Verdict}, values::EffectiveIndex};
///
/// let mut buffer = [0; 64];
/// nuvaskoe::packet::new(1, &mut buffer)?;
/// let index = EffectiveIndex(37_448);
/// let block = Block::Effective(Effective { source: 2, index });
/// let size = nuvaskoe::packet::add(&mut buffer, &block)?;
/// assert_eq!(size, 20);
/// let reading = nuvaskoe::packet::block(&buffer[..size], 0)?;
/// assert_eq!(reading.verdict, Verdict::Typed(block));
/// # Ok::<(), nuvaskoe::Refusal>(())
/// ```
///
/// A block 17 or 18 reads as unmeasured until a block 14 for its source is there.
#[inline]
pub fn add(out: &mut [u8], block: &Block) -> Result<usize, Refusal> {
    let (start, length) = (out.as_mut_ptr(), out.len());
    // SAFETY: a slice's pointer is never null, and `out` lends all its length for writing.
    let answer = unsafe {
        match block {
            Block::Measurement(block) => {
                boundary::nuvaskoe_packet_add_measurement(start, length, block.into())
            }
            Block::Loss(block) => boundary::nuvaskoe_packet_add_loss(start, length, block.into()),
            Block::Discard(block) => {
                boundary::nuvaskoe_packet_add_discard(start, length, block.into())
            }
            Block::Effective(block) => {
                boundary::nuvaskoe_packet_add_effective(start, length, block.into())
            }
            Block::TransportStream(block) => {
                boundary::nuvaskoe_packet_add_streams(start, length, block.into())
            }
        }
    };
    answer.size()
}
