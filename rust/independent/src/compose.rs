//! "Writing": a new packet, and a typed block added to the packet at the front of a buffer.

use crate::block::{self, Block};
use crate::packet;
use crate::refusal::Refusal;

/// Writes a new packet, "its sender and no blocks", and answers its eight bytes.
/// Refusal: 8.
#[inline]
pub fn new_packet(sender: u32, buffer: &mut [u8]) -> Result<usize, Refusal> {
    if buffer.len() < 8 {
        return Err(Refusal::BUFFER_SHORT);
    }
    // Version 2, type 207, two words less one.
    buffer[..4].copy_from_slice(&[0x80, 207, 0, 1]);
    buffer[4..8].copy_from_slice(&sender.to_be_bytes());
    Ok(8)
}

/// Adds `block` to the packet at the front of `buffer` and answers the packet's new size
/// in bytes. "Only the length field and the new bytes change."
/// Refusals in order: the packet's own, then 16, 17, 8.
pub fn add(buffer: &mut [u8], block: &Block) -> Result<usize, Refusal> {
    let size = held(buffer)?;
    if !writable(block) {
        return Err(Refusal::BLOCK_TO_WRITE);
    }
    let bytes = framed(block);
    let new_size = grow(buffer, size, bytes.len())?;
    buffer[size..new_size].copy_from_slice(&bytes);
    Ok(new_size)
}

/// The size of the packet at the front of `buffer`. Refusals: the packet's own.
pub(crate) fn held(buffer: &[u8]) -> Result<usize, Refusal> {
    let size = packet::size(buffer, |size| 8 <= size && size <= buffer.len())?;
    packet::read(&buffer[..size])?;
    Ok(size)
}

/// Sets the length field of a packet of `size` bytes for a block of `added` bytes after it, and
/// answers the new size. Refusals in order: 17, 8.
pub(crate) fn grow(buffer: &mut [u8], size: usize, added: usize) -> Result<usize, Refusal> {
    let new_size = size + added;
    let Ok(length) = u16::try_from(new_size / 4 - 1) else {
        return Err(Refusal::PACKET_FULL);
    };
    if buffer.len() < new_size {
        return Err(Refusal::BUFFER_SHORT);
    }
    buffer[2..4].copy_from_slice(&length.to_be_bytes());
    Ok(new_size)
}

/// A block's type, type-specific byte and body, reserved bits zero. A block that `add`
/// refuses with 16 does not read back from them.
pub fn encode(block: &Block) -> (u8, u8, Vec<u8>) {
    let (block_type, specific) = match block {
        Block::Measurement(_) => (14, 0),
        Block::Loss(loss) => (17, loss.flag << 6),
        Block::Discard(discard) => (18, discard.flag << 6),
        Block::Effective(_) => (240, 0),
        Block::TransportStream(_) => (241, 0),
    };
    (block_type, specific, write_body(block))
}

/// "The words after the block's first."
pub fn write_body(block: &Block) -> Vec<u8> {
    match block {
        Block::Measurement(block) => words(&[
            block.source,
            halves(0, block.first),
            block.extended_first,
            block.extended_last,
            block.interval,
            block.seconds,
            block.fraction,
        ]),
        Block::Loss(block) => words(&[
            block.source,
            halves(block.burst_rate, block.gap_rate),
            halves(block.mean, block.variance),
        ]),
        Block::Discard(block) => words(&[block.source, halves(block.burst_rate, block.gap_rate)]),
        Block::Effective(block) => words(&[block.source, halves(block.index, 0)]),
        Block::TransportStream(block) => {
            let first = [block.source, halves(block.begin, block.end), block.streams];
            words(&[&first[..], &block.counts].concat())
        }
    }
}

/// Whether a 17 or 18 has flag 1, 2 or 3 and rates that reading would not drop.
fn writable(block: &Block) -> bool {
    let (flag, rates) = match block {
        Block::Loss(loss) => (loss.flag, [loss.burst_rate, loss.gap_rate]),
        Block::Discard(discard) => (discard.flag, [discard.burst_rate, discard.gap_rate]),
        _ => return true,
    };
    (1..=3).contains(&flag) && rates.into_iter().all(block::is_rate)
}

/// "A block: type, one type-specific byte, block length in 32-bit words less one, then
/// that many words."
fn framed(block: &Block) -> Vec<u8> {
    let (block_type, specific, body) = encode(block);
    let [high, low] = ((body.len() / 4) as u16).to_be_bytes();
    [vec![block_type, specific, high, low], body].concat()
}

/// Two 16-bit numbers in one word.
fn halves(high: u16, low: u16) -> u32 {
    u32::from(high) << 16 | u32::from(low)
}

fn words(words: &[u32]) -> Vec<u8> {
    words.iter().flat_map(|word| word.to_be_bytes()).collect()
}

#[cfg(test)]
mod tests;
