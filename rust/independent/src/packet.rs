//! "The packet": a header, a sender, and blocks that fill the rest. Every call judges
//! the whole packet before it answers. Refusals in order: 1, 2, 3, 4, 5, 6, then 7.

use crate::block::{self, half, word, Block, Reading, Reason};
use crate::refusal::Refusal;
use std::{iter, ops::Range};

/// Where one block lies in its packet.
#[derive(Debug, Clone, PartialEq, Eq)]
pub struct Frame {
    pub block_type: u8,
    pub specific: u8,
    pub offset: usize,
    /// The words after the block's first.
    pub body: Range<usize>,
}

/// A good packet.
#[derive(Debug, Clone, PartialEq, Eq)]
pub struct Packet {
    pub sender: u32,
    pub blocks: Vec<Frame>,
}

/// The sender and all blocks of a packet.
pub fn judge(packet: &[u8]) -> Result<Packet, Refusal> {
    let sender = sender(packet)?;
    let blocks = frames(packet).collect::<Result<_, _>>()?;
    Ok(Packet { sender, blocks })
}

/// The sender and the number of blocks.
#[inline]
pub fn read(packet: &[u8]) -> Result<(u32, usize), Refusal> {
    let sender = sender(packet)?;
    let mut count = 0;
    for frame in frames(packet) {
        frame?;
        count += 1;
    }
    Ok((sender, count))
}

/// Block `index`: its type and what it reads as.
#[inline]
pub fn block(packet: &[u8], index: usize) -> Result<(u8, Reading), Refusal> {
    let frame = find(packet, index)?;
    let reading = in_packet(packet, &frame, |source| {
        frames(packet)
            .flatten()
            .any(|other| measured(packet, &other) == Some(source))
    });
    Ok((frame.block_type, reading))
}

/// The body of block `index`, as the very part of the packet; empty where refused.
#[inline]
pub fn body(packet: &[u8], index: usize) -> &[u8] {
    match find(packet, index) {
        Ok(frame) => &packet[frame.body],
        Err(_) => &[],
    }
}

/// Gives every block of a packet to `each`, in order. One pass finds the sources that
/// have a measurement, a second reads the blocks: D4 looks both ways.
pub fn walk(packet: &[u8], mut each: impl FnMut(&Frame, Reading)) -> Result<(), Refusal> {
    let sources = sources(packet)?;
    for frame in frames(packet).flatten() {
        let has = |source| sources.binary_search(&source).is_ok();
        each(&frame, in_packet(packet, &frame, has));
    }
    Ok(())
}

/// The sources that have a measurement, in rising order and each once.
pub fn sources(packet: &[u8]) -> Result<Vec<u32>, Refusal> {
    sender(packet)?;
    let mut sources = Vec::new();
    for frame in frames(packet) {
        sources.extend(measured(packet, &frame?));
    }
    sources.sort_unstable();
    sources.dedup();
    Ok(sources)
}

/// The blocks of a good packet, each from its type to the end of its body.
pub fn blocks(packet: &[u8]) -> impl Iterator<Item = &[u8]> {
    let mut rest = &packet[8..];
    iter::from_fn(move || {
        if rest.is_empty() {
            return None;
        }
        let block;
        (block, rest) = rest.split_at(4 + 4 * usize::from(half(rest, 2)));
        Some(block)
    })
}

/// Every block's offset and verdict.
pub fn list(packet: &[u8]) -> Result<Vec<(usize, u32)>, Refusal> {
    let mut listed = Vec::new();
    walk(packet, |frame, reading| {
        listed.push((frame.offset, reading.verdict()));
    })?;
    Ok(listed)
}

/// The list, two numbers a block, at the front of `out`; answers how many numbers.
/// Refusals: the packet's own, then 8.
pub fn list_into(packet: &[u8], out: &mut [u32]) -> Result<usize, Refusal> {
    let listed = list(packet)?;
    if out.len() < 2 * listed.len() {
        return Err(Refusal::BUFFER_SHORT);
    }
    for (entry, (offset, verdict)) in listed.iter().enumerate() {
        out[2 * entry] = *offset as u32;
        out[2 * entry + 1] = *verdict;
    }
    Ok(2 * listed.len())
}

/// The header's checks, and the sender.
fn sender(packet: &[u8]) -> Result<u32, Refusal> {
    size(packet, |size| size == packet.len())?;
    Ok(word(packet, 4))
}

/// The header's checks, and the size that its length field gives: 4 × (length + 1), which
/// is refused with 4 unless it `fits`.
pub(crate) fn size(bytes: &[u8], fits: impl Fn(usize) -> bool) -> Result<usize, Refusal> {
    if bytes.len() < 8 {
        return Err(Refusal::PACKET_SHORT);
    }
    if bytes[0] >> 6 != 2 {
        return Err(Refusal::VERSION);
    }
    if bytes[1] != 207 {
        return Err(Refusal::PACKET_TYPE);
    }
    let size = 4 * (usize::from(half(bytes, 2)) + 1);
    if !fits(size) {
        return Err(Refusal::PACKET_LENGTH);
    }
    if bytes[0] & 0b0010_0000 != 0 {
        return Err(Refusal::PADDING);
    }
    Ok(size)
}

/// The blocks of a packet with a good header, up to the first that runs past the end.
/// Such a packet is whole words, so a block that starts before the end has its first word.
fn frames(packet: &[u8]) -> impl Iterator<Item = Result<Frame, Refusal>> + '_ {
    let mut next = 8;
    iter::from_fn(move || {
        let offset = next;
        if offset == packet.len() {
            return None;
        }
        let body = offset + 4..offset + 4 + 4 * usize::from(half(packet, offset + 2));
        if body.end > packet.len() {
            next = packet.len();
            return Some(Err(Refusal::block_past_end(offset)));
        }
        next = body.end;
        Some(Ok(Frame {
            block_type: packet[offset],
            specific: packet[offset + 1],
            offset,
            body,
        }))
    })
}

/// Block `index`, after the whole packet is judged: 6 comes before 7.
pub(crate) fn find(packet: &[u8], index: usize) -> Result<Frame, Refusal> {
    sender(packet)?;
    let mut found = None;
    for (place, frame) in frames(packet).enumerate() {
        let frame = frame?;
        if place == index {
            found = Some(frame);
        }
    }
    found.ok_or(Refusal::NO_SUCH_BLOCK)
}

/// The source of a well-sized block 14.
fn measured(packet: &[u8], frame: &Frame) -> Option<u32> {
    let well_sized = frame.block_type == 14 && frame.body.len() == 4 * 7;
    well_sized.then(|| word(packet, frame.body.start))
}

/// The block by itself, and D4 where nothing before it applies and no block 14 `has` its
/// source.
fn in_packet(packet: &[u8], frame: &Frame, has: impl Fn(u32) -> bool) -> Reading {
    let reading = block::read(
        frame.block_type,
        frame.specific,
        &packet[frame.body.clone()],
    );
    let source = match reading {
        Reading::Typed(Block::Loss(loss)) => loss.source,
        Reading::Typed(Block::Discard(discard)) => discard.source,
        _ => return reading,
    };
    if has(source) {
        reading
    } else {
        Reading::Dropped(Reason::D4)
    }
}

#[cfg(test)]
mod tests;
