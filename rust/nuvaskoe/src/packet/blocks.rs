//! All blocks of a packet, one after another, in time linear in the packet.

use super::{list, read};
use crate::{
    block::{self, Reading, Reason, Verdict},
    Refusal,
};
use std::{iter::FusedIterator, ops::Range};

/// The bytes of a block before its body.
const FIRST_WORD: usize = 4;

/// One block of a packet.
#[non_exhaustive]
#[derive(Debug, Clone, Copy, PartialEq, Eq)]
pub struct PacketBlock<'a> {
    /// Its number, from 0.
    pub index: usize,
    /// Where it starts in the packet.
    pub offset: usize,
    /// Its body, as the part of the packet it lies in: the words after its first.
    pub body: &'a [u8],
    /// Its type, and what it comes to among the blocks of the packet.
    pub reading: Reading,
}

/// The blocks of a packet, from [`blocks`].
#[derive(Debug, Clone)]
pub struct Blocks<'a> {
    packet: &'a [u8],
    /// For each block its offset and its verdict's number.
    entries: Vec<u32>,
    /// The numbers of the blocks still to come.
    indices: Range<usize>,
}

/// All blocks of a packet. Each is as [`block`](super::block) and [`body`](super::body) give
/// it, but those walk the packet for every block, and this once for all.
///
/// ```
/// use nuvaskoe::packet;
///
/// let bytes = b"\x80\xCF\0\x04\0\0\0\x01\xF0\0\0\x02\0\0\0\x02\x92\x48\0\0";
/// for block in packet::blocks(bytes)? {
///     assert_eq!((block.index, block.offset), (0, 8));
///     assert_eq!(block.body, &bytes[12..]);
///     assert_eq!(block.reading, packet::block(bytes, 0)?);
/// }
/// # Ok::<(), nuvaskoe::Refusal>(())
/// ```
pub fn blocks(packet: &[u8]) -> Result<Blocks<'_>, Refusal> {
    let count = read(packet)?.blocks;
    let mut entries = vec![0; 2 * count];
    let written = list(packet, &mut entries)?;
    debug_assert_eq!(written, entries.len());
    Ok(Blocks {
        packet,
        entries,
        indices: 0..count,
    })
}

impl<'a> Blocks<'a> {
    fn at(&self, index: usize) -> PacketBlock<'a> {
        let offset = self.offset(index);
        let block = &self.packet[offset..self.offset(index + 1)];
        let (first, body) = block.split_at(FIRST_WORD);
        let mut reading = block::read(first[0], first[1], body);
        // By itself a block is never unmeasured.
        let unmeasured = Verdict::Dropped(Reason::Unmeasured);
        let verdict = self.entries[2 * index + 1];
        if verdict == unmeasured.number() {
            reading.verdict = unmeasured;
        }
        debug_assert_eq!(verdict, reading.verdict.number());
        PacketBlock {
            index,
            offset,
            body,
            reading,
        }
    }

    /// Where a block starts; the packet's end for the one after the last.
    fn offset(&self, index: usize) -> usize {
        let offset = self.entries.get(2 * index);
        offset.map_or(self.packet.len(), |offset| *offset as usize)
    }
}

impl<'a> Iterator for Blocks<'a> {
    type Item = PacketBlock<'a>;

    fn next(&mut self) -> Option<PacketBlock<'a>> {
        let index = self.indices.next()?;
        Some(self.at(index))
    }

    fn nth(&mut self, skipped: usize) -> Option<PacketBlock<'a>> {
        let index = self.indices.nth(skipped)?;
        Some(self.at(index))
    }

    fn size_hint(&self) -> (usize, Option<usize>) {
        self.indices.size_hint()
    }
}

impl DoubleEndedIterator for Blocks<'_> {
    fn next_back(&mut self) -> Option<Self::Item> {
        let index = self.indices.next_back()?;
        Some(self.at(index))
    }
}

impl ExactSizeIterator for Blocks<'_> {}

impl FusedIterator for Blocks<'_> {}
