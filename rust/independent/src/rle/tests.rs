mod many;
mod reading;
mod writing;

use super::*;
use crate::block::{LossRle, Reason};

/// The trace that chunks describe, one packet after another; none where they are D5.
fn plain(chunks: &[u16], packets: usize) -> Option<Vec<u8>> {
    let mut trace = Vec::new();
    for chunk in chunks {
        let before_the_end = trace.len() < packets;
        // A null chunk stands after the end, and only there.
        if before_the_end == (*chunk == 0) {
            return None;
        }
        let described = match chunk >> 14 {
            0b00 | 0b01 => chunk & 0x3FFF,
            _ => 15,
        };
        for packet in 0..described {
            if trace.len() == packets {
                break;
            }
            let received = match chunk >> 14 {
                0b00 => false,
                0b01 => true,
                // From left to right, after the bit that says the type.
                _ => chunk << (packet + 1) & 0x8000 != 0,
            };
            trace.push(if received { 0 } else { 1 });
        }
    }
    (trace.len() == packets).then_some(trace)
}

/// Chunks as they stand in a block.
fn bytes(chunks: &[u16]) -> Vec<u8> {
    let bytes = chunks.iter().flat_map(|chunk| chunk.to_be_bytes());
    bytes.collect()
}

/// Source, begin, end and chunks.
fn body(source: u32, begin: u16, end: u16, chunks: &[u16]) -> Vec<u8> {
    let [high, low] = [source >> 16, source].map(|half| half as u16);
    bytes(&[&[high, low, begin, end], chunks].concat())
}

/// A block with this body, a whole number of words.
fn block(block_type: u8, specific: u8, body: &[u8]) -> Vec<u8> {
    let [high, low] = ((body.len() / 4) as u16).to_be_bytes();
    [&[block_type, specific, high, low], body].concat()
}

/// A packet of sender 1 with these blocks and the lengths that fit.
fn packet(blocks: &[Vec<u8>]) -> Vec<u8> {
    let blocks = blocks.concat();
    let [high, low] = ((1 + blocks.len() / 4) as u16).to_be_bytes();
    [vec![0x80, 207, high, low, 0, 0, 0, 1], blocks].concat()
}

/// A trace from its digits.
fn trace(digits: &str) -> Vec<u8> {
    digits.bytes().map(|digit| digit - b'0').collect()
}

/// The call with a buffer of `length` bytes 0xA5, and the buffer after it.
fn lent(packet: &[u8], index: usize, length: usize) -> (Result<usize, Refusal>, Vec<u8>) {
    let mut out = vec![0xA5; length];
    let answer = read_out(packet, index, &mut out);
    (answer, out)
}

/// Refused whatever the room, and nothing is written.
fn refused(packet: &[u8], index: usize, refusal: Refusal) {
    for length in [0, 1, 15, 500] {
        let unchanged = (Err(refusal), vec![0xA5; length]);
        assert_eq!(lent(packet, index, length), unchanged);
    }
}

/// Block `index` reads out as this trace with just enough room or more, and not with less.
fn reads_out(packet: &[u8], index: usize, trace: &[u8]) {
    for more in [0, 1, 20] {
        let (answer, out) = lent(packet, index, trace.len() + more);
        assert_eq!(answer, Ok(trace.len()));
        assert_eq!(out[..trace.len()], *trace);
        assert_eq!(out[trace.len()..], vec![0xA5; more]);
    }
    if let Some(less) = trace.len().checked_sub(1) {
        for length in [0, less / 2, less] {
            let unchanged = (Err(Refusal::BUFFER_SHORT), vec![0xA5; length]);
            assert_eq!(lent(packet, index, length), unchanged);
        }
    }
}

/// What chunks of an interval say, by each call: the trace, or none where the block is D5.
/// Where they are odd in number, a null makes them whole words.
fn said(begin: u16, packets: usize, chunks: &[u16]) -> Option<Vec<u8>> {
    let said = plain(chunks, packets);
    let lost = said.as_ref().map(|trace| losses(trace));
    assert_eq!(
        count(&bytes(chunks), packets),
        lost,
        "{packets} {chunks:X?}"
    );
    let mut chunks = chunks.to_vec();
    chunks.resize(chunks.len().next_multiple_of(2), 0);
    // Where they cover too little, so they do with a null.
    let said = said.filter(|_| packets <= 65_533);
    let end = begin.wrapping_add(packets as u16);
    let body = body(0xFEDC_BA98, begin, end, &chunks);
    let expected = match &said {
        Some(trace) => Reading::Rle(LossRle {
            source: 0xFEDC_BA98,
            begin,
            end,
            lost: losses(trace) as u16,
        }),
        None => Reading::Dropped(Reason::D5),
    };
    assert_eq!(block::read(1, 0, &body), expected, "{packets} {chunks:X?}");
    // Between an unknown block and one more of type 1, which has no packets.
    let others = [block(2, 0, &body), block(1, 0, &[0; 8])];
    let blocks = [others[0].clone(), block(1, 0, &body), others[1].clone()];
    let packet = packet(&blocks);
    assert_eq!(packet::block(&packet, 1), Ok((1, expected)));
    match &said {
        Some(trace) => reads_out(&packet, 1, trace),
        None => refused(&packet, 1, Refusal::NO_SUCH_BLOCK),
    }
    said
}

fn losses(trace: &[u8]) -> usize {
    trace.iter().filter(|byte| **byte == 1).count()
}

/// Numbers that look random, the same in every run.
struct Numbers(u64);

impl Numbers {
    /// A number below `bound`.
    fn below(&mut self, bound: usize) -> usize {
        self.0 ^= self.0 << 13;
        self.0 ^= self.0 >> 7;
        self.0 ^= self.0 << 17;
        (self.0 >> 32) as usize % bound
    }

    fn one_of<T: Copy>(&mut self, choices: &[T]) -> T {
        choices[self.below(choices.len())]
    }

    fn half(&mut self) -> u16 {
        self.below(65_536) as u16
    }
}
