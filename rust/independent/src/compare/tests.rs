mod kinds;
mod limits;

use super::*;
use crate::block::{Block, Reading};
use std::mem::discriminant;

/// A block with these words after its first.
fn block(block_type: u8, specific: u8, words: &[u32]) -> Vec<u8> {
    let [high, low] = (words.len() as u16).to_be_bytes();
    let mut block = vec![block_type, specific, high, low];
    block.extend(words.iter().flat_map(|word| word.to_be_bytes()));
    block
}

/// A packet with these blocks and the lengths that fit.
fn report(sender: u32, blocks: &[Vec<u8>]) -> Vec<u8> {
    let [a, b, c, d] = sender.to_be_bytes();
    let blocks = blocks.concat();
    let [high, low] = ((1 + blocks.len() / 4) as u16).to_be_bytes();
    [vec![0x80, 207, high, low, a, b, c, d], blocks].concat()
}

/// A well-sized block of flag 1 for `source`, otherwise zeros.
fn sourced(block_type: u8, source: u32) -> Vec<u8> {
    let mut words = vec![0; crate::block::words(block_type).unwrap()];
    words[0] = source;
    block(block_type, 0x40, &words)
}

/// `bytes` with the bits of `mask` turned over at `offset`.
fn turned(bytes: &[u8], offset: usize, mask: u8) -> Vec<u8> {
    let mut bytes = bytes.to_vec();
    bytes[offset] ^= mask;
    bytes
}

/// The fields of a typed block by their names.
fn fields(block: &Block) -> Vec<u32> {
    match *block {
        Block::Measurement(block) => vec![
            block.source,
            block.first.into(),
            block.extended_first,
            block.extended_last,
            block.interval,
            block.seconds,
            block.fraction,
        ],
        Block::Loss(block) => vec![
            block.flag.into(),
            block.source,
            block.burst_rate.into(),
            block.gap_rate.into(),
            block.mean.into(),
            block.variance.into(),
        ],
        Block::Discard(block) => vec![
            block.flag.into(),
            block.source,
            block.burst_rate.into(),
            block.gap_rate.into(),
        ],
        Block::Effective(block) => vec![block.source, block.index.into()],
        Block::TransportStream(block) => {
            let (begin, end) = (block.begin.into(), block.end.into());
            let mut fields = vec![block.source, begin, end, block.streams];
            fields.extend(block.counts);
            fields
        }
    }
}

/// The entries by asking both packets for one block after another.
fn asked(first: &[u8], second: &[u8]) -> Vec<Entry> {
    let packets = [first, second].map(|bytes| packet::judge(bytes).unwrap());
    let [sender, other] = [0, 1].map(|side| packets[side].sender);
    let mut entries = Vec::new();
    if sender != other {
        entries.push([0, 0, 0, sender, other]);
    }
    let bytes = |side: usize, index: usize| {
        let frame = &packets[side].blocks[index];
        &[first, second][side][frame.offset..frame.body.end]
    };
    for index in 0..packets[0].blocks.len().max(packets[1].blocks.len()) {
        let number = index as u32;
        let readings = [first, second].map(|bytes| packet::block(bytes, index));
        match readings.map(|answer| answer.map(|(_, reading)| reading)) {
            [Ok(_), Err(_)] => entries.push([3, number, 0, 0, 0]),
            [Err(_), Ok(_)] => entries.push([4, number, 0, 0, 0]),
            [Ok(Reading::Typed(block)), Ok(Reading::Typed(other))]
                if discriminant(&block) == discriminant(&other) =>
            {
                let pairs = fields(&block).into_iter().zip(fields(&other));
                let differing = (0..).zip(pairs).filter(|(_, (one, other))| one != other);
                entries
                    .extend(differing.map(|(field, (one, other))| [1, number, field, one, other]));
            }
            [Ok(Reading::Typed(_)), _] | [_, Ok(Reading::Typed(_))] => {
                entries.push([2, number, 0, 0, 0]);
            }
            _ if bytes(0, index) != bytes(1, index) => entries.push([2, number, 0, 0, 0]),
            _ => {}
        }
    }
    entries
}

/// The call with a list of `length` sevens, and the list after it.
fn lent(first: &[u8], second: &[u8], length: usize) -> (Result<usize, Refusal>, Vec<u32>) {
    let mut out = vec![7; length];
    let answer = compare(first, second, &mut out);
    (answer, out)
}

/// The entries with ample room, which are those with just enough; one number less is refused
/// and nothing written.
fn one_way(first: &[u8], second: &[u8]) -> Vec<Entry> {
    let ample = 5 * first.len().max(second.len());
    let (answer, out) = lent(first, second, ample);
    let needed = 5 * answer.unwrap();
    assert_eq!(out[needed..], vec![7; ample - needed]);
    for length in [needed, needed + 1, needed + 4, needed + 13] {
        let (again, filled) = lent(first, second, length);
        assert_eq!(again, answer);
        assert_eq!(filled[..needed], out[..needed]);
        assert_eq!(filled[needed..], vec![7; length - needed]);
    }
    if needed > 0 {
        for length in [0, needed - 5, needed - 1] {
            let refused = (Err(Refusal::BUFFER_SHORT), vec![7; length]);
            assert_eq!(lent(first, second, length), refused);
        }
    }
    let entries = out[..needed].chunks(5);
    entries.map(|entry| entry.try_into().unwrap()).collect()
}

/// The entries, which are those that asking gives; exchanged packets have them with the
/// readings exchanged, and 3 for 4; and each packet has none with itself.
fn entries(first: &[u8], second: &[u8]) -> Vec<Entry> {
    let entries = one_way(first, second);
    assert_eq!(entries, asked(first, second));
    let exchanged = entries.iter().map(|[kind, block, field, one, other]| {
        let kind = match kind {
            3 => 4,
            4 => 3,
            kind => *kind,
        };
        [kind, *block, *field, *other, *one]
    });
    assert_eq!(one_way(second, first), exchanged.collect::<Vec<_>>());
    assert!(one_way(first, first).is_empty());
    assert!(one_way(second, second).is_empty());
    entries
}

/// The entries of two packets of one sender with these blocks.
fn of_blocks(blocks: &[Vec<u8>], others: &[Vec<u8>]) -> Vec<Entry> {
    entries(&report(1, blocks), &report(1, others))
}

/// The entries of two blocks 0, measured in both packets for sources 5 and 6.
fn of_pair(block: &[u8], other: &[u8]) -> Vec<Entry> {
    let measured = [sourced(14, 5), sourced(14, 6)].concat();
    let [blocks, others] = [block, other].map(|block| [block.to_vec(), measured.clone()]);
    of_blocks(&blocks, &others)
}

const WHOLE_0: [Entry; 1] = [[2, 0, 0, 0, 0]];
