//! The blocks of a packet one after another: each as the library gives it by index, and as
//! the independent walk does.

mod support;

use nuvaskoe::packet::{self, PacketBlock};
use std::collections::BTreeSet;
use support::{
    answers::{ours, theirs},
    compare::{shown, translated},
    from_env,
    packets::{
        all_kinds, any_packet, block, damage, listed, measured_late, random_packet, LONGEST, P12,
    },
    Random,
};

/// How many packets each test draws; `NUVASKOE_PACKETS` overrides.
const PACKETS: usize = 20_000;
/// Beyond this many blocks, only some are asked for by index.
const ALL_INDICES: usize = 64;

/// Compares all blocks; gives the refusal's number, or 0.
fn check(bytes: &[u8]) -> u32 {
    let read = ours(packet::read(bytes));
    let blocks = match ours(packet::blocks(bytes)) {
        Err(refusal) => {
            assert_eq!(read, Err(refusal), "{}", shown(bytes));
            assert_eq!(
                theirs(independent::packet::read(bytes)).err(),
                Some(refusal)
            );
            return refusal.0;
        }
        Ok(blocks) => blocks,
    };
    let count = read.expect("a packet with blocks").blocks;
    assert_eq!(blocks.len(), count, "{}", shown(bytes));
    let all: Vec<_> = blocks.collect();
    assert_eq!(all.len(), count, "{}", shown(bytes));
    check_walk(bytes, &all);
    let step = if count > ALL_INDICES { count / 16 } else { 1 };
    for block in all.iter().step_by(step).chain(all.last()) {
        let by_index = packet::block(bytes, block.index);
        assert_eq!(by_index, Ok(block.reading), "{}", shown(bytes));
        let body = packet::body(bytes, block.index);
        assert_eq!(body.as_ptr_range(), block.body.as_ptr_range());
    }
    0
}

/// Each block is what the independent walk has in its place.
fn check_walk(bytes: &[u8], all: &[PacketBlock<'_>]) {
    let mut rest = all.iter().enumerate();
    independent::packet::walk(bytes, |frame, reading| {
        let (index, block) = rest.next().expect("as many blocks");
        assert_eq!((block.index, block.offset), (index, frame.offset));
        let expected = (frame.block_type, reading);
        assert_eq!(translated(block.reading), expected, "{}", shown(bytes));
        let body = &bytes[frame.body.clone()];
        assert_eq!(body.as_ptr_range(), block.body.as_ptr_range());
    })
    .expect("a good packet");
    assert_eq!(rest.len(), 0);
}

fn packets() -> usize {
    from_env("NUVASKOE_PACKETS", PACKETS)
}

#[test]
fn samples() {
    for sample in [P12.to_vec(), all_kinds(), measured_late()] {
        assert_eq!(check(&sample), 0);
    }
    assert_eq!(check(&support::packets::packet(1, &[])), 0);
    let readings: Vec<_> = packet::blocks(&measured_late())
        .expect("a good packet")
        .map(|block| block.reading.verdict.number())
        .collect();
    assert_eq!(readings, [0, 0, 4, 255, 4, 0]);
}

#[test]
fn random_packets() {
    let mut random = Random::new("blocks random_packets");
    for _ in 0..packets() {
        assert_eq!(check(&random_packet(&mut random)), 0);
    }
}

/// Good, damaged and long packets, and any bytes, meet every refusal of a packet.
#[test]
fn hostile_packets() {
    let mut random = Random::new("blocks hostile_packets");
    let mut seen = BTreeSet::new();
    for _ in 0..packets() {
        let mut bytes = any_packet(&mut random);
        seen.insert(check(&bytes));
        damage(&mut random, &mut bytes);
        seen.insert(check(&bytes));
    }
    assert!(packets() < PACKETS || seen == BTreeSet::from([0, 1, 2, 3, 4, 5, 6]));
}

/// The most blocks that a packet can have.
#[test]
fn the_most_blocks() {
    let count = (LONGEST - 8) / 4;
    let bytes = support::packets::packet(1, &vec![block(17, 0, &[]); count]);
    assert_eq!(bytes.len(), LONGEST);
    assert_eq!(check(&bytes), 0);
    // A block 18 for each of many sources, of which every other is measured, and late.
    let sources = 0..(LONGEST - 8) as u32 / (2 * 12 + 32);
    let mut blocks: Vec<_> = sources
        .clone()
        .flat_map(|source| [listed(18, source), listed(18, !source)])
        .collect();
    blocks.extend(sources.map(|source| listed(14, source)));
    assert_eq!(check(&support::packets::packet(1, &blocks)), 0);
}

/// From either end, skipping some, the blocks are those of one walk.
#[test]
fn both_ends() {
    let mut random = Random::new("blocks both_ends");
    for _ in 0..packets() / 20 {
        let bytes = random_packet(&mut random);
        let blocks = packet::blocks(&bytes).expect("a good packet");
        let all: Vec<_> = blocks.clone().collect();
        let mut last_first: Vec<_> = blocks.clone().rev().collect();
        last_first.reverse();
        assert_eq!(last_first, all);
        for skipped in 0..=all.len() {
            let mut rest = blocks.clone();
            assert_eq!(rest.nth(skipped).as_ref(), all.get(skipped));
            let after = all.len().saturating_sub(skipped + 1);
            assert_eq!((rest.len(), rest.count()), (after, after));
        }
        let mut ended = blocks;
        ended.by_ref().for_each(drop);
        assert_eq!((ended.next(), ended.next_back()), (None, None));
    }
}
