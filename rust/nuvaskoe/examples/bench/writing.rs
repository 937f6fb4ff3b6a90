//! Packets written.

use super::{
    print, race,
    support::{
        adding::{add_both, library_block, new_both, one_of_each},
        packets::{all_kinds, LISTED},
    },
};
use independent::{block::Block, compose};
use std::hint::black_box;

/// The blocks of a made packet.
const BLOCKS: usize = 4_000;

pub fn time() {
    let kinds = one_of_each(5);
    let [_, loss, discard, ..] = kinds;
    time_new();
    for ((block_type, _), added) in LISTED.into_iter().zip(&kinds) {
        let name = format!("new packet, a {block_type} added");
        time_add(&name, &new_both(1, 8).1, added);
    }
    time_add("all kinds, a 17 added", &all_kinds(), &loss);
    time_make("4,000 blocks 18", &[discard]);
    time_make("4,000 blocks of all kinds", &kinds);
}

/// A packet without blocks, written again and again.
fn time_new() {
    let (answer, packet) = new_both(0x0A0B_0C0D, 8);
    assert_eq!(answer, Ok(8));
    let (mut ours, mut theirs) = ([0; 8], [0; 8]);
    let times = race(
        || nuvaskoe::packet::new(black_box(0x0A0B_0C0D), black_box(&mut ours)),
        || compose::new_packet(black_box(0x0A0B_0C0D), black_box(&mut theirs)),
    );
    assert!(ours[..] == packet && theirs[..] == packet);
    print("new packet", packet.len(), "new", times);
}

/// One add, again and again: the length field, put back each time, takes the block away.
fn time_add(name: &str, packet: &[u8], added: &Block) {
    let mut buffer = packet.to_vec();
    buffer.resize(packet.len() + 64, 0);
    let size = add_both(&mut buffer.clone(), added).expect("room for the block");
    let length = [packet[2], packet[3]];
    let ours_added = library_block(added);
    let (mut ours, mut theirs) = (buffer.clone(), buffer);
    let times = race(
        || {
            ours[2..4].copy_from_slice(&length);
            nuvaskoe::packet::add(black_box(&mut ours), black_box(&ours_added))
        },
        || {
            theirs[2..4].copy_from_slice(&length);
            compose::add(black_box(&mut theirs), black_box(added))
        },
    );
    assert!(ours == theirs);
    print(name, size, "add", times);
}

/// A packet made from the kinds in turn.
fn time_make(name: &str, kinds: &[Block]) {
    let blocks: Vec<_> = kinds.iter().cycle().take(BLOCKS).copied().collect();
    let ours_blocks: Vec<_> = blocks.iter().map(library_block).collect();
    let (mut ours, mut theirs) = (vec![0; 262_144], vec![0; 262_144]);
    let size = make_ours(&mut ours, &ours_blocks);
    assert_eq!(make_theirs(&mut theirs, &blocks), size);
    assert!(ours == theirs);
    let times = race(
        || make_ours(black_box(&mut ours), black_box(&ours_blocks)),
        || make_theirs(black_box(&mut theirs), black_box(&blocks)),
    );
    print(name, size, "make", times);
}

/// Answers the size of the packet made.
fn make_ours(buffer: &mut [u8], blocks: &[nuvaskoe::block::Block]) -> usize {
    let mut size = nuvaskoe::packet::new(1, buffer).expect("room for a packet");
    for block in blocks {
        size = nuvaskoe::packet::add(buffer, block).expect("room for the block");
    }
    size
}

/// The same, with the independent calls.
fn make_theirs(buffer: &mut [u8], blocks: &[Block]) -> usize {
    let mut size = compose::new_packet(1, buffer).expect("room for a packet");
    for block in blocks {
        size = compose::add(buffer, block).expect("room for the block");
    }
    size
}
