//! Traces read out of blocks of type 1, and added as one.

use super::{after_packet, call, number, reading::indexed, Call};
use crate::support::{
    adding::with_room,
    drawn_runs::{any_trace, begin, random_rle},
    packets::{any_packet, one_block, packet, perhaps_damaged, random_block, LONGEST, SOURCES},
    runs::{add_rle_both, bytes_of_rle, rle_both},
    Random,
};
use independent::block::Reading;

pub fn calls() -> Vec<Call> {
    vec![
        call(
            "packet_rle",
            &after_packet(&[7, 8]),
            reading_out,
            |(packet, index, room)| number(&rle_both(packet, *index, *room).0),
        ),
        call(
            "packet_add_rle",
            &after_packet(&[10, 9, 17, 8]),
            adding,
            |(buffer, source, begin, trace)| {
                number(&add_rle_both(&mut buffer.clone(), *source, *begin, trace))
            },
        ),
    ]
}

/// A packet, the index of a block, mostly of type 1, and room for its trace: as much as it takes,
/// more, or too little.
fn reading_out(random: &mut Random) -> (Vec<u8>, usize, usize) {
    let (packet, index) = match random.below(6) {
        0 => indexed(random),
        _ => {
            let (packet, index) = among_others(random);
            match random.below(3) {
                0 => (perhaps_damaged(random, packet), index),
                _ => (packet, index),
            }
        }
    };
    let needed = match independent::packet::block(&packet, index) {
        Ok((_, Reading::Rle(block))) => block.packets().into(),
        _ => random.below(40),
    };
    let room = match random.below(8) {
        0 => random.below(needed.max(1)),
        1 => needed.saturating_sub(1),
        2 | 3 => needed + 1 + random.below(30),
        _ => needed,
    };
    (packet, index, room)
}

/// A packet with a block of type 1 among others, and where it stands.
fn among_others(random: &mut Random) -> (Vec<u8>, usize) {
    let count = random.below(5);
    let mut blocks: Vec<_> = (0..count).map(|_| random_block(random, &SOURCES)).collect();
    let index = random.below(count + 1);
    blocks.insert(index, random_rle(random, &SOURCES));
    (packet(random.draw() as u32, &blocks), index)
}

/// A trace, and a buffer with or without room for it: a packet of any kind at its front, at times
/// one that the block would bring to the longest or past it.
fn adding(random: &mut Random) -> (Vec<u8>, u32, u16, Vec<u8>) {
    let trace = any_trace(random);
    let needed = bytes_of_rle(trace.len());
    let packet = match random.below(10) {
        0 => one_block(LONGEST - needed + 4 * random.below(4) - 4),
        _ => any_packet(random),
    };
    let room = match random.below(4) {
        0 => random.below(needed),
        1 => needed,
        _ => needed + random.below(30),
    };
    let mut buffer = with_room(&packet, room);
    if random.below(24) == 0 {
        buffer.truncate(random.below(8));
    }
    (buffer, random.one_of(&SOURCES), begin(random), trace)
}
