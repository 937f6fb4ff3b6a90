//! Packets made, and blocks added.

use super::{after_packet, call, number, Call};
use crate::support::{
    adding::{add_both, bytes_of, new_both, random_kind, random_sources, with_room},
    packets::{any_packet, one_block, LONGEST},
    Random,
};
use independent::block::Block;

pub fn calls() -> Vec<Call> {
    let (any, summary) = (after_packet(&[17, 8]), after_packet(&[16, 17, 8]));
    let add = |name, refusals, draw| call(name, refusals, draw, added);
    vec![
        call(
            "packet_new",
            &[8],
            |random| (random.draw() as u32, random.below(24)),
            |(sender, room)| number(&new_both(*sender, *room).0),
        ),
        add("packet_add_measurement", &any, |random| adding(random, 14)),
        add("packet_add_loss", &summary, |random| adding(random, 17)),
        add("packet_add_discard", &summary, |random| adding(random, 18)),
        add("packet_add_effective", &any, |random| adding(random, 240)),
        add("packet_add_streams", &any, |random| adding(random, 241)),
    ]
}

fn added((buffer, block): &(Vec<u8>, Block)) -> u32 {
    number(&add_both(&mut buffer.clone(), block))
}

/// A block of this type, and a buffer with or without room for it: a packet of any kind at
/// its front, at times one that the block would bring to the longest or past it.
fn adding(random: &mut Random, block_type: u8) -> (Vec<u8>, Block) {
    let sources = random_sources(random);
    let block = random_kind(random, block_type, &sources);
    let needed = bytes_of(&block);
    let packet = match random.below(12) {
        0 => one_block(LONGEST - needed + 4 * random.below(4) - 4),
        _ => any_packet(random),
    };
    let room = match random.below(4) {
        0 => random.below(needed),
        1 => needed,
        _ => needed + random.below(30),
    };
    let mut buffer = with_room(&packet, room);
    if random.below(24) == 0 {
        buffer.truncate(random.below(8));
    }
    (buffer, block)
}
