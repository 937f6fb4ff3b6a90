//! The front panel. None of its calls is refused.

use super::{call, reading::indexed, Call};
use crate::support::{
    adding::{random_kind, random_sources},
    answers::theirs,
    boundary,
    numbers::block_answer,
    packets::any_body,
    panels::{of_alone_both, of_block_both, of_packet_both, of_read_both},
    Random,
};

pub fn calls() -> Vec<Call> {
    vec![
        call("panel_of_packet", &[], indexed, |(packet, index)| {
            of_packet_both(packet, *index);
            0
        }),
        call("panel_of_read", &[], any_read, |(alone, block)| {
            let (block_type, specific, body) = alone;
            of_alone_both(*block_type, *specific, body);
            of_read_both(block);
            0
        }),
        call("panel_of_loss", &[], |random| summary(random, 17), shown),
        call("panel_of_discard", &[], |random| summary(random, 18), shown),
    ]
}

fn shown(block: &independent::block::Block) -> u32 {
    of_block_both(block);
    0
}

fn summary(random: &mut Random, block_type: u8) -> independent::block::Block {
    let sources = random_sources(random);
    random_kind(random, block_type, &sources)
}

/// A block by itself, and a block as the boundary answers it, at times with one number changed.
fn any_read(random: &mut Random) -> ((u8, u8, Vec<u8>), boundary::Block) {
    let (packet, index) = indexed(random);
    let answer = theirs(independent::packet::block(&packet, index));
    let mut block = block_answer(&answer);
    let number = random.one_of(&[
        0,
        1,
        4,
        5,
        16,
        17,
        18,
        254,
        255,
        32_768,
        65_535,
        65_536 + 17,
    ]);
    let place = random.below(4);
    match random.below(16) {
        0 => block.refusal.number = number,
        1 => block.verdict = number,
        2 | 3 => block.block_type = number,
        4 | 5 => block.fields[place] = number,
        // What a cut to the field's width would not see.
        6 => block.fields[place] = block.fields[place].wrapping_add(65_536),
        7 => block.fields[0] = block.fields[0].wrapping_add(256),
        _ => {}
    }
    (any_body(random), block)
}
