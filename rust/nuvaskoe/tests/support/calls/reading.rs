//! Packets and blocks read, and packets compared.

use super::{after_packet, call, number, Call, PACKET};
use crate::support::{
    compare::{alone_both, block_both, body_both, list_both, read_both},
    differences::{compare_both, enough, needed},
    packets::{any_body, any_packet},
    pairs::any_pair,
    Random,
};

pub fn calls() -> Vec<Call> {
    vec![
        call("packet_read", &PACKET, any_packet, |packet| {
            number(&read_both(packet))
        }),
        call(
            "packet_block",
            &after_packet(&[7]),
            indexed,
            |(packet, index)| number(&block_both(packet, *index)),
        ),
        // Refused is where the block is, and the body then empty.
        call(
            "packet_body",
            &after_packet(&[7]),
            indexed,
            |(packet, index)| number(&body_both(packet, *index)),
        ),
        call(
            "packet_list",
            &after_packet(&[8]),
            with_entries,
            |(packet, entries)| number(&list_both(packet, *entries).0),
        ),
        call(
            "packet_compare",
            &after_packet(&[8]),
            with_numbers,
            |(first, second, numbers)| number(&compare_both(first, second, *numbers).0),
        ),
        call(
            "block_read",
            &[],
            any_body,
            |(block_type, specific, body)| {
                alone_both(*block_type, *specific, body);
                0
            },
        ),
    ]
}

/// A packet, and the index of a block or one that has none.
pub(super) fn indexed(random: &mut Random) -> (Vec<u8>, usize) {
    let packet = any_packet(random);
    let count = blocks(&packet);
    let index = match random.below(8) {
        0 => random.one_of(&[count + 1, 1 << 16, 1 << 32, usize::MAX - 1, usize::MAX]),
        1 => count,
        _ => random.below(count.max(1)),
    };
    (packet, index)
}

/// A packet, and entries for its list: as many as it takes, a few more, or too few.
fn with_entries(random: &mut Random) -> (Vec<u8>, usize) {
    let packet = any_packet(random);
    let needed = 2 * blocks(&packet);
    let entries = match random.below(4) {
        0 => random.below(needed.max(1)),
        1 => needed.saturating_sub(1),
        2 => needed + 1 + random.below(5),
        _ => needed,
    };
    (packet, entries)
}

/// Two packets, and numbers for the list of their differences: as many as it takes, so many
/// that they are always enough, a few more, too few, or none.
fn with_numbers(random: &mut Random) -> (Vec<u8>, Vec<u8>, usize) {
    let (first, second) = any_pair(random);
    let needed = needed(&first, &second);
    let numbers = match random.below(16) {
        0 => random.below(needed.max(1)),
        1 => needed.saturating_sub(1),
        2 => needed.saturating_sub(5),
        3 => 0,
        4 | 5 => needed + 1 + random.below(9),
        6 | 7 => enough(&first, &second).saturating_sub(1).max(needed),
        8..=11 => enough(&first, &second),
        _ => needed,
    };
    (first, second, numbers)
}

/// How many blocks a packet has; some for one that is refused.
fn blocks(packet: &[u8]) -> usize {
    independent::packet::read(packet).map_or(2, |(_, count)| count)
}
