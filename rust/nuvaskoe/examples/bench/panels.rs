//! Blocks on the front panel.

use super::{
    print, race,
    support::{
        adding::{bytes_of, library_block, one_of_each},
        packets::all_kinds,
        panels::{of_block_both, of_packet_both},
        raw,
    },
};
use independent::{block::Block, panel};
use std::hint::black_box;

pub fn time() {
    let [_, loss, discard, ..] = one_of_each(5);
    time_given("block 17 given", &loss);
    time_given("block 18 given", &discard);
    time_read();
    time_packet();
}

fn time_given(name: &str, block: &Block) {
    assert!(of_block_both(block).lamp());
    let ours = library_block(block);
    let times = race(
        || nuvaskoe::panel::of_block(black_box(&ours)),
        || panel::of_block(black_box(block)),
    );
    print(name, bytes_of(block), "panel", times);
}

/// The first block of the packet of all kinds, a 17. The safe call goes by its value, so this is the
/// boundary's own.
fn time_read() {
    let packet = all_kinds();
    assert!(of_packet_both(&packet, 0).lamp());
    let ours = raw::packet_block(&packet, 0);
    let (_, theirs) = independent::packet::block(&packet, 0).expect("a block");
    let times = race(
        || raw::panel_of_read(black_box(ours)),
        || panel::of_reading(black_box(&theirs)),
    );
    print("block 17 as it was read", 16, "panel", times);
}

fn time_packet() {
    let packet = all_kinds();
    assert!(of_packet_both(&packet, 0).lamp());
    let times = race(
        || nuvaskoe::panel::of_packet(black_box(&packet), black_box(0)),
        || panel::of_packet(black_box(&packet), black_box(0)),
    );
    print("all five kinds, one unknown", packet.len(), "panel", times);
}
