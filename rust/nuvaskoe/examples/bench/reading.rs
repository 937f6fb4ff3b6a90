//! Packets read.

use super::{
    print, race,
    support::{
        compare::{alone_both, compare},
        packets::{all_kinds, block, listed, packet, LISTED, P12},
    },
};
use independent::block::Reading;
use std::hint::black_box;

pub fn time() {
    for case in &cases() {
        time_case(case);
    }
    for (block_type, _) in LISTED {
        time_alone(block_type);
    }
}

struct Case {
    name: &'static str,
    packet: Vec<u8>,
}

fn cases() -> Vec<Case> {
    let case = |name, packet| Case { name, packet };
    vec![
        case("P12", P12.to_vec()),
        case("all five kinds, one unknown", all_kinds()),
        case("empty unknown blocks", empty_blocks(65_536)),
        case("empty unknown blocks", empty_blocks(131_072)),
        case("17s, their 14 last", measured_last(65_536)),
        case("17s, their 14 last", measured_last(131_072)),
        case("18s of all sources, four 14s", many_sources(65_536, 4)),
        case("18s of all sources, four 14s", many_sources(131_072, 4)),
        case("18s of all sources, many 14s", many_sources(65_536, 1_000)),
        case("18s of all sources, many 14s", many_sources(131_072, 2_000)),
    ]
}

/// A packet of `length` bytes: empty unknown blocks where `blocks` leave room, then those.
pub fn filled(length: usize, blocks: Vec<Vec<u8>>) -> Vec<u8> {
    let used: usize = blocks.iter().map(Vec::len).sum();
    let mut all = vec![block(2, 0, &[]); (length - 8 - used) / 4];
    all.extend(blocks);
    let packet = packet(1, &all);
    assert_eq!(packet.len(), length);
    packet
}

fn empty_blocks(length: usize) -> Vec<u8> {
    filled(length, Vec::new())
}

fn measured_last(length: usize) -> Vec<u8> {
    let measurement = listed(14, 5);
    let mut blocks = vec![listed(17, 5); (length - 8 - measurement.len()) / 16];
    blocks.push(measurement);
    filled(length, blocks)
}

/// Blocks 18 of different sources, the last `measured` of which have a block 14 each, amid
/// the packet. The odd factor keeps the sources different and puts them out of order.
pub fn many_sources(length: usize, measured: usize) -> Vec<u8> {
    let source = |number: usize| (number as u32).wrapping_mul(0x9E37_79B1);
    let count = (length - 8 - 32 * measured) / 12;
    let mut blocks: Vec<_> = (0..count)
        .map(|number| listed(18, source(number)))
        .collect();
    let rest = blocks.split_off(count / 2);
    blocks.extend((count - measured..count).map(|number| listed(14, source(number))));
    blocks.extend(rest);
    filled(length, blocks)
}

/// Both give the same answers; how many blocks there are.
fn check(packet: &[u8]) -> usize {
    let (_, count) = compare(packet).expect("a good packet");
    let mut ours = vec![0; 2 * count];
    assert_eq!(nuvaskoe::packet::list(packet, &mut ours), Ok(2 * count));
    let mut independent = Vec::new();
    walk(packet, &mut independent);
    let ours: Vec<_> = ours.chunks(2).map(|entry| (entry[0], entry[1])).collect();
    assert_eq!(ours, independent);
    count
}

/// The independent list, into a buffer that is used again.
fn walk(packet: &[u8], out: &mut Vec<(u32, u32)>) {
    out.clear();
    independent::packet::walk(packet, |frame, reading| {
        out.push((frame.offset as u32, reading.verdict()));
    })
    .expect("a good packet");
}

fn time_case(case: &Case) {
    let packet = &case.packet[..];
    let count = check(packet);
    let read = race(
        || nuvaskoe::packet::read(black_box(packet)),
        || independent::packet::read(black_box(packet)),
    );
    print(case.name, packet.len(), "read", read);
    let (mut our_list, mut their_list) = (vec![0; 2 * count], Vec::with_capacity(count));
    let all = race(
        || nuvaskoe::packet::list(black_box(packet), black_box(&mut our_list)),
        || walk(black_box(packet), black_box(&mut their_list)),
    );
    print(case.name, packet.len(), "all", all);
    let index = count - 1;
    let last = race(
        || nuvaskoe::packet::block(black_box(packet), black_box(index)),
        || independent::packet::block(black_box(packet), black_box(index)),
    );
    print(case.name, packet.len(), "last", last);
    let body = race(
        || nuvaskoe::packet::body(black_box(packet), black_box(index)),
        || independent::packet::body(black_box(packet), black_box(index)),
    );
    print(case.name, packet.len(), "body", body);
}

/// One block by itself, the one of this type in the packet of all kinds.
fn time_alone(block_type: u8) {
    let packet = all_kinds();
    let judged = independent::packet::judge(&packet).expect("a good packet");
    let mut frames = judged.blocks.into_iter();
    let frame = frames.find(|frame| frame.block_type == block_type);
    let frame = frame.expect("a block of each listed type");
    let (specific, body) = (frame.specific, &packet[frame.body]);
    let reading = alone_both(block_type, specific, body);
    assert!(matches!(reading, Reading::Typed(_)), "{reading:?}");
    let times = race(
        || nuvaskoe::block::read(black_box(block_type), black_box(specific), black_box(body)),
        || independent::block::read(black_box(block_type), black_box(specific), black_box(body)),
    );
    let name = format!("block {block_type} by itself");
    print(&name, body.len(), "alone", times);
}
