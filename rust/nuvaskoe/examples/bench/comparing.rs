//! Packets compared.

use super::{
    print, race,
    reading::{filled, many_sources},
    support::{
        differences::{compare_both, enough},
        packets::{all_kinds, listed, listed_words, one_block, LISTED},
    },
};
use std::{cell::RefCell, hint::black_box};

pub fn time() {
    time_kinds("small", &all_kinds());
    for length in [65_536, 131_072] {
        time_kinds("mixed", &mixed(length));
    }
    for (name, measured) in [("four", [4, 4]), ("many", [1_000, 2_000])] {
        for (length, measured) in [65_536, 131_072].into_iter().zip(measured) {
            time_summaries(name, &many_sources(length, measured));
        }
    }
    for length in [65_536, 131_072] {
        time_equal("one unknown block, equal", &one_block(length));
    }
}

/// Packets of all kinds, equal, and such that every field differs.
fn time_kinds(name: &str, packet: &[u8]) {
    time_equal(&format!("{name}, equal"), packet);
    let other = changed(packet, differ);
    let entries = places(packet).iter().map(|place| place.entries).sum();
    let name = format!("{name}, every field differs");
    time_pair(&name, packet, &other, entries);
}

/// Packets of 18s, equal, and such that every gap rate differs: a field where the 18 is
/// measured, and the whole block where it is not.
fn time_summaries(name: &str, packet: &[u8]) {
    let name = |what| format!("18s, {name} 14s, {what}");
    time_equal(&name("equal"), packet);
    let other = changed(packet, |block| {
        if block[0] == 18 {
            block[11] ^= 1;
        }
    });
    let places = places(packet);
    let summaries = places.iter().filter(|place| place.block_type == 18);
    time_pair(&name("gaps differ"), packet, &other, summaries.count());
}

/// A packet of all five kinds in turn. Each five have a source of their own, so that no
/// measurement stands twice; the odd factor puts the sources out of order.
fn mixed(length: usize) -> Vec<u8> {
    let five = |source| LISTED.map(|(block_type, _)| listed(block_type, source));
    let bytes = five(0).concat().len();
    let groups = (0..((length - 8) / bytes) as u32).map(|number| number.wrapping_mul(0x9E37_79B1));
    filled(length, groups.flat_map(five).collect())
}

/// A block of a packet: where it starts, its type, and in how many entries it can differ.
struct Place {
    start: usize,
    block_type: u8,
    entries: usize,
}

fn places(packet: &[u8]) -> Vec<Place> {
    let judged = independent::packet::judge(packet).expect("a good packet");
    let frames = judged.blocks.into_iter();
    let place = |frame: independent::packet::Frame| Place {
        start: frame.offset,
        block_type: frame.block_type,
        entries: match frame.block_type {
            14 => 7,
            17 => 6,
            18 => 4,
            240 => 2,
            241 => 12,
            _ => 1,
        },
    };
    frames.map(place).collect()
}

/// The packet with this change of each of its blocks.
fn changed(packet: &[u8], change: impl Fn(&mut [u8])) -> Vec<u8> {
    let mut other = packet.to_vec();
    let starts: Vec<_> = places(packet).iter().map(|place| place.start).collect();
    let ends = starts.iter().skip(1).copied().chain([packet.len()]);
    for (start, end) in starts.iter().zip(ends) {
        change(&mut other[*start..end]);
    }
    other
}

/// Another flag, and another low bit of each half of a word, so that every field reads
/// otherwise; an unknown block becomes one of another type.
fn differ(block: &mut [u8]) {
    if listed_words(block[0]).is_none() {
        block[0] ^= 3;
        return;
    }
    block[1] ^= 0x80;
    for place in (5..block.len()).step_by(2) {
        block[place] ^= 1;
    }
}

/// A packet beside the same bytes in another place.
fn time_equal(name: &str, packet: &[u8]) {
    let other = packet.to_vec();
    time_pair(name, packet, &other, 0);
}

/// Two packets with so many differences, which both write into one list.
fn time_pair(name: &str, first: &[u8], second: &[u8], differences: usize) {
    let room = enough(first, second);
    let (answer, listed) = compare_both(first, second, room);
    assert_eq!(answer, Ok(differences), "{name}");
    let out = RefCell::new(listed.clone());
    let times = race(
        || {
            let mut out = out.borrow_mut();
            nuvaskoe::packet::compare(black_box(first), black_box(second), black_box(&mut out))
        },
        || {
            let mut out = out.borrow_mut();
            independent::compare::compare(black_box(first), black_box(second), black_box(&mut out))
        },
    );
    assert!(out.into_inner() == listed);
    print(name, first.len(), "diff", times);
}
