//! Loss RLE: blocks of 65,533 packets, the most that one has.

use super::{
    print, race,
    support::{
        adding::new_both,
        batches::random_losses,
        compare::alone_both,
        drawn_runs::{rle_block, run, MOST, VECTOR},
        packets::packet,
        runs::{add_rle_both, rle_both},
        Random,
    },
};
use independent::{block::Reading, rle};
use std::hint::black_box;

pub fn time() {
    let mut random = Random::new("bench runs");
    let cases = [
        ("Loss RLE, vectors", chunks(&mut random, 0)),
        ("Loss RLE, runs of 16,383", chunks(&mut random, 16_383)),
        ("Loss RLE, both", chunks(&mut random, 1_000)),
    ];
    for (name, chunks) in cases {
        let block = rle_block(5, 40_000, MOST, &chunks);
        time_count(name, &block[4..]);
        time_read_out(name, &packet(1, &[block]));
    }
    time_add(&random_losses(&mut random, MOST, 5, 0));
}

/// Vectors alone, runs as long as can be alone, or shorter runs with four vectors behind each.
fn chunks(random: &mut Random, length: usize) -> Vec<u16> {
    let (mut chunks, mut covered) = (Vec::new(), 0);
    while covered < MOST {
        let is_run = match length {
            0 => false,
            16_383 => true,
            _ => chunks.len() % 5 == 0,
        };
        let (chunk, packets) = match is_run {
            true => (run(random.below(4) > 0, length), length),
            false => (0x8000 | random.draw() as u16, VECTOR),
        };
        chunks.push(chunk);
        covered += packets;
    }
    chunks
}

/// The block by itself, whose lost packets are counted.
fn time_count(name: &str, body: &[u8]) {
    let reading = alone_both(1, 0, body);
    assert!(matches!(reading, Reading::Rle(_)), "{reading:?}");
    let times = race(
        || nuvaskoe::block::read(1, 0, black_box(body)),
        || independent::block::read(1, 0, black_box(body)),
    );
    print(name, body.len(), "count", times);
}

/// The only block of a packet, its trace read out.
fn time_read_out(name: &str, packet: &[u8]) {
    let (answer, trace) = rle_both(packet, 0, MOST);
    assert_eq!(answer, Ok(MOST));
    let (mut ours, mut theirs) = (vec![7; MOST], vec![7; MOST]);
    let times = race(
        || nuvaskoe::packet::rle(black_box(packet), 0, black_box(&mut ours)),
        || rle::read_out(black_box(packet), 0, black_box(&mut theirs)),
    );
    assert!(ours == trace && theirs == trace);
    print(name, packet.len(), "out", times);
}

/// A trace added to a new packet; the length field, put back each time, takes the block away.
fn time_add(trace: &[u8]) {
    let (_, buffer) = new_both(1, 9_000);
    let mut added = buffer.clone();
    let size = add_rle_both(&mut added, 5, 40_000, trace).expect("room for the block");
    let length = [buffer[2], buffer[3]];
    let (mut ours, mut theirs) = (buffer.clone(), buffer);
    let times = race(
        || {
            ours[2..4].copy_from_slice(&length);
            nuvaskoe::packet::add_rle(black_box(&mut ours), 5, 40_000, black_box(trace))
        },
        || {
            theirs[2..4].copy_from_slice(&length);
            rle::add(black_box(&mut theirs), 5, 40_000, black_box(trace))
        },
    );
    assert!(ours == added && theirs == added);
    print("new packet, Loss RLE added", size, "add", times);
}
