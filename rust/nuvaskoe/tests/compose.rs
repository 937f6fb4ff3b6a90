//! The library's writing of packets beside the independent one: sequences of adds, every
//! room, damaged packets, and blocks read and written again.

mod support;

use independent::block::{Block, Effective, Reading};
use std::collections::BTreeSet;
use support::{
    adding::{
        add_both, add_lawfully, bytes_of, front_size, new_both, one_of_each, random_sources,
        random_typed, with_room, writable,
    },
    answers::Answer,
    compare::{alone_both, compare, shown},
    from_env,
    packets::{all_kinds, block, damage, listed_words, random_packet, LISTED, P12},
    pattern, Random,
};

/// How many packets each test draws; `NUVASKOE_PACKETS` overrides.
const PACKETS: usize = 20_000;

fn packets() -> usize {
    from_env("NUVASKOE_PACKETS", PACKETS)
}

/// What adding to a good packet comes to, far from the longest packet.
fn expected(buffer: &[u8], block: &Block) -> Answer<usize> {
    let size = front_size(buffer) + bytes_of(block);
    match (writable(block), size <= buffer.len()) {
        (false, _) => Err((16, 0)),
        (true, false) => Err((8, 0)),
        (true, true) => Ok(size),
    }
}

#[test]
fn new_packets() {
    for sender in [0, 1, 0x0102_0304, 0x8000_0000, u32::MAX] {
        for length in 0..=40 {
            let (answer, out) = new_both(sender, length);
            if length < 8 {
                assert_eq!(answer, Err((8, 0)));
                continue;
            }
            assert_eq!(answer, Ok(8));
            assert_eq!(out[..4], [0x80, 0xCF, 0, 1]);
            assert_eq!(compare(&out[..8]), Ok((sender, 0)));
        }
    }
}

#[test]
fn example_p12() {
    let (_, mut buffer) = new_both(1, 20);
    let block = Block::Effective(Effective {
        source: 2,
        index: 37_448,
    });
    assert_eq!(add_lawfully(&mut buffer, &block), Ok(20));
    assert_eq!(buffer, P12);
}

/// Sequences of good and bad blocks into drawn rooms. Every add keeps the laws of reading.
#[test]
fn random_sequences() {
    let mut random = Random::new("random_sequences");
    let mut seen = BTreeSet::new();
    for _ in 0..packets() / 4 {
        let sources = random_sources(&mut random);
        let room = random.below(600);
        let (answer, mut buffer) = new_both(random.draw() as u32, room);
        if answer.is_err() {
            continue;
        }
        for _ in 0..random.below(20) {
            let block = random_typed(&mut random, &sources);
            let expected = expected(&buffer, &block);
            assert_eq!(add_lawfully(&mut buffer, &block), expected, "{block:?}");
            seen.insert(expected.map_or_else(|refusal| refusal.0, |_| 0));
        }
        let _ = compare(&buffer[..front_size(&buffer)]);
    }
    assert!(packets() < PACKETS || seen == BTreeSet::from([0, 8, 16]));
}

/// The same sequence into every room from none to more than it needs.
#[test]
fn every_room() {
    let mut random = Random::new("every_room");
    let mut sequences: Vec<Vec<Block>> = one_of_each(5).map(|block| vec![block]).to_vec();
    sequences.push(one_of_each(5).to_vec());
    for _ in 0..packets() / 200 {
        let sources = random_sources(&mut random);
        let count = 1 + random.below(5);
        let drawn = (0..count).map(|_| random_typed(&mut random, &sources));
        sequences.push(drawn.collect());
    }
    for blocks in sequences {
        let needed: usize = blocks.iter().map(bytes_of).sum();
        for room in 0..=8 + needed + 12 {
            let (answer, mut buffer) = new_both(7, room);
            for block in &blocks {
                let expected = match answer {
                    // Too short for a new packet, and for any other.
                    Err(_) => Err((1, 0)),
                    Ok(_) => expected(&buffer, block),
                };
                assert_eq!(add_both(&mut buffer, block), expected, "{room} bytes");
            }
        }
    }
}

/// Packets that were read and not written here, with unknown and dropped blocks and
/// reserved bits, in buffers with any room.
#[test]
fn adding_to_random_packets() {
    let mut random = Random::new("adding_to_random_packets");
    for _ in 0..packets() / 2 {
        let packet = random_packet(&mut random);
        let mut buffer = with_room(&packet, random.below(80));
        let sources = random_sources(&mut random);
        let block = random_typed(&mut random, &sources);
        let expected = expected(&buffer, &block);
        assert_eq!(add_lawfully(&mut buffer, &block), expected, "{block:?}");
    }
}

/// Damaged packets, some with a length field over or under the buffer, meet every refusal
/// but 17.
#[test]
fn adding_to_damaged_packets() {
    let mut random = Random::new("adding_to_damaged_packets");
    let mut seen = BTreeSet::new();
    for _ in 0..2 * packets() {
        let mut packet = random_packet(&mut random);
        for _ in 0..=random.below(2) {
            damage(&mut random, &mut packet);
        }
        if let (Some(low), 0) = (packet.get_mut(3), random.below(4)) {
            *low = low.wrapping_add(random.one_of(&[1, 2, 3, 255, 254, 253]));
        }
        let mut buffer = with_room(&packet, random.below(60));
        let sources = random_sources(&mut random);
        let block = random_typed(&mut random, &sources);
        let answer = add_lawfully(&mut buffer, &block);
        seen.insert(answer.map_or_else(|refusal| refusal.0, |_| 0));
    }
    if packets() >= PACKETS {
        assert_eq!(seen, BTreeSet::from([0, 1, 2, 3, 4, 5, 6, 8, 16]));
    }
}

/// Any bytes, then the same under a header that is right.
#[test]
fn adding_to_random_bytes() {
    let mut random = Random::new("adding_to_random_bytes");
    for _ in 0..packets() {
        let length = random.below(100);
        let mut bytes = random.bytes(length);
        let sources = random_sources(&mut random);
        let block = random_typed(&mut random, &sources);
        let _ = add_lawfully(&mut bytes.clone(), &block);
        if length < 8 {
            continue;
        }
        let header = [0x80 | bytes[0] & 0x1F, 207, 0, bytes[3] % 26];
        bytes[..4].copy_from_slice(&header);
        // Short blocks, so that some packets are good.
        for place in (8..length - 3).step_by(4) {
            bytes[place + 2] = 0;
            bytes[place + 3] &= 3;
        }
        let _ = add_lawfully(&mut bytes, &block);
    }
}

/// A buffer starts anywhere, not only where a word may.
#[test]
fn every_alignment() {
    for start in 0..16 {
        let mut bytes = pattern(start + 200);
        let buffer = &mut bytes[start..];
        buffer[..8].copy_from_slice(&[0x80, 207, 0, 1, 0, 0, 0, 9]);
        for block in one_of_each(5) {
            assert!(add_lawfully(buffer, &block).is_ok());
        }
        assert_eq!(bytes[..start], pattern(start));
    }
}

/// A block's bytes with its reserved bits zero.
fn without_reserved(mut bytes: Vec<u8>) -> Vec<u8> {
    bytes[1] &= match bytes[0] {
        17 | 18 => 0xC0,
        _ => 0,
    };
    match bytes[0] {
        14 => bytes[8..10].fill(0),
        240 => bytes[10..12].fill(0),
        _ => {}
    }
    bytes
}

/// Reads a block by itself and, where it is typed, writes it again; whether it was.
fn write_again(bytes: &[u8]) -> bool {
    let Reading::Typed(typed) = alone_both(bytes[0], bytes[1], &bytes[4..]) else {
        return false;
    };
    let (_, mut buffer) = new_both(3, 8 + bytes.len());
    assert_eq!(add_both(&mut buffer, &typed), Ok(buffer.len()));
    assert_eq!(
        buffer[8..],
        without_reserved(bytes.to_vec()),
        "{}",
        shown(bytes)
    );
    true
}

/// A typed block read and written again has the same bytes but for reserved bits.
#[test]
fn reading_and_writing_again() {
    let mut random = Random::new("reading_and_writing_again");
    for (block_type, words) in LISTED {
        let mut typed = 0;
        for _ in 0..packets() {
            let mut body = random.bytes(4 * words);
            // Half of all rates drawn would be dropped.
            if matches!(block_type, 17 | 18) && random.below(4) > 0 {
                body[4] &= 0x7F;
                body[6] &= 0x7F;
            }
            typed += usize::from(write_again(&block(block_type, random.byte(), &body)));
        }
        assert!(typed > packets() / 3, "type {block_type}: {typed}");
    }
}

/// The typed blocks of a packet, each added to another: the packet again, without the
/// blocks that are not typed and the reserved bits.
#[test]
fn packets_written_again() {
    let mut random = Random::new("packets_written_again");
    let mut samples = vec![all_kinds(), P12.to_vec()];
    samples.extend((0..packets() / 4).map(|_| random_packet(&mut random)));
    for packet in samples {
        let judged = independent::packet::judge(&packet).expect("a good packet");
        let (_, mut buffer) = new_both(judged.sender, packet.len());
        let mut again = buffer[..8].to_vec();
        for frame in judged.blocks {
            let bytes = &packet[frame.offset..frame.body.end];
            let Reading::Typed(typed) = alone_both(bytes[0], bytes[1], &bytes[4..]) else {
                continue;
            };
            assert_eq!(
                listed_words(bytes[0]).map(|words| 4 * words + 4),
                Some(bytes.len())
            );
            again.extend(without_reserved(bytes.to_vec()));
            assert_eq!(add_both(&mut buffer, &typed), Ok(again.len()));
        }
        again[2..4].copy_from_slice(&buffer[2..4]);
        assert_eq!(buffer[..again.len()], again);
    }
}
