//! Packets to compare on: built from blocks, drawn, and damaged.

use super::{drawn_runs::random_rle, Random};

/// Byte 0 of a good packet: version 2, no padding.
pub const VERSION_2: u8 = 0x80;
/// Byte 1 of a good packet.
pub const REPORT: u8 = 207;
/// The longest packet: a length field of 65,535.
pub const LONGEST: usize = 262_144;
/// Type-specific byte with flag 1.
pub const FLAG: u8 = 0x40;

pub const P12: [u8; 20] = [
    0x80, 0xCF, 0x00, 0x04, 0x00, 0x00, 0x00, 0x01, 0xF0, 0x00, 0x00, 0x02, 0x00, 0x00, 0x00, 0x02,
    0x92, 0x48, 0x00, 0x00,
];

/// The listed types and the words of their bodies. Type 1 has bodies of many sizes.
pub const LISTED: [(u8, usize); 5] = [(14, 7), (17, 3), (18, 2), (240, 2), (241, 11)];

pub fn listed_words(block_type: u8) -> Option<usize> {
    let listed = LISTED.iter().find(|listed| listed.0 == block_type);
    listed.map(|listed| listed.1)
}

/// Types that are not listed; those near or like a listed one, and the ends.
const UNLISTED: [u8; 12] = [0, 2, 13, 15, 16, 19, 113, 142, 207, 239, 242, 255];

/// Sources that share halves and bytes, so that a part of one is not taken for all of it.
pub const SOURCES: [u32; 6] = [0, 1, 0x0100_0000, 0x0001_0001, 0x0001_0100, 0xFFFF_FFFF];

/// Rates on both sides of their limits, good ones more often.
pub const RATES: [u16; 10] = [
    0, 1, 256, 16_384, 32_767, 32_768, 65_535, 65_535, 32_769, 65_534,
];

/// The packet of these blocks.
pub fn packet(sender: u32, blocks: &[Vec<u8>]) -> Vec<u8> {
    let mut packet = vec![VERSION_2, REPORT, 0, 0];
    packet.extend(sender.to_be_bytes());
    packet.extend(blocks.concat());
    fit_length(&mut packet);
    packet
}

/// Sets the length field to what the bytes given ask for, as far as 16 bits can.
pub fn fit_length(packet: &mut [u8]) {
    let words = (packet.len() / 4).wrapping_sub(1) as u16;
    if let Some(field) = packet.get_mut(2..4) {
        field.copy_from_slice(&words.to_be_bytes());
    }
}

/// A block with this body of whole words.
pub fn block(block_type: u8, specific: u8, body: &[u8]) -> Vec<u8> {
    assert_eq!(body.len() % 4, 0);
    let [high, low] = ((body.len() / 4) as u16).to_be_bytes();
    [&[block_type, specific, high, low], body].concat()
}

/// A block of `words` words: `source`, then zeros.
pub fn sourced(block_type: u8, words: usize, source: u32) -> Vec<u8> {
    let mut body = vec![0; 4 * words];
    body[..4].copy_from_slice(&source.to_be_bytes());
    block(block_type, FLAG, &body)
}

/// A well-sized block of a listed type for `source`; zeros are good rates.
pub fn listed(block_type: u8, source: u32) -> Vec<u8> {
    let words = listed_words(block_type).expect("a listed type");
    sourced(block_type, words, source)
}

/// A packet of `length` bytes with one unknown block that fills it.
pub fn one_block(length: usize) -> Vec<u8> {
    let bytes = packet(7, &[block(2, 0, &vec![0; length - 12])]);
    assert_eq!(bytes.len(), length);
    bytes
}

/// All five kinds and an unknown block: 152 bytes, each different from its neighbours.
pub fn all_kinds() -> Vec<u8> {
    let mut next = 0;
    let mut numbered = |block_type, words: usize| {
        let mut body: Vec<u8> = (0..4 * words).map(|index| next + index as u8).collect();
        next += 4 * words as u8;
        body[..4].copy_from_slice(&[9, 8, 7, 6]);
        block(block_type, FLAG, &body)
    };
    let blocks = [
        numbered(17, 3),
        numbered(99, 5),
        numbered(14, 7),
        numbered(18, 2),
        numbered(240, 2),
        numbered(241, 11),
    ];
    let packet = packet(0x0A0B_0C0D, &blocks);
    assert_eq!(packet.len(), 152);
    packet
}

/// Blocks 17 and 18 of two sources; the one block 14 comes last.
pub fn measured_late() -> Vec<u8> {
    let blocks = [
        listed(17, 5),
        listed(18, 5),
        listed(17, 6),
        block(2, 0, &[]),
        listed(18, 6),
        listed(14, 5),
    ];
    packet(1, &blocks)
}

/// The type-specific byte, source and rates are often good, and the size mostly.
pub fn random_block(random: &mut Random, sources: &[u32]) -> Vec<u8> {
    let block_type = match random.below(18) {
        0..=2 => 14,
        3..=6 => 17,
        7..=10 => 18,
        11 => 240,
        12 => 241,
        13 | 14 => random.one_of(&UNLISTED),
        15 | 16 => return random_rle(random, sources),
        _ => random.byte(),
    };
    let words = match listed_words(block_type) {
        Some(words) if random.below(8) > 0 => words,
        _ => random.below(13),
    };
    let mut body = random.bytes(4 * words);
    if let Some(source) = body.get_mut(..4) {
        source.copy_from_slice(&random.one_of(sources).to_be_bytes());
    }
    for half in [4..6, 6..8, 8..10, 10..12] {
        match body.get_mut(half) {
            Some(half) if random.below(8) > 0 => {
                half.copy_from_slice(&random.one_of(&RATES).to_be_bytes());
            }
            _ => {}
        }
    }
    let specific = random.byte() | random.one_of(&[0, FLAG, FLAG]);
    block(block_type, specific, &body)
}

/// A good packet of up to 14 blocks that share a few sources.
pub fn random_packet(random: &mut Random) -> Vec<u8> {
    let mut sources = SOURCES.to_vec();
    sources.push(random.draw() as u32);
    let first = random.below(sources.len());
    sources.rotate_left(first);
    sources.truncate(1 + random.below(4));
    let count = random.below(15);
    let blocks: Vec<_> = (0..count).map(|_| random_block(random, &sources)).collect();
    let mut packet = packet(random.draw() as u32, &blocks);
    packet[0] |= random.byte() & 0x1F;
    packet
}

/// Damages a packet in one place; every kind of refusal can follow.
pub fn damage(random: &mut Random, packet: &mut Vec<u8>) {
    let (length, extra) = (packet.len(), random.below(9));
    match random.below(8) {
        0 => packet.truncate(random.below(length + 1)),
        1 => packet.extend(random.bytes(extra)),
        2 => {
            packet.truncate(random.below(length / 4 + 1) * 4);
            fit_length(packet);
        }
        3 => {
            packet.extend(random.bytes(4 * extra));
            fit_length(packet);
        }
        4 if length > 0 => packet[random.below(length.min(8))] = random.byte(),
        // The low byte of a block's length, where there are blocks.
        5 if length > 11 => packet[11] = packet[11].wrapping_add(random.one_of(&[1, 2, 255])),
        _ if length > 0 => packet[random.below(length)] = random.byte(),
        _ => {}
    }
}

/// Any bytes, and packets that are good, damaged, long or too long.
pub fn any_packet(random: &mut Random) -> Vec<u8> {
    if random.below(200) == 0 {
        return long_packet(random);
    }
    let packet = random_packet(random);
    perhaps_damaged(random, packet)
}

/// A good packet as it is, damaged, or other bytes in its place.
pub fn perhaps_damaged(random: &mut Random, mut packet: Vec<u8>) -> Vec<u8> {
    let (place, length) = (random.below(packet.len()), random.below(12));
    match random.below(16) {
        0 => return random.bytes(8 * length),
        1 => return short_blocks(random),
        2 => packet.truncate(length),
        3..=5 => damage_header(random, &mut packet),
        6 | 7 => packet[place] = random.byte(),
        8 => damage(random, &mut packet),
        9 => {
            damage(random, &mut packet);
            damage(random, &mut packet);
        }
        10 => {
            packet.truncate(place.max(8) / 4 * 4);
            fit_length(&mut packet);
        }
        _ => {}
    }
    packet
}

/// A fault that one of the refusals 2 to 5 names.
fn damage_header(random: &mut Random, packet: &mut [u8]) {
    match random.below(4) {
        0 => packet[0] ^= random.one_of(&[0x40, 0x80, 0xC0]),
        1 => packet[1] = random.one_of(&[0, 200, 206, 208, 255]),
        2 => packet[3] = packet[3].wrapping_add(random.one_of(&[1, 2, 3, 253, 254, 255])),
        _ => packet[0] |= 0x20,
    }
}

/// Any bytes after a right header, their blocks short, so that some packets are good.
fn short_blocks(random: &mut Random) -> Vec<u8> {
    let length = 8 + 4 * random.below(20);
    let mut packet = random.bytes(length);
    packet[..2].copy_from_slice(&[VERSION_2, REPORT]);
    fit_length(&mut packet);
    for place in (8..length).step_by(4) {
        packet[place + 2] = 0;
        packet[place + 3] &= 3;
    }
    packet
}

/// A packet of many blocks, empty ones among them, up to a word past the longest.
fn long_packet(random: &mut Random) -> Vec<u8> {
    let size = random.one_of(&[4_096, 65_536, LONGEST, LONGEST + 4]);
    let one_in = random.one_of(&[1, 2, 100]);
    let mut bytes = packet(random.draw() as u32, &[]);
    while bytes.len() < size {
        let (block_type, words) = random.one_of(&LISTED);
        let fits = bytes.len() + 4 + 4 * words <= size;
        match fits && random.below(one_in) == 0 {
            true => bytes.extend(listed(block_type, random.one_of(&SOURCES))),
            false => bytes.extend(block(random.byte(), 0, &[])),
        }
    }
    fit_length(&mut bytes);
    bytes
}

/// A type, type-specific byte and body, often of a listed type and mostly of its size, whole
/// words or not.
pub fn any_body(random: &mut Random) -> (u8, u8, Vec<u8>) {
    let bytes = random_block(random, &SOURCES);
    let mut body = bytes[4..].to_vec();
    match random.below(8) {
        0 => body.truncate(random.below(body.len() + 1)),
        1 => body.push(random.byte()),
        _ => {}
    }
    (bytes[0], bytes[1], body)
}
