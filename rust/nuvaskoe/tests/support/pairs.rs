//! Two packets to compare, the second much like the first.

use super::{
    packets::{
        any_packet, block, damage, listed_words, packet, random_block, random_packet, SOURCES,
    },
    Random,
};

/// The reserved bits of a well-sized block of each listed type: bytes of it, and their bits.
pub const RESERVED: [(u8, &[(usize, u8)]); 5] = [
    (14, &[(1, 0xFF), (8, 0xFF), (9, 0xFF)]),
    (17, &[(1, 0x3F)]),
    (18, &[(1, 0x3F)]),
    (240, &[(1, 0xFF), (10, 0xFF), (11, 0xFF)]),
    (241, &[(1, 0xFF)]),
];

/// Any two packets, often good and alike; either may be one that is refused.
pub fn any_pair(random: &mut Random) -> (Vec<u8>, Vec<u8>) {
    let first = match random.below(3) {
        0 => any_packet(random),
        _ => random_packet(random),
    };
    let mut second = match random.below(12) {
        0 | 1 => any_packet(random),
        2 => first.clone(),
        _ => related(random, &first),
    };
    if random.below(12) == 0 {
        damage(random, &mut second);
    }
    (first, second)
}

/// Two good packets, alike.
pub fn good_pair(random: &mut Random) -> (Vec<u8>, Vec<u8>) {
    let first = random_packet(random);
    let second = related(random, &first);
    (first, second)
}

/// A packet with some changes of `like`; what is no good packet changes in one place only.
fn related(random: &mut Random, like: &[u8]) -> Vec<u8> {
    let Ok(judged) = independent::packet::judge(like) else {
        let mut other = like.to_vec();
        damage(random, &mut other);
        return other;
    };
    let mut sender = judged.sender;
    if random.below(4) == 0 {
        sender ^= 1 << random.below(32);
    }
    let mut blocks: Vec<_> = independent::packet::blocks(like)
        .map(<[u8]>::to_vec)
        .collect();
    for _ in 0..random.below(6) {
        change(random, &mut blocks);
    }
    if random.below(2) == 0 {
        blocks.iter_mut().for_each(|some| reserve(random, some));
    }
    let mut other = packet(sender, &blocks);
    other[0] |= random.byte() & 0x1F;
    other
}

/// One change of a packet's blocks.
fn change(random: &mut Random, blocks: &mut Vec<Vec<u8>>) {
    let count = blocks.len();
    if count == 0 {
        return blocks.push(random_block(random, &SOURCES));
    }
    let (place, other) = (random.below(count), random.below(count));
    match random.below(12) {
        0 => drop(blocks.remove(place)),
        1 => blocks.insert(place, random_block(random, &SOURCES)),
        2 => blocks[place] = random_block(random, &SOURCES),
        3 => blocks.swap(place, other),
        4..=6 => change_measurement(random, blocks, other),
        7 => set_source(random, &mut blocks[place]),
        8 => blocks[place][1] ^= 1 << random.below(8),
        _ => turn_bit(random, &mut blocks[place]),
    }
}

/// Takes a block 14 away, moves it to another place, or gives it another source or size.
fn change_measurement(random: &mut Random, blocks: &mut Vec<Vec<u8>>, other: usize) {
    let measurements: Vec<_> = (0..blocks.len())
        .filter(|place| blocks[*place][0] == 14)
        .collect();
    if measurements.is_empty() {
        return;
    }
    let place = random.one_of(&measurements);
    match random.below(4) {
        0 => drop(blocks.remove(place)),
        1 => {
            let measurement = blocks.remove(place);
            blocks.insert(other.min(blocks.len()), measurement);
        }
        2 => set_source(random, &mut blocks[place]),
        _ => {
            let mut body = blocks[place][4..].to_vec();
            body.resize(4 * random.one_of(&[1, 6, 8]), 0);
            blocks[place] = block(14, blocks[place][1], &body);
        }
    }
}

/// Turns reserved bits of a block over.
fn reserve(random: &mut Random, block: &mut [u8]) {
    let listed = RESERVED.iter().find(|(kind, _)| *kind == block[0]);
    let sized = listed_words(block[0]) == Some(block.len() / 4 - 1);
    for (place, bits) in listed.filter(|_| sized).map_or(&[][..], |row| row.1) {
        block[*place] ^= random.byte() & bits;
    }
}

/// Another source, where there is one.
fn set_source(random: &mut Random, block: &mut [u8]) {
    if let Some(source) = block.get_mut(4..8) {
        source.copy_from_slice(&random.one_of(&SOURCES).to_be_bytes());
    }
}

/// Turns a bit over that is not of the length.
fn turn_bit(random: &mut Random, block: &mut [u8]) {
    let place = match random.below(block.len()) {
        2 => 0,
        3 => 1,
        place => place,
    };
    block[place] ^= 1 << random.below(8);
}
