//! Blocks of type 1 to read, good and bad for every cause, and traces to write as one.

use super::{packets::block, Random};

/// The most packets of a block of type 1.
pub const MOST: usize = 65_533;
/// The packets of a vector.
pub const VECTOR: usize = 15;

/// A chunk that covers nothing and stands behind the end.
pub const NULL: u16 = 0x0000;
/// A run of no received packets, which covers nothing and is no null chunk.
pub const NO_RUN: u16 = 0x4000;

/// A run of received or lost packets.
pub fn run(received: bool, packets: usize) -> u16 {
    assert!(packets <= 0x3FFF);
    u16::from(received) << 14 | packets as u16
}

/// A vector of these bits, the earliest packet first.
pub fn vector(received: [u16; VECTOR]) -> u16 {
    received.iter().fold(1, |chunk, bit| chunk << 1 | bit)
}

/// The body of a type 1: source, begin, end and chunks.
pub fn rle_body(source: u32, begin: u16, packets: usize, chunks: &[u16]) -> Vec<u8> {
    let end = begin.wrapping_add(packets as u16);
    let mut body = source.to_be_bytes().to_vec();
    let halves = [begin, end].into_iter().chain(chunks.iter().copied());
    body.extend(halves.flat_map(u16::to_be_bytes));
    body
}

/// A block of type 1, with a null chunk more where the chunks are no whole words.
pub fn rle_block(source: u32, begin: u16, packets: usize, chunks: &[u16]) -> Vec<u8> {
    let mut chunks = chunks.to_vec();
    even(&mut chunks);
    block(1, 0, &rle_body(source, begin, packets, &chunks))
}

/// A null chunk where the count is odd.
fn even(chunks: &mut Vec<u16>) {
    if chunks.len() % 2 == 1 {
        chunks.push(NULL);
    }
}

/// The packets of an interval: few, around whole vectors, some, or many.
pub fn interval(random: &mut Random) -> usize {
    match random.below(64) {
        0 => random.one_of(&[MOST, MOST - 1, 32_768, 16_383, 16_384]),
        1 => random.below(MOST + 1),
        2..=5 => random.below(6_000),
        6..=19 => VECTOR * random.below(7) + random.below(3),
        20..=31 => random.below(400),
        32 => 0,
        _ => random.below(40),
    }
}

/// The first sequence number, at times near the wrap.
pub fn begin(random: &mut Random) -> u16 {
    let any = random.draw() as u16;
    random.one_of(&[0, 1, 65_535, 65_530, 65_500, any, any, any])
}

/// Chunks that cover so many packets: vectors, runs of both kinds and runs of nothing, alone or in
/// rows of each; the last chunk ends with the packets or behind them.
pub fn covering(random: &mut Random, packets: usize) -> Vec<u16> {
    let in_rows = random.below(2) == 0;
    let (mut vectors, mut row) = (random.below(2) == 0, 0_usize);
    let (mut chunks, mut left) = (Vec::new(), packets);
    while left > 0 {
        if in_rows && row == 0 {
            vectors = !vectors;
            row = match vectors {
                true => random.one_of(&[1, 2, 7, 15, 16, 17, 18, 40, 100, 300, 1_000]),
                false => random.one_of(&[1, 1, 1, 2, 5]),
            };
        }
        row = row.saturating_sub(1);
        let (chunk, covered) = match vectors {
            true => (some_vector(random), VECTOR),
            false => some_run(random, left, in_rows),
        };
        chunks.push(chunk);
        left = left.saturating_sub(covered);
    }
    chunks
}

fn some_vector(random: &mut Random) -> u16 {
    let any = random.draw() as u16;
    0x8000 | random.one_of(&[any, any, any, 0x7FFF, 0])
}

/// A run where so many packets are left, and its length; a run of nothing has none. Between rows of
/// vectors most are short.
fn some_run(random: &mut Random, left: usize, in_rows: bool) -> (u16, usize) {
    let length = match random.below(10) {
        0 => 0,
        1 => 1,
        2..=7 if in_rows => random.below(40),
        2 => left,
        3 => left + 1 + random.below(20),
        4 => 0x3FFF,
        5 => left - 1,
        _ => 1 + random.below(left),
    };
    let length = length.min(0x3FFF);
    let received = length == 0 || random.below(2) == 0;
    (run(received, length), length)
}

/// A block of type 1 for one of these sources: three of four are good, and every cause to drop one
/// has its share of the others.
pub fn random_rle(random: &mut Random, sources: &[u32]) -> Vec<u8> {
    let mut packets = interval(random);
    let mut chunks = covering(random, packets);
    let mut specific = random.byte() & 0xF0;
    let (place, some) = (random.below(chunks.len() + 1), random.draw() as u16);
    match random.below(20) {
        0 => specific |= 1 + random.below(15) as u8,
        1 => packets = random.one_of(&[65_534, 65_535]),
        // A null chunk in the middle, or one too many before the end.
        2 if place < chunks.len() => chunks[place] = NULL,
        2 => chunks.insert(0, NULL),
        3 => chunks.truncate(place),
        // Behind the end, at times behind nulls.
        4 => {
            chunks.extend(vec![NULL; random.below(3)]);
            chunks.push(random.one_of(&[NO_RUN, 1, 0x8000, 0xFFFF, some | 1]));
        }
        _ => {}
    }
    even(&mut chunks);
    chunks.extend(vec![NULL; 2 * random.one_of(&[0, 0, 0, 1, 3])]);
    let source = random.one_of(sources);
    let mut body = rle_body(source, begin(random), packets, &chunks);
    if random.below(40) == 0 {
        body.truncate(random.one_of(&[0, 4]));
    }
    block(1, specific, &body)
}

/// A trace to write: received and lost packets, of a length as `interval` has it, at times empty or
/// too long, or with a byte that is neither.
pub fn any_trace(random: &mut Random) -> Vec<u8> {
    let length = match random.below(24) {
        0 => 0,
        1 => random.one_of(&[MOST + 1, MOST + 2, MOST + 3, 70_000]),
        _ => interval(random).max(1),
    };
    let mut trace = lossy(random, length);
    if !trace.is_empty() && random.below(8) == 0 {
        for _ in 0..=random.below(2) {
            let place = random.below(trace.len());
            trace[place] = random.one_of(&[2, 2, 2, 3, 128, 255]);
        }
    }
    trace
}

/// So many packets, of which any share is lost.
pub fn lossy(random: &mut Random, length: usize) -> Vec<u8> {
    let lost = random.one_of(&[0, 1, 5, 50, 95, 100]);
    let packets = (0..length).map(|_| u8::from(random.below(100) < lost));
    packets.collect()
}

/// A block of this trace as it is written.
pub fn written_block(source: u32, begin: u16, trace: &[u8]) -> Vec<u8> {
    let vectors: Vec<u16> = trace
        .chunks(VECTOR)
        .map(|packets| {
            let mut bits = [0; VECTOR];
            for (bit, packet) in bits.iter_mut().zip(packets) {
                *bit = u16::from(*packet == 0);
            }
            vector(bits)
        })
        .collect();
    rle_block(source, begin, trace.len(), &vectors)
}
