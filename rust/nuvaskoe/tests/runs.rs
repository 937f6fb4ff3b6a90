//! Blocks of type 1 read, and their traces read out, beside the independent ones: RFC 3611's chunks
//! by hand, every chunk, all orders of a few, and drawn blocks.

mod support;

use independent::block::{LossRle, Reading, Reason};
use std::collections::BTreeSet;
use support::{
    compare::{alone_both, block_both, verdicts},
    drawn_runs::{interval, random_rle, rle_block, rle_body, run, vector, MOST, NO_RUN, NULL},
    from_env,
    packets::{all_kinds, block, listed, packet, random_packet, SOURCES},
    runs::{lost, rle_both},
    Random,
};

/// How many blocks a test draws; `NUVASKOE_PACKETS` overrides.
const BLOCKS: usize = 20_000;

fn blocks() -> usize {
    from_env("NUVASKOE_PACKETS", BLOCKS)
}

const SOURCE: u32 = 0x0102_0304;

/// A body of whole words: a null chunk more where there has to be.
fn body(begin: u16, packets: usize, chunks: &[u16]) -> Vec<u8> {
    rle_block(SOURCE, begin, packets, chunks).split_off(4)
}

/// What a block on so many packets comes to, by itself and in a packet, where its trace is read out
/// too: the trace, or the reason.
fn read(begin: u16, packets: usize, chunks: &[u16]) -> Result<Vec<u8>, Reason> {
    let body = body(begin, packets, chunks);
    let reading = alone_both(1, 0, &body);
    let packet = packet(1, &[block(1, 0, &body)]);
    assert_eq!(block_both(&packet, 0), Ok((1, reading)));
    match reading {
        Reading::Rle(block) => {
            let (answer, trace) = rle_both(&packet, 0, packets);
            assert_eq!(answer, Ok(packets));
            let expected = LossRle {
                source: SOURCE,
                begin,
                end: begin.wrapping_add(packets as u16),
                lost: lost(&trace) as u16,
            };
            assert_eq!(block, expected);
            Ok(trace)
        }
        Reading::Dropped(reason) => {
            assert_eq!(rle_both(&packet, 0, packets).0, Err((7, 0)));
            Err(reason)
        }
        other => panic!("{other:?}"),
    }
}

/// A trace written as digits.
fn trace(digits: &str) -> Result<Vec<u8>, Reason> {
    Ok(digits.bytes().map(|digit| digit - b'0').collect())
}

#[test]
fn chunks_by_hand() {
    // "The leftmost bit": 0 a run, then its kind, then 14 bits of its length.
    assert_eq!(read(0, 3, &[0b0100_0000_0000_0011]), trace("000"));
    assert_eq!(read(0, 3, &[0b0000_0000_0000_0011]), trace("111"));
    // 1 a vector, "read from left to right in order of increasing sequence number".
    let bits = 0b1101_0000_0000_0000;
    assert_eq!(read(0, 3, &[bits]), trace("010"));
    assert_eq!(read(0, 15, &[bits]), trace("010111111111111"));
    assert_eq!(
        vector([1, 0, 1, 0, 0, 0, 0, 0, 0, 0, 0, 0, 0, 0, 0]),
        0xD000
    );
    // Runs and vectors one behind the other.
    let chunks = [run(true, 2), 0xFFFE, run(false, 1), run(true, 1)];
    assert_eq!(read(9, 19, &chunks), trace("0000000000000000110"));
    // "A run past the end counts up to the end", and the last vector too.
    assert_eq!(read(0, 2, &[run(false, 16_383)]), trace("11"));
    assert_eq!(read(0, 2, &[0x9FFF]), trace("11"));
    assert_eq!(read(0, 2, &[0xE000]), trace("00"));
}

#[test]
fn nulls_and_runs_of_nothing() {
    // An interval of 0 packets, with no chunk and with nulls only.
    for nulls in 0..9 {
        assert_eq!(read(7, 0, &vec![NULL; nulls]), trace(""));
    }
    // Any number of nulls behind the end, and none before it.
    for nulls in 0..9 {
        let chunks = [vec![run(true, 1)], vec![NULL; nulls]].concat();
        assert_eq!(read(7, 1, &chunks), trace("0"));
        let chunks = [vec![NULL; nulls + 1], vec![run(true, 1)]].concat();
        assert_eq!(read(7, 1, &chunks), Err(Reason::D5));
    }
    assert_eq!(
        read(7, 3, &[run(true, 2), NULL, run(true, 1)]),
        Err(Reason::D5)
    );
    // "A run of ones of length 0 covers nothing": fine before the end, and no null chunk behind it.
    assert_eq!(read(7, 1, &[NO_RUN, NO_RUN, run(false, 1)]), trace("1"));
    assert_eq!(read(7, 1, &[NO_RUN, NO_RUN]), Err(Reason::D5));
    assert_eq!(read(7, 1, &[run(false, 1), NO_RUN]), Err(Reason::D5));
    assert_eq!(read(7, 0, &[NO_RUN]), Err(Reason::D5));
}

/// D1 and D2, and which comes first.
#[test]
fn sizes_and_thinning() {
    // D1: fewer than two words; by itself, not whole words.
    let good = body(5, 15, &[0xFFFF]);
    for length in 0..=good.len() {
        let reading = alone_both(1, 0, &good[..length]);
        let expected = match length {
            12 => None,
            // Chunks that cover too little.
            8 => Some(Reason::D5),
            _ => Some(Reason::D1),
        };
        let dropped = expected.map(Reading::Dropped);
        assert!(dropped.map_or(matches!(reading, Reading::Rle(_)), |some| some == reading));
        // D2 comes before D5, and behind D1.
        let thinned = alone_both(1, 1, &good[..length]);
        let expected = match length {
            8 | 12 => Reason::D2,
            _ => Reason::D1,
        };
        assert_eq!(thinned, Reading::Dropped(expected));
    }
    // D2: "thinning not 0" is the low four bits, and the high four are reserved.
    for specific in 0..=u8::MAX {
        let reading = alone_both(1, specific, &good);
        let thinned = reading == Reading::Dropped(Reason::D2);
        assert_eq!(thinned, specific % 16 != 0, "{specific:02x}");
    }
}

/// Every cause of D5.
#[test]
fn chunks_that_do_not_fit() {
    // "An interval over 65,533", though its chunks cover it.
    for packets in [65_532, MOST, 65_534, 65_535] {
        let over = (packets > MOST).then_some(Reason::D5);
        for begin in [0, 1, 2, 3, 32_768, 65_535] {
            let chunks = [vec![run(true, 16_383); 3], vec![run(false, 16_383); 2]].concat();
            let needed = if packets == 65_532 { 4 } else { 5 };
            assert_eq!(read(begin, packets, &chunks[..needed]).err(), over);
        }
    }
    // "Chunks cover too little" by a packet.
    assert_eq!(read(0, 16, &[0xFFFF]), Err(Reason::D5));
    let one = read(0, 16_384, &[run(false, 16_383)]);
    assert_eq!(one.err(), Some(Reason::D5));
    // "A chunk other than null follows the end".
    for chunk in [1, 0x8000, 0xFFFF, 0x4001] {
        assert_eq!(read(0, 15, &[0xFFFF, chunk]), Err(Reason::D5));
        assert_eq!(read(0, 15, &[0xFFFF, NULL, chunk]), Err(Reason::D5));
        assert_eq!(read(0, 0, &[NULL, chunk]), Err(Reason::D5));
    }
}

/// "The interval is end minus begin modulo 65,536".
#[test]
fn begin_and_end() {
    let mut random = Random::new("runs begin_and_end");
    let mut ends = vec![0, 1, 2, 3, 32_767, 32_768, 65_533, 65_534, 65_535];
    ends.extend((0..60).map(|_| random.draw() as u16));
    let chunks = [run(false, 16_383), run(true, 16_383), NO_RUN].repeat(3);
    for begin in &ends {
        for end in &ends {
            let packets = usize::from(end.wrapping_sub(*begin));
            let needed = match packets.div_ceil(16_383) {
                0 => 0,
                runs => 3 * (runs - 1) / 2 + 1,
            };
            let answer = read(*begin, packets, &chunks[..needed]);
            assert_eq!(answer.is_ok(), packets <= MOST, "{begin} to {end}");
        }
    }
    // Over the wrap, where plain subtraction has none.
    assert_eq!(read(65_535, 3, &[0xA000]), trace("101"));
}

/// Every chunk, alone and behind a packet, for intervals around what chunks cover.
#[test]
fn every_chunk() {
    let intervals = [0, 1, 2, 14, 15, 16, 17, 31, 16_382, 16_383, 16_384];
    for chunk in 0..=u16::MAX {
        for packets in intervals {
            for chunks in [&[chunk][..], &[run(true, 1), chunk]] {
                alone_both(1, 0, &body(3, packets, chunks));
            }
        }
        let packets = packets_of(chunk);
        let _ = read(0, packets.min(40), &[chunk]);
    }
}

/// How many packets a chunk says something of.
fn packets_of(chunk: u16) -> usize {
    match chunk >> 15 {
        0 => usize::from(chunk & 0x3FFF),
        _ => 15,
    }
}

/// All orders of up to four of these chunks, on up to 34 packets.
#[test]
fn every_order_of_chunks() {
    let choices = [
        NULL,
        NO_RUN,
        run(true, 1),
        run(false, 2),
        run(true, 16),
        0xD555,
        0x8001,
    ];
    let kinds = choices.len();
    let mut good = 0;
    for number in 0..kinds.pow(4) {
        let chosen = [0, 1, 2, 3].map(|digit| choices[number / kinds.pow(digit) % kinds]);
        for count in [2, 4] {
            for packets in 0..=34 {
                let reading = alone_both(1, 0, &body(0, packets, &chosen[..count]));
                if matches!(reading, Reading::Rle(_)) && count == 4 {
                    good += 1;
                    assert!(read(0, packets, &chosen).is_ok());
                }
            }
        }
    }
    assert!(good > 5_000, "{good}");
}

/// Another chunk at every place of a long row of vectors: a run, a run of nothing, a null chunk.
#[test]
fn rows_of_vectors() {
    let mut random = Random::new("runs rows_of_vectors");
    let row: Vec<u16> = (0..320).map(|_| 0x8000 | random.draw() as u16).collect();
    for place in 0..=row.len() {
        for chunk in [run(false, 20), run(true, 1), NO_RUN, NULL, 0x8000] {
            let mut chunks = row.clone();
            chunks.insert(place, chunk);
            let behind = place == row.len() && matches!(chunk, NULL | NO_RUN);
            let packets = 15 * row.len() + if behind { 0 } else { packets_of(chunk) };
            let good = match chunk {
                NULL => behind,
                NO_RUN => !behind,
                _ => true,
            };
            assert_eq!(
                read(9, packets, &chunks).is_ok(),
                good,
                "{chunk:04x} at {place}"
            );
            // The end inside the last chunk, and a packet that the chunks do not reach.
            let _ = read(9, packets - 1, &chunks);
            assert_eq!(read(9, packets + 1, &chunks).err(), Some(Reason::D5));
        }
    }
}

/// Drawn blocks by themselves and among others meet every verdict that a type 1 can have.
#[test]
fn random_blocks() {
    let mut random = Random::new("runs random_blocks");
    let mut seen = BTreeSet::new();
    for _ in 0..blocks() {
        let bytes = random_rle(&mut random, &SOURCES);
        let reading = alone_both(bytes[0], bytes[1], &bytes[4..]);
        seen.insert(reading.verdict());
        let packet = packet(1, &[listed(14, 5), bytes, listed(17, 5)]);
        assert_eq!(block_both(&packet, 1), Ok((1, reading)));
        let expected = match reading {
            Reading::Rle(block) => Ok(usize::from(block.packets())),
            _ => Err((7, 0)),
        };
        let room = expected.unwrap_or(9);
        assert_eq!(rle_both(&packet, 1, room).0, expected);
        assert_eq!(rle_both(&packet, 1, room + random.below(40)).0, expected);
    }
    assert!(blocks() < BLOCKS || seen == BTreeSet::from([1, 2, 5, 254]));
}

/// Only a good type 1 has a trace: not another block, and none that is not there.
#[test]
fn other_blocks_have_none() {
    for (kinds, count) in [(all_kinds(), 6), (packet(1, &[]), 0)] {
        for index in (0..count + 3).chain([1 << 16, 1 << 32, usize::MAX]) {
            assert_eq!(rle_both(&kinds, index, 400).0, Err((7, 0)), "{index}");
        }
    }
    // The same bytes under another type.
    let body = body(5, 15, &[0xFFFF]);
    for block_type in 0..=u8::MAX {
        let packet = packet(1, &[block(block_type, 0, &body)]);
        let expected = if block_type == 1 { Ok(15) } else { Err((7, 0)) };
        assert_eq!(rle_both(&packet, 0, 20).0, expected, "{block_type}");
    }
}

/// It is no measurement and no typed block: a 17 of its source stays dropped.
#[test]
fn beside_typed_blocks() {
    let rle = rle_block(5, 1, 15, &[0xFFFF]);
    let bytes = packet(1, &[rle.clone(), listed(17, 5), rle.clone()]);
    assert_eq!(verdicts(&bytes), [254, 4, 254]);
    let bytes = packet(1, &[rle.clone(), listed(17, 5), listed(14, 5), rle]);
    assert_eq!(verdicts(&bytes), [254, 0, 0, 254]);
}

/// A body starts anywhere, not only where a word may.
#[test]
fn every_alignment() {
    let mut random = Random::new("runs every_alignment");
    for start in 0..16 {
        for _ in 0..200 {
            let packets = interval(&mut random).min(2_000);
            let chunks = support::drawn_runs::covering(&mut random, packets);
            let mut bytes = vec![0xA5; start];
            bytes.extend(rle_body(SOURCE, 65_000, packets, &chunks));
            alone_both(1, 0, &bytes[start..]);
            let mut packet = packet(1, &[rle_block(SOURCE, 65_000, packets, &chunks)]);
            packet.splice(..0, vec![0xA5; start]);
            assert_eq!(rle_both(&packet[start..], 0, packets).0, Ok(packets));
        }
    }
}

/// Any packet, block by block.
#[test]
fn random_packets() {
    let mut random = Random::new("runs random_packets");
    for _ in 0..blocks() / 4 {
        let packet = random_packet(&mut random);
        let (_, count) = independent::packet::read(&packet).expect("a good packet");
        for index in 0..=count {
            let room = random.one_of(&[0, 1, 20, 400, MOST]);
            let _ = rle_both(&packet, index, room);
        }
    }
}
