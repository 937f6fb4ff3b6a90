//! The library's comparison of two packets beside the independent one: every kind of
//! difference, every field, and what is left out.

mod support;

use std::{collections::BTreeSet, ops::Range};
use support::{
    differences::{lawful_entries, Entry},
    drawn_runs::rle_block,
    from_env,
    packets::{all_kinds, block, listed, packet, sourced, LISTED, P12},
    pairs::{good_pair, RESERVED},
    Random,
};

/// How many pairs a test draws; `NUVASKOE_PACKETS` overrides.
const PAIRS: usize = 20_000;

/// The bytes of each field of a block, "in layout order from 0, the flag first", which is the
/// top two bits of its byte.
const FLAG: Range<usize> = 1..2;
const LAYOUT: [(u8, &[Range<usize>]); 5] = [
    (14, &[4..8, 10..12, 12..16, 16..20, 20..24, 24..28, 28..32]),
    (17, &[FLAG, 4..8, 8..10, 10..12, 12..14, 14..16]),
    (18, &[FLAG, 4..8, 8..10, 10..12]),
    (240, &[4..8, 8..10]),
    (
        241,
        &[
            4..8,
            8..10,
            10..12,
            12..16,
            16..20,
            20..24,
            24..28,
            28..32,
            32..36,
            36..40,
            40..44,
            44..48,
        ],
    ),
];

/// What a field of a block reads.
fn reading(block: &[u8], bytes: &Range<usize>) -> u32 {
    let bytes = bytes.clone();
    let number = block[bytes.clone()]
        .iter()
        .fold(0, |number, byte| number << 8 | u32::from(*byte));
    match bytes == FLAG {
        true => number >> 6,
        false => number,
    }
}

/// The entries of two packets of one sender.
fn of_blocks(blocks: &[Vec<u8>], others: &[Vec<u8>]) -> Vec<Entry> {
    lawful_entries(&packet(1, blocks), &packet(1, others))
}

/// A block with the bits of a byte turned over.
fn turned(block: &[u8], place: usize, bits: u8) -> Vec<u8> {
    let mut block = block.to_vec();
    block[place] ^= bits;
    block
}

/// P12 beside P12 of another sender, source and index, and with one block more.
#[test]
fn example_p12() {
    let mut other = P12;
    other[7] = 9;
    other[15] = 3;
    other[17] = 0x49;
    let expected = [[0, 0, 0, 1, 9], [1, 0, 0, 2, 3], [1, 0, 1, 37_448, 37_449]];
    assert_eq!(lawful_entries(&P12, &other), expected);
    let more = packet(1, &[P12[8..].to_vec(), block(9, 0, &[])]);
    assert_eq!(lawful_entries(&P12, &more), [[4, 1, 0, 0, 0]]);
    assert_eq!(lawful_entries(&more, &P12), [[3, 1, 0, 0, 0]]);
}

/// Every bit of the sender.
#[test]
fn senders() {
    for sender in [0, 1, 0x0A0B_0C0D, u32::MAX] {
        for bit in 0..u32::BITS {
            let other = sender ^ 1 << bit;
            let found = lawful_entries(&packet(sender, &[]), &packet(other, &[]));
            assert_eq!(found, [[0, 0, 0, sender, other]]);
        }
    }
}

/// The entries of two blocks, the third of packets that measure the sources of both.
fn of_measured(one: &[u8], other: &[u8]) -> Vec<Entry> {
    let measured = [one, other].map(|some| listed(14, reading(some, &(4..8))));
    let blocks = |last: &[u8]| [&measured[..], &[last.to_vec()]].concat();
    of_blocks(&blocks(one), &blocks(other))
}

/// The entries that these fields of two blocks, the third of their packets, have by layout.
fn by_layout(fields: &[Range<usize>], one: &[u8], other: &[u8]) -> Vec<Entry> {
    let all = (0..)
        .zip(fields)
        .map(|(field, bytes)| [1, 2, field, reading(one, bytes), reading(other, bytes)]);
    all.filter(|[.., first, second]| first != second).collect()
}

/// Every bit of a typed block of every type: of a field, it gives that field's entry; a reserved
/// one gives none. The bit of the flag that leaves 0 gives the whole block.
#[test]
fn every_bit_of_a_typed_block() {
    for (block_type, fields) in LAYOUT {
        let one = listed(block_type, 5);
        for place in [1].into_iter().chain(4..one.len()) {
            for bit in 0..8 {
                let other = turned(&one, place, 1 << bit);
                let expected = match by_layout(fields, &one, &other)[..] {
                    [[1, 2, 0, 1, 0]] if fields[0] == FLAG => vec![[2, 2, 0, 0, 0]],
                    ref fields => fields.to_vec(),
                };
                let found = of_measured(&one, &other);
                assert_eq!(found, expected, "{block_type}, byte {place}, bit {bit}");
                let reserved = RESERVED.iter().find(|row| row.0 == block_type);
                let mut reserved = reserved.expect("a listed type").1.iter();
                let is_reserved = reserved.any(|(at, bits)| *at == place && bits >> bit & 1 == 1);
                assert_eq!(found.is_empty(), is_reserved);
            }
        }
    }
}

/// All fields of a block at once, "fields in layout order from 0, the flag first". The packets
/// that a 241 covers are no field.
#[test]
fn every_field_differs() {
    for (block_type, fields) in LAYOUT {
        let one = listed(block_type, 5);
        let mut other = one.clone();
        for (number, bytes) in (1..).zip(fields) {
            other[bytes.end - 1] ^= if *bytes == FLAG { 0x80 } else { number };
        }
        let expected = by_layout(fields, &one, &other);
        assert_eq!(expected.len(), fields.len());
        assert_eq!(of_measured(&one, &other), expected, "{block_type}");
    }
}

/// Rates and figures are compared as they stand: unavailable and over range are readings.
#[test]
fn readings_as_they_stand() {
    let loss = |rate: u16, mean: u16| {
        let mut loss = listed(17, 5);
        loss[8..10].copy_from_slice(&rate.to_be_bytes());
        loss[12..14].copy_from_slice(&mean.to_be_bytes());
        vec![listed(14, 5), loss]
    };
    let found = of_blocks(&loss(32_768, 65_534), &loss(65_535, 65_535));
    let expected = [[1, 1, 2, 32_768, 65_535], [1, 1, 4, 65_534, 65_535]];
    assert_eq!(found, expected);
}

/// "Reserved bits left out": all of them turned over, in the header and in all typed blocks.
#[test]
fn reserved_bits() {
    let mut other = all_kinds();
    let mut place = 8;
    for bytes in independent::packet::blocks(&all_kinds()) {
        let row = RESERVED.iter().find(|row| row.0 == bytes[0]);
        for (at, bits) in row.map_or(&[][..], |row| row.1) {
            other[place + at] ^= bits;
        }
        place += bytes.len();
    }
    assert_eq!(place, other.len());
    assert_eq!(lawful_entries(&all_kinds(), &other), Vec::<Entry>::new());
    for bits in 0..0x20 {
        other[0] = 0x80 | bits;
        assert_eq!(lawful_entries(&all_kinds(), &other), Vec::<Entry>::new());
    }
}

/// The type-specific byte of an unknown or dropped block has no reserved bits: "other bytes,
/// header included". So is a good type 1 compared, its bits past the end too.
#[test]
fn bytes_of_blocks_that_are_not_typed() {
    let mut bad_rate = listed(18, 5);
    bad_rate[8] = 0x90;
    let samples = [
        block(9, 0, &[]),
        block(9, 0x40, &[1, 2, 3, 4]),
        sourced(14, 6, 5),
        sourced(241, 12, 5),
        block(240, 0, &[]),
        turned(&listed(17, 5), 1, 0x40),
        bad_rate,
        listed(17, 5),
        listed(18, 5),
        rle_block(5, 7, 3, &[0xD000]),
        rle_block(5, 7, 30, &[0xFFFF]),
        block(1, 0, &[]),
    ];
    for sample in samples.map(|bytes| [bytes]) {
        assert_eq!(of_blocks(&sample, &sample), Vec::<Entry>::new());
        let [bytes] = &sample;
        for place in (0..bytes.len()).filter(|place| !matches!(place, 2 | 3)) {
            for bit in 0..8 {
                let other = [turned(bytes, place, 1 << bit)];
                assert_eq!(of_blocks(&sample, &other), [[2, 0, 0, 0, 0]]);
            }
        }
        // Another length, and so another header.
        let longer = [block(bytes[0], bytes[1], &[&bytes[4..], &[0; 4]].concat())];
        assert_eq!(of_blocks(&sample, &longer), [[2, 0, 0, 0, 0]]);
    }
}

/// Two types, whatever they come to, are one difference, also where all else is the same.
#[test]
fn another_type() {
    let types = [1, 14, 17, 18, 240, 241, 0, 9, 255];
    for (one, other) in types
        .iter()
        .flat_map(|one| types.map(|other| (*one, other)))
    {
        for words in [0, 2, 3, 7, 11] {
            let some = |block_type| match words {
                0 => block(block_type, 0x40, &[]),
                _ => sourced(block_type, words, 5),
            };
            let found = of_blocks(&[some(one), listed(14, 5)], &[some(other), listed(14, 5)]);
            let expected = (one != other).then_some([2, 0, 0, 0, 0]);
            assert_eq!(found, Vec::from_iter(expected), "{one}, {other}, {words}");
        }
    }
}

/// "Typed against dropped", for each reason.
#[test]
fn typed_in_one_packet_only() {
    for block_type in [17, 18] {
        let typed = listed(block_type, 5);
        let mut bad_rate = typed.clone();
        bad_rate[8..10].copy_from_slice(&32_769u16.to_be_bytes());
        let mut bad_size = typed.clone();
        bad_size[3] += 1;
        bad_size.extend([0; 4]);
        let unmeasured = listed(block_type, 6);
        for dropped in [bad_size, turned(&typed, 1, 0x40), bad_rate, unmeasured] {
            let found = of_blocks(&[typed.clone(), listed(14, 5)], &[dropped, listed(14, 5)]);
            assert_eq!(found, [[2, 0, 0, 0, 0]]);
        }
    }
    for (block_type, words) in LISTED {
        let dropped = sourced(block_type, words + 1, 5);
        let found = of_blocks(
            &[listed(block_type, 5), listed(14, 5)],
            &[dropped, listed(14, 5)],
        );
        assert_eq!(found, [[2, 0, 0, 0, 0]]);
    }
}

/// The same bytes, typed in one packet and unmeasured in the other: the block 14 is missing, of
/// another source, of another size, or there after all, in another place.
#[test]
fn measured_in_one_packet_only() {
    for block_type in [17, 18] {
        let (summary, measurement) = (listed(block_type, 5), listed(14, 5));
        let alone = [summary.clone()];
        let measured = [summary.clone(), measurement.clone()];
        let missing = of_blocks(&measured, &alone);
        assert_eq!(missing, [[2, 0, 0, 0, 0], [3, 1, 0, 0, 0]]);
        let another_source = of_blocks(&measured, &[summary.clone(), listed(14, 6)]);
        assert_eq!(another_source, [[2, 0, 0, 0, 0], [1, 1, 0, 5, 6]]);
        let another_size = of_blocks(&measured, &[summary.clone(), sourced(14, 6, 5)]);
        assert_eq!(another_size, [[2, 0, 0, 0, 0], [2, 1, 0, 0, 0]]);
        let filler = block(9, 0, &[]);
        let moved = of_blocks(
            &[measurement.clone(), filler.clone(), summary.clone()],
            &[filler.clone(), measurement.clone(), summary.clone()],
        );
        assert_eq!(moved, [[2, 0, 0, 0, 0], [2, 1, 0, 0, 0]]);
        // Unmeasured in both, and the same.
        let neither = of_blocks(&alone, &[summary.clone(), listed(14, 6)]);
        assert_eq!(neither, [[4, 1, 0, 0, 0]]);
    }
}

/// Each 17 and 18 is looked up in its own packet, by its own source.
#[test]
fn each_packet_measures_for_itself() {
    let five = [listed(18, 5), listed(14, 5)];
    let six = [listed(18, 6), listed(14, 6)];
    let both_typed = [[1, 0, 1, 5, 6], [1, 1, 0, 5, 6]];
    assert_eq!(of_blocks(&five, &six), both_typed);
    let crossed = [listed(18, 6), listed(14, 5)];
    assert_eq!(of_blocks(&five, &crossed), [[2, 0, 0, 0, 0]]);
    let other = [listed(18, 5), listed(14, 6)];
    let unmeasured_in_both = [[2, 0, 0, 0, 0], [1, 1, 0, 5, 6]];
    assert_eq!(of_blocks(&crossed, &other), unmeasured_in_both);
}

/// "Blocks paired by index": one block more in front moves all others.
#[test]
fn paired_by_index() {
    let blocks: Vec<_> = (1..6).map(|source| listed(240, source)).collect();
    let mut moved = blocks.clone();
    moved.insert(0, listed(240, 9));
    let mut expected: Vec<Entry> = vec![[1, 0, 0, 1, 9]];
    expected.extend((1..5).map(|index| [1, index, 0, index + 1, index]));
    expected.push([4, 5, 0, 0, 0]);
    assert_eq!(of_blocks(&blocks, &moved), expected);
    // Pairs of other sizes: what follows is still paired.
    let first = [block(9, 0, &[]), listed(240, 1)];
    let second = [listed(241, 5), listed(240, 2)];
    assert_eq!(
        of_blocks(&first, &second),
        [[2, 0, 0, 0, 0], [1, 1, 0, 1, 2]]
    );
}

/// All kinds of entry in one list: "the sender comes first, then blocks, then fields".
#[test]
fn the_order_of_entries() {
    let mut effective = listed(240, 7);
    effective[9] = 3;
    let first = packet(
        1,
        &[listed(14, 5), listed(17, 5), block(9, 0, &[]), effective],
    );
    let mut loss = turned(&listed(17, 5), 1, 0x80);
    loss[15] = 4;
    let others = [
        listed(14, 5),
        loss,
        block(8, 0, &[]),
        listed(240, 8),
        block(9, 0, &[]),
        block(9, 0, &[]),
    ];
    let expected = [
        [0, 0, 0, 1, 2],
        [1, 1, 0, 1, 3],
        [1, 1, 5, 0, 4],
        [2, 2, 0, 0, 0],
        [1, 3, 0, 7, 8],
        [1, 3, 1, 3, 0],
        [4, 4, 0, 0, 0],
        [4, 5, 0, 0, 0],
    ];
    assert_eq!(lawful_entries(&first, &packet(2, &others)), expected);
}

/// Packets that are alike meet every kind, and every field of every type.
#[test]
fn related_packets() {
    let mut random = Random::new("related_packets");
    let mut seen = BTreeSet::new();
    let pairs = from_env("NUVASKOE_PACKETS", PAIRS);
    for _ in 0..pairs {
        let (first, second) = good_pair(&mut random);
        let types: Vec<_> = independent::packet::blocks(&first)
            .map(|some| some[0])
            .collect();
        for [kind, index, field, ..] in lawful_entries(&first, &second) {
            let block_type = if kind == 1 { types[index as usize] } else { 0 };
            seen.insert((kind, block_type, field));
        }
    }
    let fields = LAYOUT.iter().flat_map(|(block_type, fields)| {
        (0..fields.len() as u32).map(move |field| (1, *block_type, field))
    });
    let whole = [0, 2, 3, 4].map(|kind| (kind, 0, 0));
    for kind in fields.chain(whole) {
        assert!(seen.contains(&kind) || pairs < PAIRS, "no {kind:?} drawn");
    }
}
