//! Packets at the limits of lengths, counts and buffers, with both implementations.

mod support;

use support::{
    compare::{block_both, compare, list_both, refused, verdicts},
    packets::{
        all_kinds, block, fit_length, listed, measured_late, packet, random_packet, LONGEST, P12,
    },
    Random,
};

/// What a packet's faults come to: the first refusal that applies.
fn first_fault(faults: &[(bool, u32)]) -> Option<u32> {
    let first = faults.iter().find(|(fault, _)| *fault);
    first.map(|(_, number)| *number)
}

/// Every length up to 40 bytes of packets that are good but for it, with the length field
/// as it was and with one that fits whole words.
#[test]
fn short_lengths() {
    let empty = packet(1, &[]);
    let bodies = packet(1, &[block(1, 0, &[0; 4]), listed(240, 2), listed(18, 2)]);
    for good in [&empty[..], &P12, &bodies, &all_kinds()[..]] {
        let whole = good.len();
        for length in 0..=40 {
            let mut bytes = good.to_vec();
            bytes.resize(length, 0);
            match length {
                0..=7 => refused(&bytes, 1, 0),
                _ if length != whole => refused(&bytes, 4, 0),
                _ => assert!(compare(&bytes).is_ok()),
            }
            fit_length(&mut bytes);
            let faults = [(length < 8, 1), (length % 4 != 0, 4)];
            match (first_fault(&faults), compare(&bytes)) {
                (Some(number), answer) => assert_eq!(answer, Err((number, 0))),
                // A block may be cut, but nothing else is wrong.
                (None, Err((number, _))) => assert!(number == 6 && length < whole),
                (None, Ok(_)) => {}
            }
        }
    }
}

/// Every length field, with few bytes.
#[test]
fn every_length_field() {
    for words in 0..=u16::MAX {
        let mut bytes = P12;
        bytes[2..4].copy_from_slice(&words.to_be_bytes());
        match words {
            4 => assert_eq!(compare(&bytes), Ok((1, 1))),
            _ => refused(&bytes, 4, 0),
        }
    }
}

/// Whether a set of faults holds refusal `number`.
fn has(set: u32, number: u32) -> bool {
    set >> (number - 1) & 1 == 1
}

/// A packet of two blocks with a set of the faults 3 to 6.
fn faulty(set: u32) -> Vec<u8> {
    let mut bytes = packet(1, &[listed(240, 2), block(1, 0, &[0; 4])]);
    if has(set, 3) {
        bytes[1] = 206;
    }
    if has(set, 4) {
        bytes[3] ^= 1;
    }
    if has(set, 5) {
        bytes[0] |= 0x20;
    }
    if has(set, 6) {
        bytes[23] = 2;
    }
    bytes
}

/// All sets of the faults 1 to 6: the first is the answer, for every index.
#[test]
fn header_faults_in_all_combinations() {
    for set in 0..1 << 6 {
        let mut bytes = faulty(set);
        let versions: &[u8] = if has(set, 2) { &[0, 1, 3] } else { &[2] };
        let lengths = if has(set, 1) { 0..=7 } else { 28..=28 };
        for version in versions {
            bytes[0] = bytes[0] & 0x3F | version << 6;
            for length in lengths.clone() {
                match (1..=6).find(|number| has(set, *number)) {
                    Some(6) => refused(&bytes[..length], 6, 20),
                    Some(number) => refused(&bytes[..length], number, 0),
                    None => assert_eq!(compare(&bytes[..length]), Ok((1, 2))),
                }
            }
        }
    }
}

/// Every first and second byte.
#[test]
fn every_header() {
    for first in 0..=u8::MAX {
        for second in 0..=u8::MAX {
            let mut bytes = P12;
            bytes[..2].copy_from_slice(&[first, second]);
            let faults = [
                (first >> 6 != 2, 2),
                (second != 207, 3),
                (first & 0x20 != 0, 5),
            ];
            match first_fault(&faults) {
                Some(number) => assert_eq!(compare(&bytes), Err((number, 0))),
                None => assert_eq!(compare(&bytes), Ok((1, 1))),
            }
        }
    }
}

/// One block that fills the packet, or is a word too long for it.
#[test]
fn one_block_of_every_length() {
    for words in 0..100u16 {
        for block_type in [1, 14, 17, 18, 240, 241] {
            let body = vec![0x40; 4 * usize::from(words)];
            let mut bytes = packet(1, &[block(block_type, 0x40, &body)]);
            assert_eq!(compare(&bytes), Ok((1, 1)));
            bytes[10..12].copy_from_slice(&(words + 1).to_be_bytes());
            refused(&bytes, 6, 8);
        }
    }
}

#[test]
fn the_longest_packet() {
    let words = (LONGEST - 12) / 4;
    let mut one = packet(7, &[block(1, 0, &vec![0; 4 * words])]);
    assert_eq!(one.len(), LONGEST);
    assert_eq!(&one[2..4], [0xFF, 0xFF]);
    assert_eq!(compare(&one), Ok((7, 1)));
    for past in words as u16 + 1..=u16::MAX {
        one[10..12].copy_from_slice(&past.to_be_bytes());
        refused(&one, 6, 8);
    }
    let mut empty_blocks = one.clone();
    empty_blocks[8..].fill(0);
    let count = (LONGEST - 8) / 4;
    assert_eq!(compare(&empty_blocks), Ok((7, count)));
    assert_eq!(block_both(&empty_blocks, count), Err((7, 0)));
    // The last block is the one that runs past.
    empty_blocks[LONGEST - 1] = 1;
    refused(&empty_blocks, 6, LONGEST - 4);
}

/// No length field fits a longer packet: its words less one would need 17 bits.
#[test]
fn longer_than_the_longest() {
    let mut longer = packet(7, &[]);
    for length in [LONGEST + 1, LONGEST + 4, LONGEST + 8, 2 * LONGEST] {
        longer.resize(length, 0);
        for field in [0u16, 1, 65_534, 65_535] {
            longer[2..4].copy_from_slice(&field.to_be_bytes());
            refused(&longer, 4, 0);
        }
        fit_length(&mut longer);
        refused(&longer, 4, 0);
    }
}

/// The longest packets of blocks 17 and 18: measured at the very end, or not at all.
#[test]
fn the_longest_packets_of_bursts() {
    for block_type in [17, 18] {
        let one = listed(block_type, 5);
        let room = LONGEST - 8 - 32;
        let count = room / one.len();
        let mut blocks = vec![one; count];
        blocks.extend(vec![block(1, 0, &[]); (room - count * blocks[0].len()) / 4]);
        for (source, verdict) in [(5, 0), (6, 4)] {
            blocks.push(listed(14, source));
            let bytes = packet(1, &blocks);
            assert_eq!(bytes.len(), LONGEST);
            let verdicts = verdicts(&bytes);
            assert!(verdicts[..count].iter().all(|seen| *seen == verdict));
            blocks.pop();
        }
    }
}

/// Many sources, each measured or not.
#[test]
fn many_sources() {
    let mut random = Random::new("many_sources");
    let mut blocks = Vec::new();
    for source in 0..2_000 {
        let measured = random.below(2) == 0;
        blocks.push(listed(random.one_of(&[17, 18]), source));
        if measured {
            blocks.push(listed(14, source));
        }
    }
    for last in (1..blocks.len()).rev() {
        blocks.swap(last, random.below(last + 1));
    }
    let verdicts = verdicts(&packet(1, &blocks));
    assert!(verdicts.contains(&0) && verdicts.contains(&4));
}

#[test]
fn thousands_of_empty_blocks() {
    for count in [1_000, 4_095, 4_096, 16_382, 16_383, 16_384, 30_000] {
        for block_type in [0, 14, 17, 255] {
            let blocks = vec![block(block_type, 0, &[]); count];
            let bytes = packet(1, &blocks);
            assert_eq!(compare(&bytes), Ok((1, count)));
        }
    }
}

/// Every buffer up to three entries longer than the list.
#[test]
fn lists_into_every_length() {
    let mut random = Random::new("lists_into_every_length");
    let mut packets = vec![packet(1, &[]), P12.to_vec(), all_kinds(), measured_late()];
    packets.extend((0..500).map(|_| random_packet(&mut random)));
    packets.push(packet(1, &vec![block(1, 0, &[]); 300]));
    for bytes in packets {
        let (_, count) = compare(&bytes).expect("a good packet");
        for length in 0..=2 * count + 3 {
            let (answer, _) = list_both(&bytes, length);
            match length < 2 * count {
                true => assert_eq!(answer, Err((8, 0))),
                false => assert_eq!(answer, Ok(2 * count)),
            }
        }
    }
}

/// A packet's own refusal comes before 8.
#[test]
fn lists_of_refused_packets() {
    let mut past = packet(1, &[listed(240, 2), block(1, 0, &[0; 4])]);
    past[23] = 2;
    for length in 0..=7 {
        assert_eq!(list_both(&past, length).0, Err((6, 20)));
        assert_eq!(list_both(&P12[..19], length).0, Err((4, 0)));
        assert_eq!(list_both(&[], length).0, Err((1, 0)));
    }
}
