use super::*;
use crate::block::{Effective, LossRle};

const P12: [u8; 20] = [
    0x80, 0xCF, 0x00, 0x04, 0x00, 0x00, 0x00, 0x01, 0xF0, 0x00, 0x00, 0x02, 0x00, 0x00, 0x00, 0x02,
    0x92, 0x48, 0x00, 0x00,
];

/// A packet of sender 1 with these blocks and the lengths that fit.
fn packet(blocks: &[Vec<u8>]) -> Vec<u8> {
    let blocks = blocks.concat();
    let [high, low] = ((1 + blocks.len() / 4) as u16).to_be_bytes();
    [vec![0x80, 207, high, low, 0, 0, 0, 1], blocks].concat()
}

/// A block of `words` zero words after its first.
fn zeros(block_type: u8, specific: u8, words: u16) -> Vec<u8> {
    let [high, low] = words.to_be_bytes();
    let mut block = vec![block_type, specific, high, low];
    block.resize(4 + 4 * usize::from(words), 0);
    block
}

/// A well-sized block of flag 1 for `source`, otherwise zeros.
fn sourced(block_type: u8, source: u8) -> Vec<u8> {
    let words = block::words(block_type).unwrap() as u16;
    let mut block = zeros(block_type, 0x40, words);
    block[7] = source;
    block
}

fn with_rate(mut block: Vec<u8>, rate: u16) -> Vec<u8> {
    block[8..10].copy_from_slice(&rate.to_be_bytes());
    block
}

fn verdict(packet: &[u8], index: usize) -> u32 {
    block(packet, index).unwrap().1.verdict()
}

fn verdicts(packet: &[u8]) -> Vec<u32> {
    let listed = list(packet).unwrap();
    listed.into_iter().map(|(_, verdict)| verdict).collect()
}

/// Every call refuses alike.
fn refused_by_all(packet: &[u8], refusal: Refusal) {
    assert_eq!(judge(packet), Err(refusal));
    assert_eq!(read(packet), Err(refusal));
    assert_eq!(list(packet), Err(refusal));
    assert_eq!(sources(packet), Err(refusal));
    let mut out = [7; 8];
    assert_eq!(list_into(packet, &mut out), Err(refusal));
    assert_eq!(out, [7; 8]);
    for index in [0, 1, 2, 1_000, usize::MAX] {
        assert_eq!(block(packet, index), Err(refusal));
        assert!(body(packet, index).is_empty());
    }
}

#[test]
fn p12() {
    let loss = Block::Effective(Effective {
        source: 2,
        index: 37_448,
    });
    assert_eq!(read(&P12), Ok((1, 1)));
    assert_eq!(block(&P12, 0), Ok((240, Reading::Typed(loss))));
    assert_eq!(body(&P12, 0), &P12[12..]);
    assert_eq!(list(&P12), Ok(vec![(8, 0)]));
    let frame = Frame {
        block_type: 240,
        specific: 0,
        offset: 8,
        body: 12..20,
    };
    assert_eq!(judge(&P12).unwrap().blocks, [frame]);
    assert_eq!(block(&P12, 1), Err(Refusal::NO_SUCH_BLOCK));
    assert!(body(&P12, 1).is_empty());
}

#[test]
fn refusals_have_the_table_numbers_and_places() {
    let table = [
        (Refusal::PACKET_SHORT, 1),
        (Refusal::VERSION, 2),
        (Refusal::PACKET_TYPE, 3),
        (Refusal::PACKET_LENGTH, 4),
        (Refusal::PADDING, 5),
        (Refusal::NO_SUCH_BLOCK, 7),
        (Refusal::BUFFER_SHORT, 8),
    ];
    for (refusal, number) in table {
        assert_eq!(refusal, Refusal { number, place: 0 });
    }
    let past_end = Refusal::block_past_end(24);
    assert_eq!((past_end.number, past_end.place), (6, 24));
}

/// Faults put in from the last to the first: each hides those that come after it.
#[test]
fn refusals_in_order() {
    let mut bytes = packet(&[zeros(1, 0, 0), zeros(2, 0, 1)]);
    assert_eq!(block(&bytes, 2), Err(Refusal::NO_SUCH_BLOCK));
    bytes[15] = 2;
    refused_by_all(&bytes, Refusal::block_past_end(12));
    bytes[0] |= 0x20;
    refused_by_all(&bytes, Refusal::PADDING);
    bytes[3] += 1;
    refused_by_all(&bytes, Refusal::PACKET_LENGTH);
    bytes[1] = 206;
    refused_by_all(&bytes, Refusal::PACKET_TYPE);
    bytes[0] = 0x60;
    refused_by_all(&bytes, Refusal::VERSION);
    refused_by_all(&bytes[..7], Refusal::PACKET_SHORT);
}

#[test]
fn under_8_bytes() {
    for length in 0..8 {
        refused_by_all(&P12[..length], Refusal::PACKET_SHORT);
    }
}

#[test]
fn versions_and_types() {
    for version in [0, 1, 3] {
        let mut bytes = P12;
        bytes[0] = version << 6;
        refused_by_all(&bytes, Refusal::VERSION);
    }
    for packet_type in (0..=255).filter(|packet_type| *packet_type != 207) {
        let mut bytes = P12;
        bytes[1] = packet_type;
        refused_by_all(&bytes, Refusal::PACKET_TYPE);
    }
}

#[test]
fn lengths_that_do_not_fit() {
    for length in (8..40).filter(|length| *length != 20) {
        let mut bytes = P12.to_vec();
        bytes.resize(length, 0);
        refused_by_all(&bytes, Refusal::PACKET_LENGTH);
    }
    // 65,537 words: the length would be 65,536, whose 16 low bits are 0.
    let mut bytes = vec![0; 4 * 65_537];
    bytes[..2].copy_from_slice(&[0x80, 207]);
    refused_by_all(&bytes, Refusal::PACKET_LENGTH);
}

#[test]
fn reserved_bits_of_byte_0_are_ignored() {
    for bits in 0..32 {
        let mut bytes = P12;
        bytes[0] |= bits;
        assert_eq!(read(&bytes), Ok((1, 1)));
        assert_eq!(block(&bytes, 0), block(&P12, 0));
        bytes[0] |= 0x20;
        refused_by_all(&bytes, Refusal::PADDING);
    }
}

#[test]
fn no_blocks() {
    let empty = packet(&[]);
    assert_eq!(read(&empty), Ok((1, 0)));
    assert_eq!(list(&empty), Ok(vec![]));
    assert_eq!(list_into(&empty, &mut []), Ok(0));
    assert_eq!(block(&empty, 0), Err(Refusal::NO_SUCH_BLOCK));
    assert!(body(&empty, 0).is_empty());
}

/// A packet is refused for its last block whatever block is asked for.
#[test]
fn the_end_of_the_packet() {
    let good = packet(&[sourced(240, 1), zeros(99, 0, 3)]);
    assert_eq!(verdicts(&good), [0, 255]);
    assert_eq!(body(&good, 1), &good[24..36]);
    for words in [4u16, 5, 65_535] {
        let mut past = good.clone();
        past[22..24].copy_from_slice(&words.to_be_bytes());
        refused_by_all(&past, Refusal::block_past_end(20));
    }
    let mut past = packet(&[zeros(1, 0, 0)]);
    past[11] = 1;
    refused_by_all(&past, Refusal::block_past_end(8));
}

#[test]
fn the_largest_packet() {
    let largest = packet(&[zeros(1, 0, 65_533)]);
    assert_eq!(largest.len(), 262_144);
    assert_eq!(read(&largest), Ok((1, 1)));
    assert_eq!(body(&largest, 0).len(), 262_132);
    let mut past = largest;
    past[11] += 1;
    refused_by_all(&past, Refusal::block_past_end(8));
}

#[test]
fn indices_past_the_last_block() {
    let bytes = packet(&vec![zeros(2, 0, 0); 5]);
    for index in 0..5 {
        assert_eq!(block(&bytes, index), Ok((2, Reading::Unknown)));
    }
    for index in [5, 6, usize::MAX] {
        assert_eq!(block(&bytes, index), Err(Refusal::NO_SUCH_BLOCK));
        assert!(body(&bytes, index).is_empty());
    }
}

#[test]
fn a_measurement_before_or_after() {
    for block_type in [17, 18] {
        let (asked, measurement) = (sourced(block_type, 5), sourced(14, 5));
        let other = zeros(2, 0, 2);
        let after = packet(&[asked.clone(), other.clone(), measurement.clone()]);
        assert_eq!(verdicts(&after), [0, 255, 0]);
        let before = packet(&[measurement, other, asked]);
        assert_eq!(verdicts(&before), [0, 255, 0]);
    }
}

#[test]
fn no_measurement_is_d4() {
    for block_type in [17, 18] {
        let asked = sourced(block_type, 5);
        assert_eq!(verdicts(&packet(std::slice::from_ref(&asked))), [4]);
        let other_source = packet(&[sourced(14, 6), asked.clone(), sourced(14, 4)]);
        assert_eq!(verdicts(&other_source), [0, 4, 0]);
        for words in [1, 6, 8] {
            let mut sized = zeros(14, 0, words);
            sized[7] = 5;
            let wrong_size = packet(&[sized.clone(), asked.clone(), sized]);
            assert_eq!(verdicts(&wrong_size), [1, 4, 1]);
        }
        // Neither 17, 18, 240, 241 nor a type 1 stands in for block 14.
        let others = [17, 18, 240, 241].map(|block_type| sourced(block_type, 5));
        let mut blocks = others.to_vec();
        blocks.push(zeros(1, 0, 7));
        blocks[4][7] = 5;
        assert_eq!(verdicts(&packet(&blocks)), [4, 4, 0, 0, 254]);
    }
}

#[test]
fn d4_comes_last() {
    for block_type in [17, 18] {
        let good = sourced(block_type, 5);
        let mut flagless = with_rate(good.clone(), 32_769);
        flagless[1] = 0x3F;
        let blocks = [
            zeros(block_type, 0, 1),
            flagless,
            with_rate(good.clone(), 32_769),
            with_rate(good, 32_768),
        ];
        let mut bytes = packet(&blocks);
        assert_eq!(verdicts(&bytes), [1, 2, 3, 4]);
        bytes = packet(&[blocks.concat(), sourced(14, 5)]);
        assert_eq!(verdicts(&bytes), [1, 2, 3, 0, 0]);
    }
}

/// A good type 1, then D1, D2 and D5: a block 14 for its source changes nothing.
#[test]
fn type_1() {
    let mut blocks = [
        zeros(1, 0xF0, 2),
        zeros(1, 0, 0),
        zeros(1, 0, 1),
        zeros(1, 0x0F, 2),
        zeros(1, 0, 3),
    ];
    // The last has one packet and nulls alone.
    blocks[4][11] = 1;
    let bytes = packet(&blocks);
    assert_eq!(verdicts(&bytes), [254, 1, 1, 2, 5]);
    let rle = LossRle {
        source: 0,
        begin: 0,
        end: 0,
        lost: 0,
    };
    assert_eq!(block(&bytes, 0), Ok((1, Reading::Rle(rle))));
    assert_eq!(body(&bytes, 0), &bytes[12..20]);
    assert_eq!(body(&bytes, 4), &bytes[bytes.len() - 12..]);
    let measured = packet(&[blocks.concat(), sourced(14, 0)]);
    assert_eq!(verdicts(&measured), [254, 1, 1, 2, 5, 0]);
}

#[test]
fn all_ways_agree() {
    let kinds = [14, 17, 18, 240, 241];
    let mut blocks: Vec<_> = kinds.iter().map(|kind| sourced(*kind, 5)).collect();
    blocks.extend(kinds.iter().map(|kind| sourced(*kind, 6)));
    blocks.extend((0..9).map(|words| zeros(14 + words as u8, 0, words)));
    blocks.extend((0..4).map(|words| zeros(1, 0, words)));
    blocks.remove(5);
    let bytes = packet(&blocks);
    let (judged, listed) = (judge(&bytes).unwrap(), list(&bytes).unwrap());
    assert_eq!(read(&bytes), Ok((1, blocks.len())));
    assert_eq!(judged.blocks.len(), blocks.len());
    assert_eq!(listed.len(), blocks.len());
    assert!(super::blocks(&bytes).eq(&blocks));
    for (index, frame) in judged.blocks.iter().enumerate() {
        assert_eq!(listed[index], (frame.offset, verdict(&bytes, index)));
        assert_eq!(body(&bytes, index), &bytes[frame.body.clone()]);
        assert_eq!(frame.block_type, bytes[frame.offset]);
        assert_eq!(frame.specific, bytes[frame.offset + 1]);
    }
}

#[test]
fn sources_that_have_a_measurement() {
    let measured = [9, 3, 9, 200].map(|source| sourced(14, source));
    let others = [17, 18, 240, 241].map(|kind| sourced(kind, 5));
    let bytes = packet(&[measured.concat(), zeros(14, 0, 6), others.concat()]);
    assert_eq!(sources(&bytes), Ok(vec![3, 9, 200]));
    assert_eq!(sources(&packet(&others)), Ok(vec![]));
    assert_eq!(super::blocks(&packet(&[])).count(), 0);
}

#[test]
fn a_list_needs_two_numbers_a_block() {
    let bytes = packet(&[sourced(17, 5), zeros(2, 0, 0)]);
    for length in 0..=6 {
        let mut out = vec![7; length];
        let answer = list_into(&bytes, &mut out);
        if length < 4 {
            assert_eq!(answer, Err(Refusal::BUFFER_SHORT));
            assert_eq!(out, vec![7; length]);
        } else {
            assert_eq!(answer, Ok(4));
            assert_eq!(out[..4], [8, 4, 24, 255]);
            assert_eq!(out[4..], vec![7; length - 4]);
        }
    }
}
