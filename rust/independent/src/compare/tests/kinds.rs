//! What differs, kind by kind, and the order of the entries.

use super::*;

#[test]
fn the_sender() {
    let empty = |sender| report(sender, &[]);
    assert_eq!(entries(&empty(1), &empty(1)), [[0; 5]; 0]);
    assert_eq!(
        entries(&empty(1), &empty(0xFEDC_BA98)),
        [[0, 0, 0, 1, 0xFEDC_BA98]]
    );
    let blocks = [sourced(240, 1), block(99, 0, &[2])];
    assert_eq!(
        entries(&report(3, &blocks), &report(4, &blocks)),
        [[0, 0, 0, 3, 4]]
    );
}

/// Field by field, the readings as they stand: of 17 and 18 the flag is field 0, and of 241
/// there is none for the packets covered.
#[test]
fn every_field_differs() {
    let measurement = block(14, 0, &[1, 2, 3, 4, 5, 6, 7]);
    let other = block(14, 0, &[11, 12, 13, 14, 15, 16, u32::MAX]);
    assert_eq!(
        of_blocks(&[measurement], &[other]),
        [
            [1, 0, 0, 1, 11],
            [1, 0, 1, 2, 12],
            [1, 0, 2, 3, 13],
            [1, 0, 3, 4, 14],
            [1, 0, 4, 5, 15],
            [1, 0, 5, 6, 16],
            [1, 0, 6, 7, u32::MAX],
        ]
    );
    let loss = block(17, 0x40, &[5, 0x0001_8000, 0x0003_FFFE]);
    let other = block(17, 0xC0, &[6, 0xFFFF_0002, 0xFFFF_0004]);
    assert_eq!(
        of_pair(&loss, &other),
        [
            [1, 0, 0, 1, 3],
            [1, 0, 1, 5, 6],
            [1, 0, 2, 1, 65_535],
            [1, 0, 3, 32_768, 2],
            [1, 0, 4, 3, 65_535],
            [1, 0, 5, 65_534, 4],
        ]
    );
    let discard = block(18, 0x80, &[5, 0x0001_0002]);
    let other = block(18, 0x40, &[6, 0x0003_0004]);
    assert_eq!(
        of_pair(&discard, &other),
        [
            [1, 0, 0, 2, 1],
            [1, 0, 1, 5, 6],
            [1, 0, 2, 1, 3],
            [1, 0, 3, 2, 4],
        ]
    );
    let effective = block(240, 0, &[1, 0xFFFF_0000]);
    let other = block(240, 0, &[2, 0x9248_0000]);
    assert_eq!(
        of_blocks(&[effective], &[other]),
        [[1, 0, 0, 1, 2], [1, 0, 1, 65_535, 37_448]]
    );
    let stream = block(241, 0, &[1, 0xFFFF_0002, 3, 4, 5, 6, 7, 8, 9, 10, 11]);
    let other = block(
        241,
        0,
        &[21, 0x0000_0003, 23, 24, 25, 26, 27, 28, 29, 30, 31],
    );
    let mut expected = vec![[1, 0, 0, 1, 21], [1, 0, 1, 65_535, 0], [1, 0, 2, 2, 3]];
    expected.extend((3..12).map(|field| [1, 0, field, field, field + 20]));
    assert_eq!(of_blocks(&[stream], &[other]), expected);
}

/// What turning over one bit of a typed block gives: an entry for the field it lies in, or none
/// for a reserved one. Without a 14 for the new source, a 17 or 18 is dropped.
#[test]
fn every_bit_of_a_typed_block() {
    const RESERVED: u32 = 99;
    // The field in which each half of the body lies.
    let layouts: [(u8, &[u32]); 5] = [
        (14, &[0, 0, RESERVED, 1, 2, 2, 3, 3, 4, 4, 5, 5, 6, 6]),
        (17, &[1, 1, 2, 3, 4, 5]),
        (18, &[1, 1, 2, 3]),
        (240, &[0, 0, 1, RESERVED]),
        (
            241,
            &[
                0, 0, 1, 2, 3, 3, 4, 4, 5, 5, 6, 6, 7, 7, 8, 8, 9, 9, 10, 10, 11, 11,
            ],
        ),
    ];
    for (block_type, layout) in layouts {
        let rated = matches!(block_type, 17 | 18);
        let mut block = sourced(block_type, 5);
        block[1] = 0xC0;
        for bit in 0..8 {
            let expected = match bit {
                6 | 7 if rated => vec![[1, 0, 0, 3, 3 ^ 1 << (bit - 6)]],
                _ => vec![],
            };
            assert_eq!(of_pair(&block, &turned(&block, 1, 1 << bit)), expected);
        }
        for offset in 4..block.len() {
            let field = layout[(offset - 4) / 2];
            for bit in 0..8 {
                let found = of_pair(&block, &turned(&block, offset, 1 << bit));
                if rated && offset < 8 {
                    assert_eq!(found, WHOLE_0, "{block_type} {offset} {bit}");
                } else if field == RESERVED {
                    assert!(found.is_empty(), "{block_type} {offset} {bit}");
                } else {
                    assert_eq!(found.len(), 1, "{block_type} {offset} {bit}");
                    assert_eq!(found[0][..3], [1, 0, field]);
                    assert!((found[0][3] ^ found[0][4]).is_power_of_two());
                }
            }
        }
    }
}

#[test]
fn reserved_bits_of_the_header() {
    let bytes = report(1, &[sourced(240, 2)]);
    for bits in 0..32 {
        assert!(entries(&bytes, &turned(&bytes, 0, bits)).is_empty());
    }
}

/// Reserved bits that differ beside a field that does: only the field has an entry.
#[test]
fn reserved_bits_beside_fields() {
    let measurement = block(14, 0, &[5, 0xFFFF_0001, 0, 0, 0, 0, 0]);
    let other = block(14, 0xFF, &[5, 0x0000_0002, 0, 0, 0, 0, 0]);
    assert_eq!(of_pair(&measurement, &other), [[1, 0, 1, 1, 2]]);
    let loss = block(17, 0x7F, &[5, 0, 1]);
    let other = block(17, 0x80, &[5, 0, 1]);
    assert_eq!(of_pair(&loss, &other), [[1, 0, 0, 1, 2]]);
    let effective = block(240, 0, &[5, 0x0001_FFFF]);
    let other = block(240, 0xFF, &[5, 0x0002_0000]);
    assert_eq!(of_pair(&effective, &other), [[1, 0, 1, 1, 2]]);
}

#[test]
fn another_type() {
    let mut blocks: Vec<_> = [14, 17, 18, 240, 241].map(|kind| sourced(kind, 5)).into();
    // Unknown ones, and one of type 1.
    blocks.extend([block(99, 0, &[5, 0]), block(1, 0, &[5, 0])]);
    blocks.extend([block(15, 0, &[]), block(16, 0x40, &[5])]);
    for (place, first) in blocks.iter().enumerate() {
        for (other_place, second) in blocks.iter().enumerate() {
            let found = of_pair(first, second);
            assert_eq!(found.is_empty(), place == other_place);
            assert!(place == other_place || found == WHOLE_0);
        }
    }
    // 18 and 240, unknown and unknown: all but the type is the same.
    assert_eq!(of_pair(&sourced(18, 5), &sourced(240, 5)), WHOLE_0);
    assert_eq!(of_pair(&block(2, 2, &[3]), &block(3, 2, &[3])), WHOLE_0);
}

/// A typed block and one of its type that is dropped, whatever the reason.
#[test]
fn typed_against_dropped() {
    for block_type in [14, 17, 18, 240, 241] {
        let typed = sourced(block_type, 5);
        for words in [0, 1, 6, 12] {
            assert_eq!(
                of_pair(&typed, &block(block_type, 0x40, &vec![5; words])),
                WHOLE_0
            );
        }
    }
    for block_type in [17, 18] {
        let typed = sourced(block_type, 5);
        assert_eq!(of_pair(&typed, &turned(&typed, 1, 0x40)), WHOLE_0);
        for offset in [8, 10] {
            let mut rate = typed.clone();
            rate[offset..offset + 2].copy_from_slice(&32_769_u16.to_be_bytes());
            assert_eq!(of_pair(&typed, &rate), WHOLE_0);
            rate[offset..offset + 2].copy_from_slice(&65_534_u16.to_be_bytes());
            assert_eq!(of_pair(&typed, &rate), WHOLE_0);
        }
        assert_eq!(of_pair(&typed, &sourced(block_type, 7)), WHOLE_0);
    }
}

/// The same bytes, typed in the packet that has their block 14 and dropped in the other.
#[test]
fn measured_in_one_packet_only() {
    for block_type in [17, 18] {
        let rated = sourced(block_type, 5);
        let with = |source| [rated.clone(), sourced(14, source), rated.clone()];
        assert_eq!(
            of_blocks(&with(5), &with(6)),
            [[2, 0, 0, 0, 0], [1, 1, 0, 5, 6], [2, 2, 0, 0, 0]]
        );
        let alone = std::slice::from_ref(&rated);
        assert_eq!(
            of_blocks(&with(5), alone),
            [[2, 0, 0, 0, 0], [3, 1, 0, 0, 0], [3, 2, 0, 0, 0]]
        );
        // A 14 of another length, and one more for another source.
        let mut sized = with(5);
        sized[1] = block(14, 0, &[5; 6]);
        assert_eq!(
            of_blocks(&with(5), &sized),
            [[2, 0, 0, 0, 0], [2, 1, 0, 0, 0], [2, 2, 0, 0, 0]]
        );
        let more = [with(5).concat(), sourced(14, 6)];
        assert_eq!(of_blocks(&with(5), &more), [[4, 3, 0, 0, 0]]);
        // Each measures the other's source.
        let others = [sourced(block_type, 6), sourced(14, 5)];
        assert_eq!(
            of_blocks(&[rated.clone(), sourced(14, 6)], &others),
            [[2, 0, 0, 0, 0], [1, 1, 0, 6, 5]]
        );
        // Each its own.
        let others = [sourced(block_type, 6), sourced(14, 6)];
        assert_eq!(
            of_blocks(&[rated.clone(), sourced(14, 5)], &others),
            [[1, 0, 1, 5, 6], [1, 1, 0, 5, 6]]
        );
    }
}

/// Dropped in both packets: no entry for the same bytes, and one for any other, reserved bits
/// included.
#[test]
fn dropped_in_both() {
    for block_type in [17, 18] {
        let typed = sourced(block_type, 5);
        let size = block(block_type, 0x40, &[5; 6]);
        let flag = turned(&typed, 1, 0x40);
        let rate = turned(&turned(&typed, 8, 0x80), 9, 0x01);
        let source = sourced(block_type, 7);
        let dropped = [size, flag, rate, source];
        for (place, first) in dropped.iter().enumerate() {
            for (other_place, second) in dropped.iter().enumerate() {
                let found = of_pair(first, second);
                assert_eq!(found.is_empty(), place == other_place);
                assert!(place == other_place || found == WHOLE_0);
            }
            assert_eq!(of_pair(first, &turned(first, 1, 0x01)), WHOLE_0);
            let last = first.len() - 1;
            assert_eq!(of_pair(first, &turned(first, last, 0x01)), WHOLE_0);
        }
    }
    for block_type in [14, 240, 241] {
        let size = block(block_type, 0, &[5; 5]);
        assert!(of_pair(&size, &size).is_empty());
        assert_eq!(of_pair(&size, &turned(&size, 1, 0x80)), WHOLE_0);
        assert_eq!(of_pair(&size, &turned(&size, 10, 0x01)), WHOLE_0);
        assert_eq!(of_pair(&size, &block(block_type, 0, &[5; 4])), WHOLE_0);
    }
}

#[test]
fn unknown_in_both() {
    for block_type in [0, 2, 13, 15, 16, 19, 239, 242, 255] {
        for words in [0, 1, 2, 3, 7, 11, 100] {
            let unknown = block(block_type, 9, &vec![0x0102_0304; words]);
            assert!(of_pair(&unknown, &unknown).is_empty());
            for offset in (1..2).chain(4..unknown.len()) {
                assert_eq!(of_pair(&unknown, &turned(&unknown, offset, 0x80)), WHOLE_0);
            }
            let longer = block(block_type, 9, &vec![0x0102_0304; words + 1]);
            assert_eq!(of_pair(&unknown, &longer), WHOLE_0);
        }
    }
}

/// Good or dropped, a type 1 has no fields: any other byte is a whole block that differs, also
/// where both are good and say the same.
#[test]
fn type_1_by_bytes() {
    let blocks = [
        block(1, 0, &[5, 0x0001_0004, 0x0001_4002]),
        // The same by a vector and a null, by other reserved bits, and with more nulls.
        block(1, 0, &[5, 0x0001_0004, 0xB000_0000]),
        block(1, 0x80, &[5, 0x0001_0004, 0x0001_4002]),
        block(1, 0, &[5, 0x0001_0004, 0x0001_4002, 0]),
        // Another source, and no packets.
        block(1, 0, &[6, 0x0001_0004, 0x0001_4002]),
        block(1, 0, &[5, 0x0001_0001]),
        // D1, D2 and D5.
        block(1, 0, &[5]),
        block(1, 0x01, &[5, 0x0001_0004, 0x0001_4002]),
        block(1, 0, &[5, 0x0001_0004, 0x0001_4001]),
    ];
    let listed = packet::list(&report(1, &blocks)).unwrap();
    let verdicts: Vec<u32> = listed.into_iter().map(|(_, verdict)| verdict).collect();
    assert_eq!(verdicts, [254, 254, 254, 254, 254, 254, 1, 2, 5]);
    for (place, first) in blocks.iter().enumerate() {
        for (other_place, second) in blocks.iter().enumerate() {
            let found = of_pair(first, second);
            assert_eq!(found.is_empty(), place == other_place);
            assert!(place == other_place || found == WHOLE_0);
        }
        for offset in (1..2).chain(4..first.len()) {
            assert_eq!(of_pair(first, &turned(first, offset, 0x80)), WHOLE_0);
        }
    }
}

#[test]
fn only_in_one_packet() {
    let blocks = [
        sourced(240, 1),
        sourced(17, 1),
        block(99, 0, &[]),
        block(14, 0, &[]),
    ];
    for kept in 0..=4_u32 {
        let expected: Vec<_> = (kept..4).map(|index| [3, index, 0, 0, 0]).collect();
        assert_eq!(of_blocks(&blocks, &blocks[..kept as usize]), expected);
    }
}

/// Blocks of one type at different indices have nothing to do with one another.
#[test]
fn pairs_by_index() {
    let (effective, other) = (sourced(240, 1), sourced(240, 2));
    let (measurement, stream) = (sourced(14, 3), sourced(241, 4));
    assert_eq!(
        of_blocks(
            &[effective.clone(), measurement.clone()],
            &[measurement.clone(), effective.clone()]
        ),
        [[2, 0, 0, 0, 0], [2, 1, 0, 0, 0]]
    );
    assert_eq!(
        of_blocks(
            &[effective.clone(), other.clone()],
            &[other.clone(), effective.clone()]
        ),
        [[1, 0, 0, 1, 2], [1, 1, 0, 2, 1]]
    );
    let blocks = [effective.clone(), measurement.clone(), stream.clone()];
    assert_eq!(
        of_blocks(&blocks, &[other, effective, measurement, stream]),
        [
            [1, 0, 0, 1, 2],
            [2, 1, 0, 0, 0],
            [2, 2, 0, 0, 0],
            [4, 3, 0, 0, 0]
        ]
    );
}

/// Every kind in one list: the sender, then block by block, in a block field by field.
#[test]
fn the_order_of_entries() {
    let first = report(
        9,
        &[
            block(17, 0x40, &[5, 1, 2]),
            block(99, 0, &[1]),
            block(240, 0, &[3, 0x0004_0000]),
            sourced(14, 5),
            block(18, 0x40, &[6, 0]),
            block(99, 0, &[1]),
        ],
    );
    let second = report(
        8,
        &[
            block(17, 0x80, &[5, 1, 3]),
            block(99, 1, &[1]),
            block(240, 0, &[4, 0x0003_0000]),
            sourced(14, 5),
            block(18, 0x40, &[5, 0]),
        ],
    );
    assert_eq!(
        entries(&first, &second),
        [
            [0, 0, 0, 9, 8],
            [1, 0, 0, 1, 2],
            [1, 0, 5, 2, 3],
            [2, 1, 0, 0, 0],
            [1, 2, 0, 3, 4],
            [1, 2, 1, 4, 3],
            [2, 4, 0, 0, 0],
            [3, 5, 0, 0, 0],
        ]
    );
}
