//! What chunks say, why a block of type 1 is dropped, and the refusals of reading one out.

use super::*;

/// The trace of these digits, by each call.
fn says(packets: usize, chunks: &[u16], digits: &str) {
    let expected = Some(trace(digits));
    assert_eq!(said(100, packets, chunks), expected, "{chunks:X?}");
}

/// Dropped as D5, by each call.
fn bad(packets: usize, chunks: &[u16]) {
    assert_eq!(said(100, packets, chunks), None, "{packets} {chunks:X?}");
}

#[test]
fn runs() {
    says(3, &[0x0003], "111");
    says(3, &[0x4003], "000");
    says(5, &[0x0002, 0x4003], "11000");
    says(6, &[0x4001, 0x0001, 0x4003, 0x0001], "010001");
    let longest = said(0, 16_383, &[0x3FFF]).unwrap();
    assert_eq!(longest, vec![1; 16_383]);
    let longest = said(0, 65_533, &[0x7FFF, 0x3FFF, 0x7FFF, 0x3FFF, 0x4001]);
    assert_eq!(losses(&longest.unwrap()), 32_766);
}

#[test]
fn vectors() {
    says(15, &[0x8000], "111111111111111");
    says(15, &[0xFFFF], "000000000000000");
    // From left to right.
    says(15, &[0xC000], "011111111111111");
    says(15, &[0x8001], "111111111111110");
    says(15, &[0x8080], "111111101111111");
    says(15, &[0xAAAA], "101010101010101");
    says(30, &[0xFFFE, 0xBFFF], "000000000000001100000000000000");
    for packet in 0..15 {
        let mut expected = vec![0; 15];
        expected[packet] = 1;
        let chunk = 0xFFFF ^ 0x4000 >> packet;
        assert_eq!(said(7, 15, &[chunk]), Some(expected));
    }
}

#[test]
fn runs_and_vectors() {
    says(19, &[0x0002, 0xFFFE, 0x4002], "1100000000000000100");
    says(18, &[0x4002, 0x9FFF, 0x0001], "001100000000000001");
}

/// Four vectors, which are counted together, with another chunk before, between or after them.
#[test]
fn a_run_among_vectors() {
    for place in 0..12 {
        for run in [0x0001, 0x0020, 0x4000, 0x4001, 0x4007] {
            let mut chunks = vec![0xD5A3; 11];
            chunks.insert(place, run);
            let packets = 11 * 15 + usize::from(run & 0x3FFF);
            for packets in packets - 40..=packets {
                // Bad where whole vectors follow the end.
                let expected = plain(&chunks, packets);
                assert_eq!(said(65_500, packets, &chunks), expected);
            }
            assert_eq!(said(65_500, packets + 1, &chunks), None);
        }
        let mut chunks = vec![0xD5A3; 11];
        chunks.insert(place, 0);
        let expected = plain(&chunks, 11 * 15);
        // Before a vector, a null is before the end.
        assert_eq!(expected.is_some(), place == 11);
        assert_eq!(said(65_500, 11 * 15, &chunks), expected);
    }
}

#[test]
fn a_run_past_the_end() {
    says(3, &[0x0004], "111");
    says(3, &[0x4004], "000");
    says(3, &[0x3FFF], "111");
    says(4, &[0x4001, 0x3FFF], "0111");
    says(4, &[0x0001, 0x7FFF, 0, 0], "1000");
    says(17, &[0xFFFF, 0x3FFF], "00000000000000011");
    let whole = said(1, 65_533, &[0x3FFF; 5]);
    assert_eq!(whole, Some(vec![1; 65_533]));
}

/// Bits past the end are ignored, whatever they are.
#[test]
fn the_last_vector() {
    for packets in 1..=15 {
        for used in [0, 0x7FFF, 0x2AAA, 0x5555, 0x1234] {
            let kept = 0x7FFF << (15 - packets) & 0x7FFF;
            let expected: Vec<u8> = (0..packets)
                .map(|packet| 1 - (used >> (14 - packet) & 1) as u8)
                .collect();
            for unused in [0, 0x7FFF, 0x2AAA, 0x5555] {
                let chunk = 0x8000 | used & kept | unused & !kept;
                assert_eq!(said(9, packets, &[chunk]), Some(expected.clone()));
            }
        }
    }
    says(17, &[0xFFFF, 0xBFFF], "00000000000000010");
    says(2, &[0xDFFF, 0, 0, 0], "01");
}

/// Alone, for a few packets: every chunk.
#[test]
fn every_chunk() {
    for chunk in 0..=u16::MAX {
        for packets in [0, 1, 8, 15, 16] {
            let said = plain(&[chunk], packets).map(|trace| losses(&trace));
            assert_eq!(count(&chunk.to_be_bytes(), packets), said, "{chunk:X}");
        }
    }
}

/// "Fine before the end, D5 after it."
#[test]
fn a_run_of_ones_of_length_0() {
    says(3, &[0x4000, 0x0003], "111");
    says(3, &[0x0001, 0x4000, 0x4000, 0x0002], "111");
    says(15, &[0x4000, 0xFFFF], "000000000000000");
    bad(3, &[0x0003, 0x4000]);
    bad(3, &[0x0003, 0, 0x4000, 0]);
    bad(0, &[0x4000]);
    bad(3, &[0x4000, 0x4000]);
}

#[test]
fn no_packets() {
    says(0, &[], "");
    says(0, &[0], "");
    says(0, &[0, 0, 0, 0], "");
    for chunk in [0x0001, 0x4000, 0x4001, 0x8000, 0xFFFF] {
        bad(0, &[chunk]);
        bad(0, &[0, chunk]);
    }
}

#[test]
fn nulls_after_the_end() {
    for nulls in [1, 2, 3, 100, 1_001] {
        let after = |chunk: u16| [vec![chunk], vec![0; nulls]].concat();
        says(2, &after(0x0002), "11");
        says(2, &after(0x4009), "00");
        says(2, &after(0xDFFF), "01");
        for chunk in [0x0001, 0x4000, 0x4001, 0x8000, 0x0100] {
            bad(2, &[after(0x0002), vec![chunk]].concat());
        }
    }
}

#[test]
fn a_null_before_the_end() {
    bad(1, &[0]);
    bad(1, &[0, 0x0001]);
    bad(3, &[0x0002, 0, 0x0001]);
    bad(16, &[0xFFFF, 0, 0xFFFF]);
    bad(75, &[0xFFFF, 0xFFFF, 0xFFFF, 0xFFFF, 0, 0xFFFF]);
    bad(65_533, &[0x7FFF, 0x7FFF, 0x7FFF, 0x7FFF, 0]);
}

#[test]
fn chunks_that_cover_too_little() {
    bad(1, &[]);
    bad(4, &[0x0001, 0x0002]);
    bad(4, &[0x4003]);
    bad(16, &[0x8000]);
    bad(61, &[0xFFFF; 4]);
    bad(121, &[0xFFFF; 8]);
    bad(65_533, &[0x7FFF, 0x7FFF, 0x7FFF, 0x7FFF]);
    bad(65_533, &[0xFFFF; 4_368]);
}

#[test]
fn a_chunk_after_the_end() {
    bad(3, &[0x0003, 0x0001]);
    bad(3, &[0x0004, 0x4001]);
    bad(15, &[0xFFFF, 0x8000]);
    bad(14, &[0xFFFF, 0xFFFF]);
    bad(60, &[0xFFFF; 5]);
    bad(45, &[0xFFFF; 4]);
    bad(2, &[0x4002, 0, 0x0100, 0]);
}

#[test]
fn an_interval_over_65_533() {
    let chunks = [0x3FFF; 5];
    assert!(said(0, 65_533, &chunks).is_some());
    assert!(said(40_000, 65_533, &chunks).is_some());
    // By themselves such chunks are good.
    for packets in [65_534, 65_535] {
        assert_eq!(count(&bytes(&chunks), packets), Some(packets));
        assert_eq!(said(0, packets, &chunks), None);
        assert_eq!(said(3, packets, &chunks), None);
    }
    assert_eq!(count(&bytes(&chunks), 5 * 16_383), Some(81_915));
    assert_eq!(count(&bytes(&chunks), 5 * 16_383 + 1), None);
    assert_eq!(count(&bytes(&chunks), usize::MAX), None);
}

/// The interval is the same wherever it begins.
#[test]
fn sequence_numbers_wrap() {
    for begin in [0, 1, 32_767, 65_533, 65_534, 65_535] {
        assert_eq!(said(begin, 3, &[0xDFFF]), Some(trace("010")));
        assert_eq!(said(begin, 0, &[]), Some(vec![]));
        let rle = LossRle {
            source: 0,
            begin,
            end: begin.wrapping_add(3),
            lost: 1,
        };
        assert_eq!(rle.packets(), 3);
    }
    let rle = |begin, end| block::read(1, 0, &body(5, begin, end, &[0x0002, 0x4001]));
    assert_eq!(rle(2, 65_535), Reading::Dropped(Reason::D5));
    let good = LossRle {
        source: 5,
        begin: 65_535,
        end: 2,
        lost: 2,
    };
    assert_eq!(rle(65_535, 2), Reading::Rle(good));
}

#[test]
fn a_lone_last_byte_is_no_chunk() {
    for last in [0, 1, 0xFF] {
        assert_eq!(count(&[last], 0), Some(0));
        assert_eq!(count(&[last], 1), None);
        assert_eq!(count(&[0x00, 0x02, last], 2), Some(2));
        assert_eq!(count(&[0x00, 0x02, last], 3), None);
    }
}

#[test]
fn thinning() {
    let good = body(5, 1, 3, &[0x0001, 0x4001]);
    let rle = LossRle {
        source: 5,
        begin: 1,
        end: 3,
        lost: 1,
    };
    for specific in 0..=255 {
        let packet = packet(&[block(1, specific, &good)]);
        // The high four bits are reserved.
        let expected = if specific & 0x0F == 0 {
            reads_out(&packet, 0, &[1, 0]);
            Reading::Rle(rle)
        } else {
            refused(&packet, 0, Refusal::NO_SUCH_BLOCK);
            Reading::Dropped(Reason::D2)
        };
        assert_eq!(block::read(1, specific, &good), expected);
        assert_eq!(packet::block(&packet, 0), Ok((1, expected)));
    }
}

/// D1 by size, then D2, then D5 for two packets that nothing covers.
#[test]
fn reasons_in_order() {
    for length in 0..=40 {
        let verdict = |specific, packets: u16| {
            let body = body(5, 1, 1 + packets, &[0; 16]);
            block::read(1, specific, &body[..length]).verdict()
        };
        let verdicts = [verdict(1, 2), verdict(1, 0), verdict(0, 2), verdict(0, 0)];
        let whole_words = [8, 12, 16, 20, 24, 28, 32, 36, 40].contains(&length);
        let expected = if whole_words { [2, 2, 5, 254] } else { [1; 4] };
        assert_eq!(verdicts, expected, "{length} bytes");
    }
}

#[test]
fn by_index() {
    let traces = ["", "0", "1", "1101", "0000000000000001"];
    let chunks: [&[u16]; 5] = [
        &[],
        &[0xFFFF, 0],
        &[0x8000, 0],
        &[0x9000, 0],
        &[0xFFFF, 0x0001],
    ];
    let mut blocks = vec![block(99, 0, &[0; 8])];
    for (digits, chunks) in traces.iter().zip(chunks) {
        let end = digits.len() as u16;
        blocks.push(block(1, 0, &body(5, 0, end, chunks)));
    }
    let packet = packet(&blocks);
    for (index, digits) in traces.iter().enumerate() {
        reads_out(&packet, index + 1, &trace(digits));
    }
    for index in [0, 6, 7, usize::MAX] {
        refused(&packet, index, Refusal::NO_SUCH_BLOCK);
    }
}

/// A block that reads as anything else is no block to read out.
#[test]
fn other_answers_are_7() {
    let measurement = block(14, 0, &[0; 28]);
    let blocks = [
        measurement,
        block(17, 0x40, &[0; 12]),
        block(17, 0, &[0; 12]),
        block(240, 0, &[0; 8]),
        block(2, 0, &[0; 8]),
        // D1, D2 and D5.
        block(1, 0, &[]),
        block(1, 0, &[0; 4]),
        block(1, 1, &[0; 8]),
        block(1, 0, &body(5, 0, 1, &[])),
        block(1, 0, &body(5, 1, 0, &[0x3FFF; 6])),
    ];
    let packet = packet(&blocks);
    let verdicts = [0, 0, 2, 0, 255, 1, 1, 2, 5, 5];
    for (index, verdict) in verdicts.into_iter().enumerate() {
        let reading = packet::block(&packet, index).unwrap().1;
        assert_eq!(reading.verdict(), verdict);
        refused(&packet, index, Refusal::NO_SUCH_BLOCK);
    }
}

/// Faults put in from the last to the first: each hides those that come after it.
#[test]
fn refusals_in_order() {
    let good = block(1, 0, &body(5, 0, 200, &[0x00C8, 0]));
    let mut bytes = packet(&[good, block(2, 0, &[0; 4])]);
    reads_out(&bytes, 0, &[1; 200]);
    for length in [0, 199] {
        let unchanged = (Err(Refusal::BUFFER_SHORT), vec![0xA5; length]);
        assert_eq!(lent(&bytes, 0, length), unchanged);
    }
    bytes[9] = 1;
    refused(&bytes, 0, Refusal::NO_SUCH_BLOCK);
    bytes[27] = 2;
    refused(&bytes, 0, Refusal::block_past_end(24));
    bytes[0] |= 0x20;
    refused(&bytes, 0, Refusal::PADDING);
    bytes[3] += 1;
    refused(&bytes, 0, Refusal::PACKET_LENGTH);
    bytes[1] = 206;
    refused(&bytes, 0, Refusal::PACKET_TYPE);
    bytes[0] = 0x60;
    refused(&bytes, 0, Refusal::VERSION);
    refused(&bytes[..7], 0, Refusal::PACKET_SHORT);
}

/// The largest block: more nulls than packets, and runs of one packet each.
#[test]
fn the_largest_block() {
    let chunks = [vec![0x0001; 65_533], vec![0; 65_529]].concat();
    let packet = packet(&[block(1, 0, &body(5, 7, 4, &chunks))]);
    assert_eq!(packet.len(), 262_144);
    reads_out(&packet, 0, &[1; 65_533]);
    let longest = [&packet[8..], &[0; 4][..]].concat();
    // By itself a body may be longer than a packet holds.
    let read = block::read(1, 0, &longest[4..]);
    assert_eq!(read.verdict(), 254);
}
