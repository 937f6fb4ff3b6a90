use super::*;
use crate::block::{Discard, Effective, Loss, Measurement, Reading, Reason, TransportStream};

const P12: [u8; 20] = [
    0x80, 0xCF, 0x00, 0x04, 0x00, 0x00, 0x00, 0x01, 0xF0, 0x00, 0x00, 0x02, 0x00, 0x00, 0x00, 0x02,
    0x92, 0x48, 0x00, 0x00,
];

const LOSS: Loss = Loss {
    flag: 2,
    source: 5,
    burst_rate: 26_214,
    gap_rate: 5_461,
    mean: 65_534,
    variance: 65_535,
};
const DISCARD: Discard = Discard {
    flag: 3,
    source: 5,
    burst_rate: 65_535,
    gap_rate: 32_768,
};
const MEASUREMENT: Block = Block::Measurement(Measurement {
    source: 5,
    first: 0x0708,
    extended_first: 0x090A_0B0C,
    extended_last: 0x0D0E_0F10,
    interval: 0x1112_1314,
    seconds: 0x1516_1718,
    fraction: 0x191A_1B1C,
});
const EFFECTIVE: Block = effective(37_448);

/// Every kind, the measurement last.
fn kinds() -> [Block; 5] {
    let stream = TransportStream {
        source: 5,
        begin: 65_535,
        end: 2,
        streams: 0x090A_0B0C,
        counts: [1, 2, 3, 4, 5, 6, 7, u32::MAX],
    };
    [
        Block::Loss(LOSS),
        Block::Discard(DISCARD),
        EFFECTIVE,
        Block::TransportStream(stream),
        MEASUREMENT,
    ]
}

const fn effective(index: u16) -> Block {
    Block::Effective(Effective { source: 2, index })
}

/// A buffer of `length` bytes 0xA5, with a packet of `words` words of one unknown block
/// after its header at the front.
fn holding(words: u16, length: usize) -> Vec<u8> {
    let mut buffer = vec![0xA5; length];
    new_packet(1, &mut buffer).unwrap();
    buffer[2..4].copy_from_slice(&(1 + words).to_be_bytes());
    if words > 0 {
        buffer[8..10].copy_from_slice(&[2, 0]);
        buffer[10..12].copy_from_slice(&(words - 1).to_be_bytes());
    }
    buffer
}

/// A refused call changes no byte.
fn refused(buffer: &[u8], block: &Block, refusal: Refusal) {
    let mut after = buffer.to_vec();
    assert_eq!(add(&mut after, block), Err(refusal));
    assert!(after == buffer);
}

#[test]
fn refusals_have_the_table_numbers_and_place_0() {
    for (refusal, number) in [(Refusal::BLOCK_TO_WRITE, 16), (Refusal::PACKET_FULL, 17)] {
        assert_eq!(refusal, Refusal { number, place: 0 });
    }
}

#[test]
fn a_new_packet_is_eight_bytes() {
    for length in 0..20 {
        let mut buffer = vec![0xA5; length];
        let answer = new_packet(0x0102_0304, &mut buffer);
        if length < 8 {
            assert_eq!(answer, Err(Refusal::BUFFER_SHORT));
            assert_eq!(buffer, vec![0xA5; length]);
        } else {
            assert_eq!(answer, Ok(8));
            assert_eq!(buffer[..8], [0x80, 207, 0, 1, 1, 2, 3, 4]);
            assert_eq!(buffer[8..], vec![0xA5; length - 8]);
            assert_eq!(packet::read(&buffer[..8]), Ok((0x0102_0304, 0)));
        }
    }
}

#[test]
fn p12_written() {
    for length in 20..30 {
        let mut buffer = vec![0xA5; length];
        assert_eq!(new_packet(1, &mut buffer), Ok(8));
        assert_eq!(add(&mut buffer, &EFFECTIVE), Ok(20));
        assert_eq!(buffer[..20], P12);
        assert_eq!(buffer[20..], vec![0xA5; length - 20]);
    }
}

#[test]
fn every_kind_reads_back() {
    for block in kinds() {
        let (block_type, specific, body) = encode(&block);
        assert_eq!(Some(body.len() / 4), block::words(block_type));
        assert_eq!(write_body(&block), body);
        let reading = block::read(block_type, specific, &body);
        assert_eq!(reading, Reading::Typed(block));
        let mut buffer = holding(0, 80);
        let size = add(&mut buffer, &block).unwrap();
        assert_eq!(size, 12 + body.len());
        let packet = &buffer[..size];
        assert_eq!(packet[8..10], [block_type, specific]);
        assert_eq!(packet::body(packet, 0), body);
        let expected = match block_type {
            17 | 18 => Reading::Dropped(Reason::D4),
            _ => Reading::Typed(block),
        };
        assert_eq!(packet::block(packet, 0), Ok((block_type, expected)));
    }
}

/// Added one after another: each call keeps what stands before and after its block.
#[test]
fn all_kinds_in_one_packet() {
    let mut buffer = holding(3, 200);
    // Reserved bits of byte 0 are not the call's to change.
    buffer[0] |= 0x1F;
    let mut size = 20;
    for (added, block) in kinds().iter().enumerate() {
        let before = buffer.clone();
        let new_size = add(&mut buffer, block).unwrap();
        assert_eq!(buffer[..2], before[..2]);
        assert_eq!(buffer[4..size], before[4..size]);
        assert_eq!(buffer[new_size..], before[new_size..]);
        assert_eq!(packet::read(&buffer[..new_size]), Ok((1, added + 2)));
        size = new_size;
    }
    for (index, block) in kinds().iter().enumerate() {
        let reading = packet::block(&buffer[..size], index + 1).unwrap().1;
        // The measurement came last, and there is no D4 any more.
        assert_eq!(reading, Reading::Typed(*block));
    }
}

#[test]
fn read_and_written_again_with_reserved_bits_zero() {
    for block_type in [14, 17, 18, 240, 241] {
        let body: Vec<u8> = (1..=4 * block::words(block_type).unwrap() as u8).collect();
        let Reading::Typed(block) = block::read(block_type, 0x7F, &body) else {
            panic!("type {block_type}");
        };
        let mut expected = body;
        match block_type {
            14 => expected[4..6].fill(0),
            240 => expected[6..8].fill(0),
            _ => {}
        }
        let specific = if matches!(block_type, 17 | 18) {
            0x40
        } else {
            0
        };
        assert_eq!(encode(&block), (block_type, specific, expected));
    }
}

#[test]
fn full_loss_is_a_number_as_any_other() {
    let mut buffer = holding(0, 20);
    assert_eq!(add(&mut buffer, &effective(65_535)), Ok(20));
    let reading = packet::block(&buffer, 0).unwrap().1;
    assert_eq!(reading, Reading::Typed(effective(65_535)));
}

#[test]
fn flags_and_rates_to_write() {
    let buffer = holding(0, 40);
    for flag in 0..=255 {
        let pair = [
            Block::Loss(Loss { flag, ..LOSS }),
            Block::Discard(Discard { flag, ..DISCARD }),
        ];
        for block in pair {
            if (1..=3).contains(&flag) {
                assert!(add(&mut buffer.clone(), &block).is_ok());
            } else {
                refused(&buffer, &block, Refusal::BLOCK_TO_WRITE);
            }
        }
    }
    for rate in [0, 32_767, 32_768, 32_769, 40_000, 65_533, 65_534, 65_535] {
        let (burst_rate, gap_rate) = (rate, rate);
        let each = [
            Block::Loss(Loss { burst_rate, ..LOSS }),
            Block::Loss(Loss { gap_rate, ..LOSS }),
            Block::Discard(Discard {
                burst_rate,
                ..DISCARD
            }),
            Block::Discard(Discard {
                gap_rate,
                ..DISCARD
            }),
        ];
        for block in each {
            if (32_769..=65_534).contains(&rate) {
                refused(&buffer, &block, Refusal::BLOCK_TO_WRITE);
            } else {
                assert!(add(&mut buffer.clone(), &block).is_ok());
            }
        }
    }
}

#[test]
fn mean_and_variance_are_written_as_they_stand() {
    for number in [0, 32_769, 65_533, 65_534, 65_535] {
        let block = Block::Loss(Loss {
            mean: number,
            variance: number,
            ..LOSS
        });
        let (block_type, specific, body) = encode(&block);
        let reading = block::read(block_type, specific, &body);
        assert_eq!(reading, Reading::Typed(block));
        assert_eq!(add(&mut holding(0, 24), &block), Ok(24));
    }
}

/// Faults put in from the last to the first: each hides those that come after it.
#[test]
fn refusals_in_order() {
    // The length field would pass 65,535, in a buffer with no room either.
    let bad = Block::Loss(Loss { flag: 0, ..LOSS });
    let full = holding(65_534, 262_144);
    assert_eq!(packet::read(&full), Ok((1, 1)));
    refused(&full, &EFFECTIVE, Refusal::PACKET_FULL);
    refused(&full, &bad, Refusal::BLOCK_TO_WRITE);
    let mut buffer = holding(2, 19);
    refused(&buffer, &EFFECTIVE, Refusal::BUFFER_SHORT);
    refused(&buffer, &bad, Refusal::BLOCK_TO_WRITE);
    buffer[11] = 2;
    refused(&buffer, &bad, Refusal::block_past_end(8));
    buffer[0] |= 0x20;
    refused(&buffer, &bad, Refusal::PADDING);
    for length in [0, 4, 5, 65_535_u16] {
        buffer[2..4].copy_from_slice(&length.to_be_bytes());
        refused(&buffer, &bad, Refusal::PACKET_LENGTH);
    }
    buffer[1] = 206;
    refused(&buffer, &bad, Refusal::PACKET_TYPE);
    buffer[0] = 0x60;
    refused(&buffer, &bad, Refusal::VERSION);
    for length in 0..8 {
        refused(&buffer[..length], &bad, Refusal::PACKET_SHORT);
    }
}

/// A block is past the end of the packet, whatever room the buffer has after it.
#[test]
fn blocks_are_judged_inside_the_packet_only() {
    let mut buffer = holding(5, 200);
    buffer[10..12].copy_from_slice(&[0, 1]);
    buffer[16..20].copy_from_slice(&[99, 0, 0, 2]);
    assert_eq!(packet::read(&buffer[..28]), Ok((1, 2)));
    assert_eq!(add(&mut buffer.clone(), &EFFECTIVE), Ok(40));
    buffer[19] = 3;
    refused(&buffer, &EFFECTIVE, Refusal::block_past_end(16));
}

#[test]
fn room_to_the_byte() {
    for block in kinds() {
        let needed = 8 + framed(&block).len();
        refused(&holding(0, needed - 1), &block, Refusal::BUFFER_SHORT);
        assert_eq!(add(&mut holding(0, needed), &block), Ok(needed));
    }
}

#[test]
fn up_to_a_length_of_65_535() {
    // Three words more make the length field 65,535.
    let mut buffer = holding(65_531, 300_000);
    assert_eq!(add(&mut buffer, &EFFECTIVE), Ok(262_144));
    assert_eq!(packet::read(&buffer[..262_144]), Ok((1, 2)));
    refused(&buffer, &EFFECTIVE, Refusal::PACKET_FULL);
    refused(&holding(65_532, 300_000), &EFFECTIVE, Refusal::PACKET_FULL);
    // 17 comes before 8, which comes alone where the length fits.
    refused(&holding(65_532, 262_144), &EFFECTIVE, Refusal::PACKET_FULL);
    refused(&holding(65_531, 262_143), &EFFECTIVE, Refusal::BUFFER_SHORT);
}
