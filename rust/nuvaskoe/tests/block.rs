//! The library's reading of one block by itself beside the independent one.

mod support;

use independent::block::{Block, Reading, Reason};
use support::{
    compare::alone_both,
    packets::{listed, listed_words, FLAG, LISTED},
    Random,
};

/// How many bodies are drawn for each type and type-specific byte.
const BODIES: usize = 20;

/// The body of a well-sized block with 16 bits at `offset` set.
fn body_with(block_type: u8, offset: usize, number: u16) -> Vec<u8> {
    let mut body = listed(block_type, 0x0102_0304).split_off(4);
    body[offset..offset + 2].copy_from_slice(&number.to_be_bytes());
    body
}

/// Every type with every size up to 60 bytes, whole words or not.
#[test]
fn every_type_and_size() {
    let mut random = Random::new("every_type_and_size");
    for block_type in 0..=u8::MAX {
        for length in 0..=60 {
            let body = random.bytes(length);
            for flag in 0..4 {
                let reading = alone_both(block_type, flag << 6, &body);
                match listed_words(block_type) {
                    None if block_type == 1 => {
                        let sized = length >= 8 && length % 4 == 0;
                        assert_eq!(sized, reading != Reading::Dropped(Reason::D1));
                    }
                    None => assert_eq!(reading, Reading::Unknown),
                    Some(words) if 4 * words != length => {
                        assert_eq!(reading, Reading::Dropped(Reason::D1));
                    }
                    Some(_) => assert_ne!(reading, Reading::Dropped(Reason::D1)),
                }
            }
        }
    }
}

/// A body starts anywhere, not only where a word may.
#[test]
fn bodies_at_every_alignment() {
    let mut random = Random::new("bodies_at_every_alignment");
    for (block_type, words) in LISTED {
        let bytes = random.bytes(4 * words + 16);
        for start in 0..16 {
            alone_both(block_type, FLAG, &bytes[start..start + 4 * words]);
        }
    }
}

#[test]
fn every_specific_byte() {
    let mut random = Random::new("every_specific_byte");
    for (block_type, words) in LISTED {
        for specific in 0..=u8::MAX {
            for _ in 0..BODIES {
                let mut body = random.bytes(4 * words);
                // Half of all rates drawn would be dropped.
                body[4] &= 0x7F;
                body[6] &= 0x7F;
                let flagless = matches!(block_type, 17 | 18) && specific < FLAG;
                let reading = alone_both(block_type, specific, &body);
                if flagless {
                    assert_eq!(reading, Reading::Dropped(Reason::D2));
                } else {
                    assert!(matches!(reading, Reading::Typed(_)), "{reading:?}");
                }
            }
        }
    }
}

#[test]
fn every_rate() {
    for (block_type, offset) in [(17, 4), (17, 6), (18, 4), (18, 6)] {
        for rate in 0..=u16::MAX {
            let reading = alone_both(block_type, FLAG, &body_with(block_type, offset, rate));
            let d3 = reading == Reading::Dropped(Reason::D3);
            assert_eq!(d3, (32_769..=65_534).contains(&rate), "rate {rate}");
        }
    }
}

#[test]
fn every_mean_and_variance() {
    for number in 0..=u16::MAX {
        for offset in [8, 10] {
            let reading = alone_both(17, FLAG, &body_with(17, offset, number));
            let Reading::Typed(Block::Loss(loss)) = reading else {
                panic!("{number} at {offset}: {reading:?}");
            };
            assert_eq!(loss.mean | loss.variance, number);
        }
    }
}

#[test]
fn every_index() {
    for index in 0..=u16::MAX {
        let reading = alone_both(240, 0, &body_with(240, 4, index));
        let Reading::Typed(Block::Effective(loss)) = reading else {
            panic!("index {index}: {reading:?}");
        };
        assert_eq!(loss.index, index);
    }
}

/// The reserved halves of 14 and 240.
#[test]
fn every_reserved_half() {
    for (block_type, offset) in [(14, 4), (240, 6)] {
        let without = alone_both(block_type, 0, &body_with(block_type, offset, 0));
        for bits in 0..=u16::MAX {
            let body = body_with(block_type, offset, bits);
            assert_eq!(alone_both(block_type, 0, &body), without, "bits {bits}");
        }
    }
}

/// Block 241 covers end minus begin, also where the sequence numbers wrap.
#[test]
fn begin_and_end() {
    let mut random = Random::new("begin_and_end");
    let mut ends = vec![0, 1, 2, 32_767, 32_768, 65_534, 65_535];
    ends.extend((0..500).map(|_| random.draw() as u16));
    for begin in &ends {
        for end in &ends {
            let mut body = body_with(241, 4, *begin);
            body[6..8].copy_from_slice(&end.to_be_bytes());
            let Reading::Typed(Block::TransportStream(stream)) = alone_both(241, 0, &body) else {
                panic!("{begin} to {end}");
            };
            assert_eq!((stream.begin, stream.end), (*begin, *end));
        }
    }
    let mut body = body_with(241, 4, 65_535);
    body[7] = 2;
    let reading = nuvaskoe::block::read(241, 0, &body);
    let nuvaskoe::block::Verdict::Typed(nuvaskoe::block::Block::TransportStream(stream)) =
        reading.verdict
    else {
        panic!("{reading:?}");
    };
    assert_eq!(stream.packets(), 3);
}
