//! The library's reading of packets beside the independent one: examples, drawn packets
//! and damaged ones.

mod support;

use independent::block::{Block, Effective, Reading};
use std::collections::BTreeSet;
use support::{
    compare::{block_both, body_both, compare, list_both, refused, verdicts},
    from_env,
    packets::{
        all_kinds, block, damage, fit_length, listed, measured_late, packet, random_packet,
        sourced, P12, REPORT, VERSION_2,
    },
    Random,
};

/// How many packets each test draws; `NUVASKOE_PACKETS` overrides.
const PACKETS: usize = 20_000;

fn packets() -> usize {
    from_env("NUVASKOE_PACKETS", PACKETS)
}

/// So many draws meet all there is to meet; fewer, asked for to save time, may not.
fn drawn_enough() -> bool {
    packets() >= PACKETS
}

#[test]
fn example_p12() {
    assert_eq!(compare(&P12), Ok((1, 1)));
    let loss = Block::Effective(Effective {
        source: 2,
        index: 37_448,
    });
    assert_eq!(block_both(&P12, 0), Ok((240, Reading::Typed(loss))));
    assert_eq!(nuvaskoe::packet::body(&P12, 0), &P12[12..]);
    assert_eq!(list_both(&P12, 2), (Ok(2), vec![8, 0]));
    assert_eq!(block_both(&P12, 1), Err((7, 0)));
}

/// Good packets meet every verdict of every type.
#[test]
fn random_packets() {
    let mut random = Random::new("random_packets");
    let mut seen = BTreeSet::new();
    for _ in 0..packets() {
        let packet = random_packet(&mut random);
        let verdicts = verdicts(&packet);
        for (index, verdict) in verdicts.into_iter().enumerate() {
            let (block_type, reading) = block_both(&packet, index).expect("a block");
            assert_eq!(reading.verdict(), verdict, "block {index}");
            seen.insert((block_type, verdict));
        }
    }
    let both = |block_type| (0..=4).map(move |verdict| (block_type, verdict));
    let others = [14, 240, 241].into_iter().flat_map(|t| [(t, 0), (t, 1)]);
    let runs = [1, 2, 5, 254].into_iter().map(|verdict| (1, verdict));
    let others = others.chain(runs).chain([(13, 255)]);
    for pair in both(17).chain(both(18)).chain(others) {
        assert!(
            seen.contains(&pair) || !drawn_enough(),
            "no block drawn with {pair:?}"
        );
    }
}

/// Damaged packets meet every refusal of a packet.
#[test]
fn damaged_packets() {
    let mut random = Random::new("damaged_packets");
    let mut seen = BTreeSet::new();
    for _ in 0..packets() {
        let mut packet = random_packet(&mut random);
        for _ in 0..=random.below(3) {
            damage(&mut random, &mut packet);
            seen.insert(compare(&packet).map_or_else(|refusal| refusal.0, |_| 0));
        }
    }
    if drawn_enough() {
        assert_eq!(seen, BTreeSet::from([0, 1, 2, 3, 4, 5, 6]));
    }
}

/// Any bytes; then the same under a header that is more and more right.
#[test]
fn random_bytes() {
    let mut random = Random::new("random_bytes");
    for _ in 0..packets() {
        let length = random.below(80);
        let mut bytes = random.bytes(length);
        let _ = compare(&bytes);
        for (place, byte) in [(0, VERSION_2), (1, REPORT)] {
            if let Some(first) = bytes.get_mut(place) {
                *first = byte;
            }
            let _ = compare(&bytes);
        }
        bytes.truncate(length / 4 * 4);
        fit_length(&mut bytes);
        let _ = compare(&bytes);
        // Short blocks, so that some packets are good.
        for place in (8..bytes.len()).step_by(4) {
            bytes[place + 2] = 0;
            bytes[place + 3] &= 3;
        }
        let _ = compare(&bytes);
    }
}

#[test]
fn every_change_of_one_byte() {
    for sample in [P12.to_vec(), all_kinds(), measured_late()] {
        assert!(compare(&sample).is_ok());
        let mut changed = sample.clone();
        for place in 0..sample.len() {
            for byte in (0..=u8::MAX).filter(|byte| *byte != sample[place]) {
                changed[place] = byte;
                let _ = compare(&changed);
            }
            changed[place] = sample[place];
        }
    }
}

#[test]
fn samples() {
    assert_eq!(verdicts(&all_kinds()), [0, 255, 0, 0, 0, 0]);
    assert_eq!(verdicts(&measured_late()), [0, 0, 4, 255, 4, 0]);
}

/// Four blocks in every order and choice: D4 looks before and after, at well-sized blocks
/// 14 alone, and at the source alone.
#[test]
fn every_choice_of_four_blocks() {
    let mut bad_rate = listed(18, 5);
    bad_rate[8] = 0x90;
    let choices = [
        listed(14, 5),
        listed(14, 6),
        sourced(14, 6, 5),
        listed(17, 5),
        listed(17, 6),
        listed(18, 5),
        bad_rate,
        listed(240, 5),
        block(9, 0, &[]),
    ];
    let kinds = choices.len();
    for number in 0..kinds.pow(4) {
        let chosen = [0, 1, 2, 3].map(|digit| number / kinds.pow(digit) % kinds);
        let measured = |choice| chosen.contains(&choice);
        let expected = chosen.map(|choice| match choice {
            2 => 1,
            3 | 5 if !measured(0) => 4,
            4 if !measured(1) => 4,
            6 => 3,
            8 => 255,
            _ => 0,
        });
        let blocks = chosen.map(|choice| choices[choice].clone());
        assert_eq!(verdicts(&packet(1, &blocks)), expected, "{chosen:?}");
    }
}

/// D1, D2, D3, D4 in one packet, each block with all faults that come after its own.
#[test]
fn first_reason_that_applies() {
    for block_type in [17, 18] {
        let unmeasured = listed(block_type, 5);
        let mut bad_rate = unmeasured.clone();
        bad_rate[8..10].copy_from_slice(&32_769u16.to_be_bytes());
        let mut bad_flag = bad_rate.clone();
        bad_flag[1] = 0x3F;
        let mut bad_size = bad_flag.clone();
        bad_size[3] += 1;
        bad_size.extend([0; 4]);
        let blocks = [bad_size, bad_flag, bad_rate, unmeasured];
        assert_eq!(verdicts(&packet(1, &blocks)), [1, 2, 3, 4]);
        let measured = [blocks.concat(), listed(14, 5)];
        assert_eq!(verdicts(&packet(1, &measured)), [1, 2, 3, 0, 0]);
    }
}

/// A packet is refused for its last block, whichever block is asked for.
#[test]
fn good_blocks_before_one_past_the_end() {
    let mut blocks = vec![listed(14, 5), listed(17, 5), listed(240, 5)];
    for block_type in [0, 14, 17, 18, 240, 241] {
        blocks.push(block(block_type, 0, &[0; 8]));
        let mut past = packet(1, &blocks);
        let offset = past.len() - 12;
        for words in [3u16, 4, 7, 255, 256, 16_383, 16_384, 65_535] {
            past[offset + 2..offset + 4].copy_from_slice(&words.to_be_bytes());
            refused(&past, 6, offset);
            for index in 0..8 {
                assert_eq!(body_both(&past, index), Err((6, offset)));
            }
        }
        blocks.pop();
    }
}
