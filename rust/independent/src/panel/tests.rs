use super::*;
use crate::block::{Discard, Loss, LossRle, Reason};
use crate::compose;
use crate::refusal::Refusal;

/// Where rates change their meaning, and some between.
const RATES: [u16; 8] = [0, 1, 16_384, 32_768, 32_769, 50_000, 65_534, 65_535];

/// A 17 and an 18 with this flag and these rates.
fn both(flag: u8, burst_rate: u16, gap_rate: u16) -> [Block; 2] {
    let loss = Loss {
        flag,
        source: 5,
        burst_rate,
        gap_rate,
        mean: 65_534,
        variance: 65_535,
    };
    let discard = Discard {
        flag,
        source: 5,
        burst_rate,
        gap_rate,
    };
    [Block::Loss(loss), Block::Discard(discard)]
}

/// The panel of such a 17 and 18, which is what refusal 16 and division say.
fn check(flag: u8, burst_rate: u16, gap_rate: u16) -> Panel {
    let rates = [burst_rate, gap_rate];
    let good_rates = rates.map(|rate| rate <= 32_768 || rate == 65_535) == [true; 2];
    let good = [1, 2, 3].contains(&flag) && good_rates;
    let [burst, gap] = rates.map(|rate| match rate {
        0..=32_768 if good => Needle::Lit(f32::from(rate) / 32_768.0),
        _ => Needle::Dark,
    });
    for block in both(flag, burst_rate, gap_rate) {
        let mut buffer = [0; 24];
        assert_eq!(compose::new_packet(1, &mut buffer), Ok(8));
        let refused = compose::add(&mut buffer, &block) == Err(Refusal::BLOCK_TO_WRITE);
        assert_eq!(refused, !good, "{block:?}");
        assert_eq!(of_block(&block), Panel { burst, gap }, "{block:?}");
        // Also where a caller made the answer by hand.
        let reading = Reading::Typed(block);
        assert_eq!(of_reading(&reading), Panel { burst, gap }, "{block:?}");
    }
    Panel { burst, gap }
}

#[test]
fn ends() {
    assert_eq!(position_bits(0), 0);
    assert_eq!(position_bits(1), 0x3800_0000);
    assert_eq!(position_bits(16_384), 0.5_f32.to_bits());
    assert_eq!(position_bits(32_767), 0x3F7F_FE00);
    assert_eq!(position_bits(32_768), 1.0_f32.to_bits());
    let (burst, gap) = (Needle::Lit(0.0), Needle::Lit(1.0));
    assert_eq!(check(1, 0, 32_768), Panel { burst, gap });
}

/// An f64 holds every f32 and every quotient; by bits, so that no zero is negative.
#[test]
fn every_position_is_the_quotient() {
    for rate in 0..=65_535 {
        let position = f64::from(f32::from_bits(position_bits(rate)));
        let quotient = f64::from(rate) / 32_768.0;
        assert_eq!(position.to_bits(), quotient.to_bits(), "{rate}");
    }
}

#[test]
fn neighbours_are_in_order() {
    for rate in 0..65_535 {
        let [low, high] = [rate, rate + 1].map(|rate| f32::from_bits(position_bits(rate)));
        assert!(low < high, "{rate}");
    }
}

#[test]
fn every_rate_on_either_needle() {
    for rate in 0..=65_535 {
        check(1, rate, 16_384);
        check(2, 16_384, rate);
    }
}

#[test]
fn every_flag() {
    for flag in 0..=255 {
        for rate in RATES {
            for other in RATES {
                check(flag, rate, other);
            }
        }
    }
}

#[test]
fn the_lamp() {
    assert!(check(1, 0, 0).lamp());
    assert!(check(2, 0, 65_535).lamp());
    assert!(check(3, 65_535, 32_768).lamp());
    assert_eq!(check(1, 65_535, 65_535), Panel::DARK);
    assert!(!Panel::DARK.lamp());
}

#[test]
fn answers_without_a_block_are_dark() {
    assert_eq!(of_reading(&Reading::Unknown), Panel::DARK);
    for reason in [Reason::D1, Reason::D2, Reason::D3, Reason::D4, Reason::D5] {
        assert_eq!(of_reading(&Reading::Dropped(reason)), Panel::DARK);
    }
    let rle = LossRle {
        source: 5,
        begin: 0,
        end: 100,
        lost: 50,
    };
    assert_eq!(of_reading(&Reading::Rle(rle)), Panel::DARK);
}

/// Two blocks to show, then D1 to D4, unknown, the other types, a type 1, good and D5, and
/// indices past the end.
#[test]
fn in_a_packet() {
    let blocks: [&[u32]; 12] = [
        &[0x1140_0003, 5, 0x4000_FFFF, 0],
        &[0x12C0_0002, 5, 0xFFFF_0000],
        &[0x1140_0002, 5, 0x4000_4000],
        &[0x1200_0002, 5, 0x4000_4000],
        &[0x1140_0003, 5, 0x4000_8001, 0],
        &[0x1240_0002, 6, 0x4000_4000],
        &[0x6340_0002, 5, 0x4000_4000],
        &[0xF040_0002, 5, 0x4000_4000],
        &[0xF140_000B, 5, 0x4000_4000, 0, 0, 0, 0, 0, 0, 0, 0, 0],
        &[0x0E40_0007, 5, 0x4000_4000, 0, 0, 0, 0, 0],
        &[0x0140_0002, 5, 0x4000_4000],
        &[0x0140_0002, 5, 0x4000_4001],
    ];
    let words = [&[0x80CF_0035, 1], &blocks.concat()[..]].concat();
    let packet: Vec<u8> = words.iter().flat_map(|word| word.to_be_bytes()).collect();
    let listed = packet::list(&packet).unwrap();
    let verdicts: Vec<u32> = listed.into_iter().map(|(_, verdict)| verdict).collect();
    assert_eq!(verdicts, [0, 0, 1, 2, 3, 4, 255, 0, 0, 0, 254, 5]);
    assert_eq!(of_packet(&packet, 0), check(1, 16_384, 65_535));
    assert_eq!(of_packet(&packet, 1), check(3, 65_535, 0));
    for index in (2..14).chain([usize::MAX]) {
        assert_eq!(of_packet(&packet, index), Panel::DARK, "{index}");
    }
    // Refusals 1 to 6, the last for the block after the one asked for.
    assert_eq!(of_packet(&packet[..7], 0), Panel::DARK);
    for (number, offset, byte) in [(2, 0, 0), (3, 1, 0), (4, 3, 0), (5, 0, 0xA0), (6, 26, 1)] {
        let mut refused = packet.clone();
        refused[offset] = byte;
        assert_eq!(packet::read(&refused).unwrap_err().number, number);
        assert_eq!(of_packet(&refused, 0), Panel::DARK, "{number}");
    }
}
