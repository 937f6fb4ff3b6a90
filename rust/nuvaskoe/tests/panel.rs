//! The front panel beside the independent one, and what document 02's ticket 4 says of it.

mod support;

use independent::{
    block::{Block, LossRle, Reading, Reason},
    panel::{Needle, Panel},
};
use support::{
    adding::{one_of_each, writable},
    boundary,
    numbers::block_answer,
    packets::{all_kinds, block, fit_length, listed, measured_late, packet, P12},
    panels::{every_rate, of_alone_both, of_block_both, of_packet_both, of_read_both, summaries},
};

/// Where rates change their meaning, and some between.
const RATES: [u16; 9] = [0, 1, 16_384, 32_767, 32_768, 32_769, 50_000, 65_534, 65_535];

#[test]
fn all_rates_on_both_needles() {
    every_rate();
}

/// "a rate divided by 32,768, which is exact": an f64 holds every quotient. In the order of the
/// rates, from 0 to 1.
#[test]
fn positions() {
    let position = |rate| match of_block_both(&summaries(1, rate, 65_535)[0]).burst {
        Needle::Lit(position) => position,
        Needle::Dark => panic!("{rate} is dark"),
    };
    for rate in 0..=32_768 {
        let quotient = f64::from(rate) / 32_768.0;
        assert_eq!(f64::from(position(rate)).to_bits(), quotient.to_bits());
        assert!(rate == 0 || position(rate - 1) < position(rate), "{rate}");
    }
    assert_eq!(position(0).to_bits(), 0);
    assert_eq!(position(32_768).to_bits(), 1.0_f32.to_bits());
}

/// Exactly what refusal 16 lets through is shown, each needle by its own rate.
#[test]
fn every_flag_and_kind_of_rate() {
    for flag in 0..=255 {
        for burst_rate in RATES {
            for gap_rate in RATES {
                for block in summaries(flag, burst_rate, gap_rate) {
                    let panel = of_block_both(&block);
                    let lit = [burst_rate, gap_rate].map(|rate| writable(&block) && rate <= 32_768);
                    let is_lit = |needle| matches!(needle, Needle::Lit(_));
                    assert_eq!([panel.burst, panel.gap].map(is_lit), lit, "{block:?}");
                    assert_eq!(panel.lamp(), lit != [false; 2], "{block:?}");
                }
            }
        }
    }
}

#[test]
fn other_kinds_are_dark() {
    for (block_type, block) in [14, 17, 18, 240, 241].into_iter().zip(one_of_each(5)) {
        let dark = !matches!(block, Block::Loss(_) | Block::Discard(_));
        assert_eq!(of_block_both(&block) == Panel::DARK, dark, "{block:?}");
        let read = block_answer(&Ok((block_type, Reading::Typed(block))));
        assert_eq!(of_read_both(&read), of_block_both(&block), "{block:?}");
    }
}

#[test]
fn unknown_dropped_and_loss_rle_are_dark() {
    let reasons = [Reason::D1, Reason::D2, Reason::D3, Reason::D4, Reason::D5];
    let answers = reasons.map(Reading::Dropped).into_iter();
    // Its fields are those of a good 17 or 18.
    let rle = Reading::Rle(LossRle {
        source: 1,
        begin: 5,
        end: 8_192,
        lost: 0,
    });
    for answer in answers.chain([Reading::Unknown, rle]) {
        for block_type in 0..=255 {
            let block = block_answer(&Ok((block_type, answer)));
            assert_eq!(of_read_both(&block), Panel::DARK, "{block:?}");
        }
    }
}

/// A block handed in that was answered by no call.
#[test]
fn made_by_hand() {
    let [loss, _] = summaries(3, 0, 32_768);
    let good = block_answer(&Ok((17, Reading::Typed(loss))));
    let shown = Panel {
        burst: Needle::Lit(0.0),
        gap: Needle::Lit(1.0),
    };
    assert_eq!(of_read_both(&good), shown);
    let dark = |change: &dyn Fn(&mut boundary::Block)| {
        let mut block = good;
        change(&mut block);
        assert_eq!(of_read_both(&block), Panel::DARK, "{block:?}");
    };
    for number in (1..=23).chain([u32::MAX]) {
        dark(&|block| block.refusal.number = number);
        dark(&|block| block.verdict = number);
    }
    for block_type in [0, 14, 16, 19, 240, 241, 256 + 17, 65_536 + 18, u32::MAX] {
        dark(&|block| block.block_type = block_type);
    }
    // Bad ones, and some that are good once they are cut to their fields.
    for flag in [0, 4, 255, 256 + 1, 65_536 + 1, u32::MAX] {
        dark(&|block| block.fields[0] = flag);
    }
    for rate in [32_769, 65_534, 65_536, 65_536 + 1, u32::MAX] {
        dark(&|block| block.fields[2] = rate);
        dark(&|block| block.fields[3] = rate);
    }
    // No other number says anything.
    let mut others = good;
    others.refusal.place = 7;
    for place in [1].into_iter().chain(4..others.fields.len()) {
        others.fields[place] = u32::MAX;
    }
    assert_eq!(of_read_both(&others), shown);
}

/// A reading changed by hand: the block decides, and not the type beside it.
#[test]
fn changed_readings() {
    let body = [0, 0, 0, 1, 0x40, 0, 0x20, 0];
    let mut reading = nuvaskoe::block::read(18, 0x40, &body);
    let panel = nuvaskoe::panel::of_reading(&reading);
    assert!(panel.lamp());
    reading.block_type = 14;
    assert_eq!(nuvaskoe::panel::of_reading(&reading), panel);
    for (block_type, bytes) in [(14, 28), (240, 8), (241, 44)] {
        let mut reading = nuvaskoe::block::read(block_type, 0x40, &vec![1; bytes]);
        for other in [17, 18] {
            reading.block_type = other;
            let dark = nuvaskoe::panel::Panel::DARK;
            assert_eq!(nuvaskoe::panel::of_reading(&reading), dark, "{reading:?}");
        }
    }
}

#[test]
fn blocks_of_packets() {
    for bytes in [all_kinds(), measured_late(), P12.to_vec()] {
        for index in (0..8).chain([1 << 32, usize::MAX]) {
            of_packet_both(&bytes, index);
        }
        for length in 0..bytes.len() {
            of_packet_both(&bytes[..length], 0);
        }
    }
    let late = measured_late();
    let zeros = Panel {
        burst: Needle::Lit(0.0),
        gap: Needle::Lit(0.0),
    };
    // The blocks of source 6 have no measurement: D4. By itself such a block is shown.
    let panels = [zeros, zeros, Panel::DARK, Panel::DARK, Panel::DARK];
    for (index, panel) in panels.into_iter().enumerate() {
        assert_eq!(of_packet_both(&late, index), panel, "{index}");
    }
    let body = nuvaskoe::packet::body(&late, 2);
    assert_eq!(of_alone_both(17, 0x40, body), zeros);
    // A later block that runs past the end refuses the packet.
    let mut cut = packet(1, &[listed(14, 5), listed(17, 5), block(1, 0, &[0; 4])]);
    assert_eq!(of_packet_both(&cut, 1), zeros);
    cut.truncate(cut.len() - 4);
    fit_length(&mut cut);
    assert_eq!(of_packet_both(&cut, 1), Panel::DARK);
}
