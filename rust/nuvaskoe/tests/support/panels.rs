//! The library's front panel beside the independent one. Positions are compared by their bits,
//! since 0.0 equals -0.0.

use super::{
    adding::library_block,
    answers::theirs,
    boundary,
    compare::shown,
    numbers::block_answer,
    packets::{block, listed, packet},
    raw,
};
use independent::{
    block::{Block, Discard, Loss},
    panel::{self, Needle, Panel},
};
use nuvaskoe::panel as library;

/// The source of every block here.
const SOURCE: u32 = 5;

/// The panel of a block of a packet, by its index and as it was read.
pub fn of_packet_both(packet: &[u8], index: usize) -> Panel {
    let independent = panel::of_packet(packet, index);
    let input = || format!("block {index} of {}", shown(packet));
    let whole = raw::panel_of_packet(packet, index);
    same(
        library::of_packet(packet, index),
        whole,
        &independent,
        &input,
    );
    let answer = theirs(independent::packet::block(packet, index));
    let read = of_read_both(&block_answer(&answer));
    assert_eq!(read, independent, "{}", input());
    if let Ok(reading) = nuvaskoe::packet::block(packet, index) {
        same(library::of_reading(&reading), whole, &independent, input);
    }
    independent
}

/// The panel of a block by itself.
pub fn of_alone_both(block_type: u8, specific: u8, body: &[u8]) -> Panel {
    let reading = nuvaskoe::block::read(block_type, specific, body);
    let whole = raw::panel_of_read(raw::block_read(block_type, specific, body));
    let independent = panel::of_reading(&independent::block::read(block_type, specific, body));
    let input = || format!("type {block_type}, {specific:02x}, {}", shown(body));
    same(library::of_reading(&reading), whole, &independent, input);
    independent
}

/// The panel of a block given as a value.
pub fn of_block_both(block: &Block) -> Panel {
    let independent = panel::of_block(block);
    let ours = library::of_block(&library_block(block));
    let whole = match block {
        Block::Loss(block) => raw::panel_of_loss(block.into()),
        Block::Discard(block) => raw::panel_of_discard(block.into()),
        _ => whole(&independent),
    };
    same(ours, whole, &independent, || format!("{block:?}"));
    independent
}

/// The panel of any block of the boundary.
pub fn of_read_both(block: &boundary::Block) -> Panel {
    let independent = by_hand(block);
    let answer = raw::panel_of_read(*block);
    assert_eq!(bits(&answer), bits(&whole(&independent)), "{block:?}");
    independent
}

/// "One made by hand is shown where its refusal is 0, its verdict typed, its type 17 or 18, and
/// its interval flag and rates are good."
fn by_hand(block: &boundary::Block) -> Panel {
    if block.refusal.number != 0 || block.verdict != boundary::VERDICT_TYPED {
        return Panel::DARK;
    }
    let [flag, _, burst_rate, gap_rate, ..] = block.fields;
    let narrow = |rate| u16::try_from(rate).ok();
    match (u8::try_from(flag), narrow(burst_rate), narrow(gap_rate)) {
        (Ok(flag), Some(burst_rate), Some(gap_rate)) => {
            let [loss, discard] = summaries(flag, burst_rate, gap_rate);
            match block.block_type {
                17 => panel::of_block(&loss),
                18 => panel::of_block(&discard),
                _ => Panel::DARK,
            }
        }
        _ => Panel::DARK,
    }
}

/// A 17 and an 18 with this flag and these rates.
pub fn summaries(flag: u8, burst_rate: u16, gap_rate: u16) -> [Block; 2] {
    let loss = Loss {
        flag,
        source: SOURCE,
        burst_rate,
        gap_rate,
        mean: 65_534,
        variance: 65_535,
    };
    let discard = Discard {
        flag,
        source: SOURCE,
        burst_rate,
        gap_rate,
    };
    [Block::Loss(loss), Block::Discard(discard)]
}

/// All 65,536 rates on both needles, by every call; the other needle's is good, bad, unavailable and
/// the same.
pub fn every_rate() {
    let measurement = listed(14, SOURCE);
    for rate in 0..=65_535 {
        let flag = 1 + (rate % 3) as u8;
        for other in [16_384, 32_769, 65_535, rate] {
            for (burst, gap) in [(rate, other), (other, rate)] {
                for summary in summaries(flag, burst, gap) {
                    let panel = of_block_both(&summary);
                    let bytes = packet(1, &[measurement.clone(), bytes(&summary)]);
                    // A bad rate is dropped there, and dark as well.
                    assert_eq!(of_packet_both(&bytes, 1), panel, "{summary:?}");
                }
            }
        }
    }
}

/// A 17 or 18 as it stands in a packet.
fn bytes(summary: &Block) -> Vec<u8> {
    let (block_type, flag, rates, rest) = match summary {
        Block::Loss(loss) => (17, loss.flag, [loss.burst_rate, loss.gap_rate], 4),
        Block::Discard(block) => (18, block.flag, [block.burst_rate, block.gap_rate], 0),
        other => unreachable!("{other:?}"),
    };
    let mut body = SOURCE.to_be_bytes().to_vec();
    body.extend(rates.iter().flat_map(|rate| rate.to_be_bytes()));
    body.extend(vec![0; rest]);
    block(block_type, flag << 6, &body)
}

/// The whole answer for a panel.
fn whole(panel: &Panel) -> boundary::Panel {
    let needle = |needle| match needle {
        Needle::Lit(position) => boundary::Needle { lit: 1, position },
        Needle::Dark => boundary::Needle {
            lit: 0,
            position: 0.0,
        },
    };
    boundary::Panel {
        burst: needle(panel.burst),
        gap: needle(panel.gap),
        lamp: panel.lamp().into(),
    }
}

fn bits(panel: &boundary::Panel) -> [u32; 5] {
    let boundary::Panel { burst, gap, lamp } = panel;
    let [burst_bits, gap_bits] = [burst, gap].map(|needle| needle.position.to_bits());
    [burst.lit, burst_bits, gap.lit, gap_bits, *lamp]
}

fn same(
    ours: library::Panel,
    answer: boundary::Panel,
    independent: &Panel,
    input: impl Fn() -> String,
) {
    assert_eq!(bits(&answer), bits(&whole(independent)), "{}", input());
    assert_eq!(ours.lamp(), independent.lamp(), "{}", input());
    let translated = [ours.burst, ours.gap].map(|needle| match needle {
        library::Needle::Lit(position) => Needle::Lit(position),
        library::Needle::Dark => Needle::Dark,
    });
    let [burst, gap] = translated;
    assert_eq!(
        bits(&whole(&Panel { burst, gap })),
        bits(&answer),
        "{}",
        input()
    );
}
