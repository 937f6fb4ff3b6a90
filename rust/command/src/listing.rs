//! A packet in document 01's lines, and in JSON by the names of `nuvaskoe.h`; what the lines call
//! its blocks and their fields.

use crate::json::{object, Object};
use nuvaskoe::{
    block::{Block, TransportStream, Verdict},
    packet::{self, PacketBlock},
    values::{Figure, Rate},
    Refusal,
};

/// For people: one line for the packet and one for each block.
pub fn lines(packet: &[u8]) -> Result<String, Refusal> {
    let summary = packet::read(packet)?;
    let mut lines = format!("ssrc {:08x} blocks {}\n", summary.sender, summary.blocks);
    for block in packet::blocks(packet)? {
        lines += &format!("{} {}\n", block.index, line(&block));
    }
    Ok(lines)
}

/// For scripts: the packet as `nuvaskoe_packet`, and a list of its blocks.
pub fn numbers(packet: &[u8]) -> Result<Object, Refusal> {
    let summary = packet::read(packet)?;
    let blocks = packet::blocks(packet)?;
    Ok(object([
        ("sender", summary.sender.into()),
        ("blocks", summary.blocks.into()),
        ("list", blocks.map(|block| block_numbers(&block)).collect()),
    ]))
}

/// The line of a block, behind its number.
pub fn line(block: &PacketBlock<'_>) -> String {
    let block_type = block.reading.block_type;
    match block.reading.verdict {
        Verdict::Typed(Block::Measurement(b)) => format!(
            "meas source {:08x} first {} efirst {} elast {} interval {} seconds {} fraction {}",
            b.source, b.first, b.extended_first, b.extended_last, b.interval, b.seconds, b.fraction
        ),
        Verdict::Typed(Block::Loss(b)) => format!(
            "loss source {:08x} i {} burst {} gap {} mean {} var {}",
            b.source, b.flag, b.burst_rate, b.gap_rate, b.mean, b.variance
        ),
        Verdict::Typed(Block::Discard(b)) => format!(
            "discard source {:08x} i {} burst {} gap {}",
            b.source, b.flag, b.burst_rate, b.gap_rate
        ),
        Verdict::Typed(Block::Effective(b)) => {
            format!("eli source {:08x} index {}", b.source, b.index)
        }
        Verdict::Typed(Block::TransportStream(b)) => {
            let counts = b.counts.map(|count| format!(" {count}")).concat();
            let (source, begin, end, packets) = (b.source, b.begin, b.end, b.packets());
            let streams = b.streams;
            format!("ts source {source:08x} begin {begin} end {end} packets {packets} streams {streams} counts{counts}")
        }
        Verdict::Rle(b) => format!(
            "rle source {:08x} begin {} end {} lost {}",
            b.source, b.begin, b.end, b.lost
        ),
        Verdict::Dropped(reason) => format!("dropped type {block_type} reason {}", reason.number()),
        _ => format!("unknown type {block_type} bytes {}", block.body.len()),
    }
}

/// What a block is: the first word of its line where it is typed, and the line itself where not.
pub fn kind(block: &PacketBlock<'_>) -> String {
    let line = line(block);
    match (block.reading.verdict, line.split_once(' ')) {
        (Verdict::Typed(_), Some((kind, _))) => kind.into(),
        _ => line,
    }
}

/// The name of a typed block's field, by its number in a difference. The packets that a block 241
/// covers are no field there.
pub fn name(block: &PacketBlock<'_>, field: usize) -> Option<&'static str> {
    let fields = fields(&block.reading.verdict);
    let mut names = fields.names().filter(|name| *name != "packets");
    names.nth(field)
}

/// The word that stands before the field of this name in a line; the eight counts have none.
pub fn word(name: &'static str) -> &'static str {
    match name {
        "extended_first" => "efirst",
        "extended_last" => "elast",
        "flag" => "i",
        "burst_rate" => "burst",
        "gap_rate" => "gap",
        "burst_mean" => "mean",
        "burst_variance" => "var",
        other => other,
    }
}

/// The number of the field of this name as it stands in a line.
pub fn shown(name: &str, number: u32) -> String {
    match (name, u16::try_from(number)) {
        ("source", _) => format!("{number:08x}"),
        ("burst_rate" | "gap_rate", Ok(rate)) => Rate(rate).to_string(),
        ("burst_mean" | "burst_variance", Ok(figure)) => Figure(figure).to_string(),
        _ => number.to_string(),
    }
}

/// For scripts: the number of a block, and the block as `list` has it.
pub fn numbered(block: &PacketBlock<'_>) -> Object {
    object([
        ("index", block.index.into()),
        ("block", block_numbers(block).into()),
    ])
}

/// A block as `nuvaskoe_block`, with its offset and the length of its body.
pub fn block_numbers(block: &PacketBlock<'_>) -> Object {
    object([
        ("offset", block.offset.into()),
        ("length", block.body.len().into()),
        ("block_type", block.reading.block_type.into()),
        ("verdict", block.reading.verdict.number().into()),
        ("fields", fields(&block.reading.verdict).into()),
    ])
}

/// The fields of a typed block in layout order, by the names of its struct, and of Loss RLE by those
/// of its places.
fn fields(verdict: &Verdict) -> Object {
    match verdict {
        Verdict::Typed(Block::Measurement(b)) => object([
            ("source", b.source.into()),
            ("first", b.first.into()),
            ("extended_first", b.extended_first.into()),
            ("extended_last", b.extended_last.into()),
            ("interval", b.interval.into()),
            ("seconds", b.seconds.into()),
            ("fraction", b.fraction.into()),
        ]),
        Verdict::Typed(Block::Loss(b)) => object([
            ("flag", b.flag.into()),
            ("source", b.source.into()),
            ("burst_rate", b.burst_rate.0.into()),
            ("gap_rate", b.gap_rate.0.into()),
            ("burst_mean", b.mean.0.into()),
            ("burst_variance", b.variance.0.into()),
        ]),
        Verdict::Typed(Block::Discard(b)) => object([
            ("flag", b.flag.into()),
            ("source", b.source.into()),
            ("burst_rate", b.burst_rate.0.into()),
            ("gap_rate", b.gap_rate.0.into()),
        ]),
        Verdict::Typed(Block::Effective(b)) => {
            object([("source", b.source.into()), ("index", b.index.0.into())])
        }
        Verdict::Typed(Block::TransportStream(b)) => streams(b),
        Verdict::Rle(b) => object([
            ("source", b.source.into()),
            ("begin", b.begin.into()),
            ("end", b.end.into()),
            ("packets", b.packets().into()),
            ("lost", b.lost.into()),
        ]),
        _ => Object::default(),
    }
}

fn streams(b: &TransportStream) -> Object {
    let [sync_losses, sync_byte_errors, continuity_errors, transport_errors, rest @ ..] = b.counts;
    let [pcr_errors, pcr_repetition_errors, pcr_discontinuity_errors, pts_errors] = rest;
    object([
        ("source", b.source.into()),
        ("begin", b.begin.into()),
        ("end", b.end.into()),
        ("packets", b.packets().into()),
        ("streams", b.streams.into()),
        ("sync_losses", sync_losses.into()),
        ("sync_byte_errors", sync_byte_errors.into()),
        ("continuity_errors", continuity_errors.into()),
        ("transport_errors", transport_errors.into()),
        ("pcr_errors", pcr_errors.into()),
        ("pcr_repetition_errors", pcr_repetition_errors.into()),
        ("pcr_discontinuity_errors", pcr_discontinuity_errors.into()),
        ("pts_errors", pts_errors.into()),
    ])
}
