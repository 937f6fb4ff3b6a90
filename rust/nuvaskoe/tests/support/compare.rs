//! The library's five calls on packets and blocks, each beside the independent one: the safe
//! call, and the whole answer of the boundary.

use super::{
    answers::{ours, refusal, theirs, written, Answer},
    boundary::{Packet, Part},
    numbers::block_answer,
    raw,
};
use independent::block::{
    Block, Discard, Effective, Loss, LossRle, Measurement, Reading, Reason, TransportStream,
};
use nuvaskoe::block as library;

/// Beyond this many blocks, only some are asked for by index.
const ALL_INDICES: usize = 64;

/// Makes all calls on `packet` and gives the sender and the number of blocks.
pub fn compare(packet: &[u8]) -> Answer<(u32, usize)> {
    let answer = read_both(packet);
    let count = answer.map_or(0, |(_, count)| count);
    for index in indices(count) {
        let read = block_both(packet, index);
        assert_eq!(read.is_ok(), index < count, "block {index}");
        let _ = body_both(packet, index);
    }
    for length in [(2 * count).saturating_sub(1), 2 * count, 2 * count + 3] {
        let _ = list_both(packet, length);
    }
    answer
}

/// The same, for a packet that is refused so.
pub fn refused(packet: &[u8], number: u32, place: usize) {
    assert_eq!(compare(packet), Err((number, place)));
    for index in [0, 1, 2, 3] {
        assert_eq!(block_both(packet, index), Err((number, place)));
    }
}

/// The same, for a good packet; gives the verdicts of its blocks.
pub fn verdicts(packet: &[u8]) -> Vec<u32> {
    let (_, count) = compare(packet).expect("a good packet");
    let (answer, out) = list_both(packet, 2 * count);
    assert_eq!(answer, Ok(2 * count));
    out.chunks(2).map(|entry| entry[1]).collect()
}

pub fn read_both(packet: &[u8]) -> Answer<(u32, usize)> {
    let library =
        ours(nuvaskoe::packet::read(packet)).map(|summary| (summary.sender, summary.blocks));
    let independent = theirs(independent::packet::read(packet));
    assert_eq!(library, independent, "packet {}", shown(packet));
    let (sender, blocks) = independent.unwrap_or((0, 0));
    let whole = Packet {
        refusal: refusal(&independent),
        sender,
        blocks,
    };
    assert_eq!(raw::packet_read(packet), whole, "packet {}", shown(packet));
    library
}

pub fn block_both(packet: &[u8], index: usize) -> Answer<(u8, Reading)> {
    let library = ours(nuvaskoe::packet::block(packet, index)).map(translated);
    let independent = theirs(independent::packet::block(packet, index));
    assert_eq!(library, independent, "block {index} of {}", shown(packet));
    let (answer, whole) = (raw::packet_block(packet, index), block_answer(&independent));
    assert_eq!(answer, whole, "block {index} of {}", shown(packet));
    library
}

/// Reads a block by itself.
pub fn alone_both(block_type: u8, specific: u8, body: &[u8]) -> Reading {
    let (read_type, library) = translated(library::read(block_type, specific, body));
    assert_eq!(read_type, block_type);
    let independent = independent::block::read(block_type, specific, body);
    let input = || format!("type {block_type}, {specific:02x}, {}", shown(body));
    assert_eq!(library, independent, "{}", input());
    let answer = raw::block_read(block_type, specific, body);
    let whole = block_answer(&Ok((block_type, independent)));
    assert_eq!(answer, whole, "{}", input());
    library
}

/// The body is the very part of the packet, and the block by itself reads as it does by
/// index, save for D4. Where the block is refused it is empty, and so refused here.
pub fn body_both(packet: &[u8], index: usize) -> Answer<()> {
    let library = nuvaskoe::packet::body(packet, index);
    let independent = independent::packet::body(packet, index);
    assert_eq!(library, independent, "body {index} of {}", shown(packet));
    let part = raw::packet_body(packet, index);
    let (block_type, reading) = match block_both(packet, index) {
        Ok(block) => block,
        Err(refusal) => {
            assert_eq!((part.start, part.length), (0, 0));
            assert!(library.is_empty());
            // The offset is then 0.
            assert_eq!(library.as_ptr(), packet.as_ptr());
            return Err(refusal);
        }
    };
    // Also where the body is empty.
    assert_eq!(library.as_ptr(), independent.as_ptr());
    let start = library.as_ptr() as usize - packet.as_ptr() as usize;
    let length = library.len();
    assert_eq!(part, Part { start, length });
    let first = &packet[start - 4..start];
    assert_eq!(first[0], block_type);
    assert_eq!(
        library.len(),
        4 * (usize::from(first[2]) << 8 | usize::from(first[3]))
    );
    let alone = alone_both(first[0], first[1], library);
    match reading {
        Reading::Dropped(Reason::D4) => assert!(matches!(
            alone,
            Reading::Typed(Block::Loss(_) | Block::Discard(_))
        )),
        _ => assert_eq!(reading, alone),
    }
    Ok(())
}

/// Lists with both into equal buffers of `length` entries, and gives the answer and the
/// buffer on which they agree.
pub fn list_both(packet: &[u8], length: usize) -> (Answer<usize>, Vec<u32>) {
    let before: Vec<u32> = (0..length as u32).map(|index| !index).collect();
    let (mut library_out, mut independent_out) = (before.clone(), before.clone());
    let mut whole_out = before.clone();
    let whole = raw::packet_list(packet, &mut whole_out);
    let library = ours(nuvaskoe::packet::list(packet, &mut library_out));
    let independent = theirs(independent::packet::list_into(packet, &mut independent_out));
    assert_eq!(library, independent, "list of {}", shown(packet));
    assert_eq!(library_out, independent_out, "list of {}", shown(packet));
    assert_eq!(whole, written(&independent), "list of {}", shown(packet));
    assert_eq!(whole_out, independent_out, "list of {}", shown(packet));
    let written = library.unwrap_or(0);
    assert_eq!(library_out[written..], before[written..]);
    (library, library_out)
}

/// All blocks or, of many, some from all parts; then indices without a block, also such
/// as would have one if cut to fewer bits.
fn indices(count: usize) -> impl Iterator<Item = usize> {
    let step = match count {
        0..=ALL_INDICES => 1,
        _ => count / 16,
    };
    let last = count.saturating_sub(3)..count;
    let half_width = 1 << (usize::BITS / 2);
    let none = [
        count,
        count + 1,
        1 << 16,
        half_width,
        usize::MAX - 1,
        usize::MAX,
    ];
    (0..count).step_by(step).chain(last).chain(none)
}

/// The library's reading in the independent words.
pub fn translated(reading: library::Reading) -> (u8, Reading) {
    let translation = match reading.verdict {
        library::Verdict::Typed(block) => Reading::Typed(translated_block(block)),
        library::Verdict::Rle(block) => Reading::Rle(translated_rle(block)),
        library::Verdict::Unknown => Reading::Unknown,
        library::Verdict::Dropped(reason) => Reading::Dropped(match reason {
            library::Reason::BadSize => Reason::D1,
            library::Reason::BadFlag => Reason::D2,
            library::Reason::BadRate => Reason::D3,
            library::Reason::Unmeasured => Reason::D4,
            library::Reason::BadChunks => Reason::D5,
            other => unreachable!("{other:?}"),
        }),
        other => unreachable!("{other:?}"),
    };
    assert_eq!(reading.verdict.number(), translation.verdict());
    (reading.block_type, translation)
}

fn translated_block(block: library::Block) -> Block {
    match block {
        library::Block::Measurement(block) => Block::Measurement(Measurement {
            source: block.source,
            first: block.first,
            extended_first: block.extended_first,
            extended_last: block.extended_last,
            interval: block.interval,
            seconds: block.seconds,
            fraction: block.fraction,
        }),
        library::Block::Loss(block) => Block::Loss(Loss {
            flag: block.flag,
            source: block.source,
            burst_rate: block.burst_rate.0,
            gap_rate: block.gap_rate.0,
            mean: block.mean.0,
            variance: block.variance.0,
        }),
        library::Block::Discard(block) => Block::Discard(Discard {
            flag: block.flag,
            source: block.source,
            burst_rate: block.burst_rate.0,
            gap_rate: block.gap_rate.0,
        }),
        library::Block::Effective(block) => Block::Effective(Effective {
            source: block.source,
            index: block.index.0,
        }),
        library::Block::TransportStream(block) => translated_stream(block),
        other => unreachable!("{other:?}"),
    }
}

fn translated_stream(block: library::TransportStream) -> Block {
    let stream = TransportStream {
        source: block.source,
        begin: block.begin,
        end: block.end,
        streams: block.streams,
        counts: block.counts,
    };
    assert_eq!(block.packets(), stream.packets());
    Block::TransportStream(stream)
}

fn translated_rle(block: library::LossRle) -> LossRle {
    let rle = LossRle {
        source: block.source,
        begin: block.begin,
        end: block.end,
        lost: block.lost,
    };
    assert_eq!(block.packets(), rle.packets());
    rle
}

/// The first bytes in hex, and how many there are.
pub fn shown(bytes: &[u8]) -> String {
    let hex: Vec<String> = bytes
        .iter()
        .take(400)
        .map(|byte| format!("{byte:02x}"))
        .collect();
    format!("{} bytes: {}", bytes.len(), hex.join(" "))
}
