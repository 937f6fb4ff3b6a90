//! The library's writing of packets beside the independent one, what holds of every add,
//! and blocks to add.

use super::{
    answers::{ours, theirs, written, Answer},
    compare::{alone_both, block_both, read_both, shown},
    packets::{RATES, SOURCES},
    pattern, raw, Random,
};
use independent::{
    block::{Block, Discard, Effective, Loss, Measurement, Reading, Reason, TransportStream},
    compose,
};
use nuvaskoe::{
    block as library,
    values::{EffectiveIndex, Figure, Rate},
};

/// Writes a new packet with both into equal buffers of `length` bytes, and gives the
/// answer and the buffer on which they agree.
pub fn new_both(sender: u32, length: usize) -> (Answer<usize>, Vec<u8>) {
    let (mut library_out, mut independent_out) = (pattern(length), pattern(length));
    let mut whole_out = pattern(length);
    let whole = raw::packet_new(sender, &mut whole_out);
    let library = ours(nuvaskoe::packet::new(sender, &mut library_out));
    let independent = theirs(compose::new_packet(sender, &mut independent_out));
    assert_eq!(library, independent, "{length} bytes");
    assert_eq!(library_out, independent_out, "{length} bytes");
    assert_eq!(whole, written(&independent), "{length} bytes");
    assert_eq!(whole_out, independent_out, "{length} bytes");
    let written = library.unwrap_or(0);
    assert_eq!(library_out[written..], pattern(length)[written..]);
    (library, library_out)
}

/// Adds `block` with both to equal buffers, and gives the answer on which they agree;
/// `buffer` then holds what both left. Only the length field and the new bytes differ.
pub fn add_both(buffer: &mut [u8], block: &Block) -> Answer<usize> {
    let before = buffer.to_vec();
    let (mut whole_out, mut independent_out) = (before.clone(), before.clone());
    let whole = raw::packet_add(&mut whole_out, block);
    let library = ours(nuvaskoe::packet::add(buffer, &library_block(block)));
    let independent = theirs(compose::add(&mut independent_out, block));
    assert_eq!(library, independent, "{block:?} to {}", shown(&before));
    let expected = written(&independent);
    assert_eq!(whole, expected, "{block:?} to {}", shown(&before));
    assert!(
        whole_out == independent_out,
        "{block:?} to {}",
        shown(&before)
    );
    assert!(
        buffer == independent_out,
        "{block:?} to {}: {} and {}",
        shown(&before),
        shown(buffer),
        shown(&independent_out)
    );
    match library {
        Err(_) => assert!(buffer == before, "{block:?} to {}", shown(&before)),
        Ok(size) => {
            let start = front_size(&before);
            assert_eq!(size, start + bytes_of(block), "{block:?}");
            assert_eq!(size, front_size(buffer), "{block:?}");
            assert_eq!(buffer[..2], before[..2]);
            assert!(buffer[4..start] == before[4..start], "{}", shown(&before));
            assert!(buffer[size..] == before[size..], "{}", shown(&before));
        }
    }
    library
}

/// The same and, where the block was added, the laws of reading the packet afterwards.
pub fn add_lawfully(buffer: &mut [u8], block: &Block) -> Answer<usize> {
    let before = buffer.to_vec();
    let answer = add_both(buffer, block);
    if let Ok(size) = answer {
        check_laws(&before[..front_size(&before)], &buffer[..size], block);
    }
    answer
}

/// `after` is `before` and one block more, and reads so.
fn check_laws(before: &[u8], after: &[u8], block: &Block) {
    let packet = independent::packet::judge(before).expect("a good packet before");
    let count = packet.blocks.len();
    assert_eq!(read_both(after), Ok((packet.sender, count + 1)));
    let (new, given) = (&after[before.len()..], Reading::Typed(*block));
    assert_eq!(alone_both(new[0], new[1], &new[4..]), given);
    let mut measured = false;
    for (index, frame) in packet.blocks.into_iter().enumerate() {
        let alone = alone_both(frame.block_type, frame.specific, &before[frame.body]);
        let (block_type, was) = block_both(before, index).expect("an earlier block");
        let lifted = was == Reading::Dropped(Reason::D4) && measures(&given, &alone);
        let expected = if lifted { alone } else { was };
        assert_eq!(block_both(after, index), Ok((block_type, expected)));
        measured |= measures(&alone, &given);
    }
    let unmeasured = matches!(block, Block::Loss(_) | Block::Discard(_)) && !measured;
    let expected = match unmeasured {
        true => Reading::Dropped(Reason::D4),
        false => given,
    };
    assert_eq!(block_both(after, count), Ok((new[0], expected)));
}

/// Whether `block` is a measurement for the source of `summary`, a 17 or 18.
fn measures(block: &Reading, summary: &Reading) -> bool {
    let source = match summary {
        Reading::Typed(Block::Loss(loss)) => loss.source,
        Reading::Typed(Block::Discard(discard)) => discard.source,
        _ => return false,
    };
    matches!(block, Reading::Typed(Block::Measurement(block)) if block.source == source)
}

/// The size that the length field of the packet at the front gives.
pub fn front_size(buffer: &[u8]) -> usize {
    4 * (usize::from(u16::from_be_bytes([buffer[2], buffer[3]])) + 1)
}

/// `packet` at the front of a buffer with `room` more bytes, which hold a pattern.
pub fn with_room(packet: &[u8], room: usize) -> Vec<u8> {
    let mut buffer = pattern(packet.len() + room);
    buffer[..packet.len()].copy_from_slice(packet);
    buffer
}

/// How many bytes a block takes, its first word among them.
pub fn bytes_of(block: &Block) -> usize {
    match block {
        Block::Measurement(_) => 32,
        Block::Loss(_) => 16,
        Block::Discard(_) | Block::Effective(_) => 12,
        Block::TransportStream(_) => 48,
    }
}

/// Whether a block may be written, in the words of refusal 16.
pub fn writable(block: &Block) -> bool {
    let (flag, rates) = match block {
        Block::Loss(loss) => (loss.flag, [loss.burst_rate, loss.gap_rate]),
        Block::Discard(discard) => (discard.flag, [discard.burst_rate, discard.gap_rate]),
        _ => return true,
    };
    matches!(flag, 1..=3) && !rates.iter().any(|rate| (32_769..=65_534).contains(rate))
}

/// A block of each kind for `source`, every field different from its neighbours.
pub fn one_of_each(source: u32) -> [Block; 5] {
    [
        Block::Measurement(Measurement {
            source,
            first: 0x1112,
            extended_first: 0x1314_1516,
            extended_last: 0x1718_191A,
            interval: 0x1B1C_1D1E,
            seconds: 0x1F20_2122,
            fraction: 0x2324_2526,
        }),
        Block::Loss(Loss {
            flag: 2,
            source,
            burst_rate: 0x3132,
            gap_rate: 0x3334,
            mean: 0x3536,
            variance: 0x3738,
        }),
        Block::Discard(Discard {
            flag: 3,
            source,
            burst_rate: 0x4142,
            gap_rate: 0x4344,
        }),
        Block::Effective(Effective {
            source,
            index: 0x5152,
        }),
        Block::TransportStream(TransportStream {
            source,
            begin: 0x6162,
            end: 0x6364,
            streams: 0x6566_6768,
            counts: [1, 2, 3, 4, 5, 6, 7, 8].map(|count| 0x7071_7200 + count),
        }),
    ]
}

/// A block of any kind, its fields often at their limits; about a third of the blocks 17
/// and 18 may not be written.
pub fn random_typed(random: &mut Random, sources: &[u32]) -> Block {
    let block_type = random.one_of(&[14, 17, 17, 18, 240, 241]);
    random_kind(random, block_type, sources)
}

/// The same, of a listed type.
pub fn random_kind(random: &mut Random, block_type: u8, sources: &[u32]) -> Block {
    let source = random.one_of(sources);
    match block_type {
        14 => Block::Measurement(Measurement {
            source,
            first: half(random),
            extended_first: word(random),
            extended_last: word(random),
            interval: word(random),
            seconds: word(random),
            fraction: word(random),
        }),
        17 => Block::Loss(Loss {
            flag: flag(random),
            source,
            burst_rate: random.one_of(&RATES),
            gap_rate: random.one_of(&RATES),
            mean: half(random),
            variance: half(random),
        }),
        18 => Block::Discard(Discard {
            flag: flag(random),
            source,
            burst_rate: random.one_of(&RATES),
            gap_rate: random.one_of(&RATES),
        }),
        240 => Block::Effective(Effective {
            source,
            index: half(random),
        }),
        241 => Block::TransportStream(TransportStream {
            source,
            begin: half(random),
            end: half(random),
            streams: word(random),
            counts: [(); 8].map(|()| word(random)),
        }),
        other => unreachable!("type {other} is not listed"),
    }
}

/// One to three sources that blocks share.
pub fn random_sources(random: &mut Random) -> Vec<u32> {
    let count = 1 + random.below(3);
    (0..count).map(|_| random.one_of(&SOURCES)).collect()
}

/// An interval flag: mostly a good one, else one that a cut to two bits might let pass.
fn flag(random: &mut Random) -> u8 {
    match random.below(10) {
        0 => random.one_of(&[0, 4, 5, 64, 128, 192, 255]),
        _ => 1 + random.below(3) as u8,
    }
}

fn half(random: &mut Random) -> u16 {
    let any = random.draw() as u16;
    random.one_of(&[0, 1, 255, 256, 32_768, 65_533, 65_534, 65_535, any, any])
}

fn word(random: &mut Random) -> u32 {
    let any = random.draw() as u32;
    random.one_of(&[0, 1, 0xFFFF, 0x1_0000, 1 << 31, u32::MAX, any, any])
}

/// The independent block in the library's words.
pub fn library_block(block: &Block) -> library::Block {
    match *block {
        Block::Measurement(block) => library::Block::Measurement(library::Measurement {
            source: block.source,
            first: block.first,
            extended_first: block.extended_first,
            extended_last: block.extended_last,
            interval: block.interval,
            seconds: block.seconds,
            fraction: block.fraction,
        }),
        Block::Loss(block) => library::Block::Loss(library::Loss {
            flag: block.flag,
            source: block.source,
            burst_rate: Rate(block.burst_rate),
            gap_rate: Rate(block.gap_rate),
            mean: Figure(block.mean),
            variance: Figure(block.variance),
        }),
        Block::Discard(block) => library::Block::Discard(library::Discard {
            flag: block.flag,
            source: block.source,
            burst_rate: Rate(block.burst_rate),
            gap_rate: Rate(block.gap_rate),
        }),
        Block::Effective(block) => library::Block::Effective(library::Effective {
            source: block.source,
            index: EffectiveIndex(block.index),
        }),
        Block::TransportStream(block) => library_stream(&block),
    }
}

fn library_stream(block: &TransportStream) -> library::Block {
    library::Block::TransportStream(library::TransportStream {
        source: block.source,
        begin: block.begin,
        end: block.end,
        streams: block.streams,
        counts: block.counts,
    })
}
