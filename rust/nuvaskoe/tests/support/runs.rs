//! The library's reading and writing of Loss RLE beside the independent ones, and what holds of
//! every trace that is read out and of every block added.

use super::{
    adding::front_size,
    answers::{ours, theirs, written, Answer},
    compare::{alone_both, block_both, read_both, shown},
    drawn_runs::written_block,
    pattern, raw,
};
use independent::{
    block::{LossRle, Reading},
    rle,
};

/// Reads a trace out with both into equal buffers of `room` bytes, and gives the answer and the
/// buffer on which they agree. Bytes after the trace, and all where refused, keep what they held.
pub fn rle_both(packet: &[u8], index: usize, room: usize) -> (Answer<usize>, Vec<u8>) {
    let before = pattern(room);
    let (mut library_out, mut independent_out) = (before.clone(), before.clone());
    let mut whole_out = before.clone();
    let whole = raw::packet_rle(packet, index, &mut whole_out);
    let library = ours(nuvaskoe::packet::rle(packet, index, &mut library_out));
    let independent = theirs(rle::read_out(packet, index, &mut independent_out));
    let input = || format!("block {index} of {}, into {room} bytes", shown(packet));
    assert_eq!(library, independent, "{}", input());
    assert!(library_out == independent_out, "{}", input());
    assert_eq!(whole, written(&independent), "{}", input());
    assert!(whole_out == independent_out, "{}", input());
    let size = library.unwrap_or(0);
    assert!(library_out[size..] == before[size..], "{}", input());
    check_trace(packet, index, library, &library_out);
    (library, library_out)
}

/// The trace has as many packets as the block's interval, and as many ones as it says are lost. By
/// the call that makes room itself it is the same.
fn check_trace(packet: &[u8], index: usize, answer: Answer<usize>, out: &[u8]) {
    let input = || format!("block {index} of {}", shown(packet));
    let own = ours(nuvaskoe::packet::rle_trace(packet, index));
    match (answer, block_both(packet, index)) {
        (Ok(size), Ok((1, Reading::Rle(block)))) => {
            let trace = &out[..size];
            assert_eq!(size, usize::from(block.packets()), "{}", input());
            assert_eq!(lost(trace), usize::from(block.lost), "{}", input());
            assert!(trace.iter().all(|packet| *packet <= 1), "{}", input());
            assert!(own.as_deref() == Ok(trace), "{}", input());
        }
        (Err((8, 0)), Ok((1, Reading::Rle(block)))) => {
            assert!(out.len() < usize::from(block.packets()), "{}", input());
            assert!(own.is_ok_and(|trace| trace.len() > out.len()));
        }
        // Also where the block is there and no good type 1.
        (Err(refusal), read) => {
            assert_eq!(refusal, read.err().unwrap_or((7, 0)), "{}", input());
            assert_eq!(own, Err(refusal), "{}", input());
        }
        other => panic!("{other:?}, {}", input()),
    }
}

/// The lost packets of a trace.
pub fn lost(trace: &[u8]) -> usize {
    trace.iter().filter(|packet| **packet == 1).count()
}

/// The bytes of a block on so many packets.
pub fn bytes_of_rle(packets: usize) -> usize {
    12 + 4 * packets.div_ceil(30)
}

/// Adds `trace` with both to equal buffers, and gives the answer on which they agree; `buffer`
/// then holds what both left. Only the length field and the new bytes differ, and these are
/// vectors alone.
pub fn add_rle_both(buffer: &mut [u8], source: u32, begin: u16, trace: &[u8]) -> Answer<usize> {
    let before = buffer.to_vec();
    let (mut whole_out, mut independent_out) = (before.clone(), before.clone());
    let whole = raw::packet_add_rle(&mut whole_out, source, begin, trace);
    let library = ours(nuvaskoe::packet::add_rle(buffer, source, begin, trace));
    let independent = theirs(rle::add(&mut independent_out, source, begin, trace));
    let input = || {
        let (trace, before) = (shown(trace), shown(&before));
        format!("source {source}, begin {begin}, trace of {trace} to {before}")
    };
    assert_eq!(library, independent, "{}", input());
    assert_eq!(whole, written(&independent), "{}", input());
    assert!(whole_out == independent_out, "{}", input());
    assert!(buffer == independent_out, "{}", input());
    match library {
        Err(_) => assert!(buffer == before, "{}", input()),
        Ok(size) => {
            let start = front_size(&before);
            assert_eq!(size, front_size(buffer), "{}", input());
            assert_eq!(size, start + bytes_of_rle(trace.len()), "{}", input());
            assert_eq!(buffer[..2], before[..2], "{}", input());
            assert!(buffer[4..start] == before[4..start], "{}", input());
            let added = written_block(source, begin, trace);
            assert!(buffer[start..size] == added, "{}", input());
            assert!(buffer[size..] == before[size..], "{}", input());
        }
    }
    library
}

/// The same and, where the block was added, the laws of reading the packet afterwards.
pub fn add_rle_lawfully(buffer: &mut [u8], source: u32, begin: u16, trace: &[u8]) -> Answer<usize> {
    let before = buffer.to_vec();
    let answer = add_rle_both(buffer, source, begin, trace);
    if let Ok(size) = answer {
        let given = LossRle {
            source,
            begin,
            end: begin.wrapping_add(trace.len() as u16),
            lost: lost(trace) as u16,
        };
        check_laws(
            &before[..front_size(&before)],
            &buffer[..size],
            given,
            trace,
        );
    }
    answer
}

/// `after` is `before` and one block more, reads so, and gives the trace back.
fn check_laws(before: &[u8], after: &[u8], given: LossRle, trace: &[u8]) {
    let packet = independent::packet::judge(before).expect("a good packet before");
    let count = packet.blocks.len();
    assert_eq!(read_both(after), Ok((packet.sender, count + 1)));
    // Of many blocks, some from all parts.
    for index in (0..count).step_by(1 + count / 64) {
        assert_eq!(block_both(after, index), block_both(before, index));
    }
    let new = &after[before.len()..];
    assert_eq!(alone_both(new[0], new[1], &new[4..]), Reading::Rle(given));
    assert_eq!(block_both(after, count), Ok((1, Reading::Rle(given))));
    let (answer, out) = rle_both(after, count, trace.len());
    assert_eq!(answer, Ok(trace.len()));
    assert!(out == trace, "{} from {}", shown(&out), shown(after));
}
