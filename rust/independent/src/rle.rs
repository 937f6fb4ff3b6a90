//! "Read and write Loss RLE" (document 02, ticket 5): a block of type 1 turned into a trace,
//! "received or lost", and a trace written as one. Chunk by chunk, never packet by packet.

use crate::block::{self, Reading};
use crate::compose;
use crate::packet;
use crate::refusal::Refusal;
use crate::trace;
use std::mem;

/// "RFC 3611's limit" of an interval.
pub const MOST_PACKETS: usize = 65_533;

/// The packets of a vector.
const VECTOR: usize = 15;

/// The bits that say the types of four chunks, all set where the four are vectors.
const FOUR_TYPES: u64 = 0x8000_8000_8000_8000;

/// What 16 bits say.
enum Chunk {
    Null,
    Run {
        lost: bool,
        packets: usize,
    },
    /// 15 bits from the first packet down: "a 1 is a packet received, a 0 a packet lost".
    Vector(u16),
}

impl Chunk {
    #[inline]
    fn of(chunk: u16) -> Chunk {
        if chunk & 0x8000 != 0 {
            return Chunk::Vector(chunk & 0x7FFF);
        }
        if chunk == 0 {
            return Chunk::Null;
        }
        Chunk::Run {
            lost: chunk & 0x4000 == 0,
            packets: usize::from(chunk & 0x3FFF),
        }
    }
}

/// How many of `packets` packets are lost, as big-endian chunks describe them; none for "a null
/// chunk before the end, chunks cover too little, or a chunk other than null follows the end".
/// A lone last byte is no chunk.
#[inline]
pub fn count(chunks: &[u8], packets: usize) -> Option<usize> {
    let mut chunks = &chunks[..chunks.len() & !1];
    let (mut left, mut lost) = (packets, 0);
    while left > 0 {
        if left >= 4 * VECTOR {
            if let Some((losses, rest)) = four_vectors(chunks) {
                left -= 4 * VECTOR;
                lost += losses;
                chunks = rest;
                continue;
            }
        }
        let (chunk, rest) = chunks.split_first_chunk()?;
        let (covered, losses) = match Chunk::of(u16::from_be_bytes(*chunk)) {
            Chunk::Null => return None,
            // "A run past the end counts up to the end."
            Chunk::Run { lost, packets } => {
                let covered = packets.min(left);
                (covered, if lost { covered } else { 0 })
            }
            // "The last vector is judged only up to the end of the interval."
            Chunk::Vector(bits) => {
                let covered = VECTOR.min(left);
                let received = (bits >> (VECTOR - covered)).count_ones() as usize;
                (covered, covered - received)
            }
        };
        left -= covered;
        lost += losses;
        chunks = rest;
    }
    // All bytes together are looked at faster than one after another.
    let nulls = chunks.iter().fold(0, |all, byte| all | byte) == 0;
    nulls.then_some(lost)
}

/// The losses of the first four chunks, if all are vectors, and the chunks after them.
#[inline]
fn four_vectors(chunks: &[u8]) -> Option<(usize, &[u8])> {
    let (bytes, rest) = chunks.split_first_chunk()?;
    let four = u64::from_be_bytes(*bytes);
    // The types are ones, so that every zero is a loss.
    (four & FOUR_TYPES == FOUR_TYPES).then(|| (four.count_zeros() as usize, rest))
}

/// Writes the trace of block `index`, 0 received and 1 lost, at the front of `out` and answers
/// its number of packets. Bytes past it keep what they held, and all do where refused.
/// Refusals in order: 1 to 7, "7 too if that block is not a good type 1", then 8.
#[inline]
pub fn read_out(packet: &[u8], index: usize, out: &mut [u8]) -> Result<usize, Refusal> {
    let frame = packet::find(packet, index)?;
    let body = &packet[frame.body];
    let Reading::Rle(rle) = block::read(frame.block_type, frame.specific, body) else {
        return Err(Refusal::NO_SUCH_BLOCK);
    };
    let packets = usize::from(rle.packets());
    let trace = out.get_mut(..packets).ok_or(Refusal::BUFFER_SHORT)?;
    expand(&body[8..], trace);
    Ok(packets)
}

/// Writes a trace from chunks that `count` finds good for so many packets.
fn expand(chunks: &[u8], mut trace: &mut [u8]) {
    for chunk in chunks.chunks_exact(2) {
        match Chunk::of(block::half(chunk, 0)) {
            // Only after the end.
            Chunk::Null => return,
            Chunk::Run { lost, packets } => {
                let covered = packets.min(trace.len());
                let run;
                (run, trace) = mem::take(&mut trace).split_at_mut(covered);
                run.fill(u8::from(lost));
            }
            Chunk::Vector(bits) if trace.len() >= VECTOR => {
                let vector;
                (vector, trace) = mem::take(&mut trace).split_at_mut(VECTOR);
                expand_vector(bits, vector);
            }
            // The last one.
            Chunk::Vector(bits) => {
                let mut vector = [0; VECTOR];
                expand_vector(bits, &mut vector);
                trace.copy_from_slice(&vector[..trace.len()]);
                return;
            }
        }
    }
}

/// Writes the 15 packets of a vector as its first eight and its last eight, which share one.
fn expand_vector(bits: u16, vector: &mut [u8]) {
    vector[..8].copy_from_slice(&EIGHT[usize::from(bits >> 7)]);
    vector[7..].copy_from_slice(&EIGHT[usize::from(bits & 0xFF)]);
}

/// The trace bytes of every eight bits.
static EIGHT: [[u8; 8]; 256] = {
    let mut table = [[0; 8]; 256];
    let mut bits = 0;
    while bits < 256 {
        let mut packet = 0;
        while packet < 8 {
            let received = bits >> (7 - packet) & 1 == 1;
            table[bits][packet] = !received as u8;
            packet += 1;
        }
        bits += 1;
    }
    table
};

/// Adds a block of type 1 with `trace` to the packet at the front of `buffer` and answers the
/// packet's new size in bytes: "vector chunks alone, unused bits zero, and a null chunk where the
/// count is odd". Only the length field and the new bytes change, and nothing where refused.
/// Refusals in order: the packet's own, then 10, 9, 17, 8.
#[inline]
pub fn add(buffer: &mut [u8], source: u32, begin: u16, trace: &[u8]) -> Result<usize, Refusal> {
    let size = compose::held(buffer)?;
    // 10 for "a trace empty or over 65,533", then 9 "with 2 counted as bad".
    trace::check_up_to(trace, MOST_PACKETS, 1)?;
    let vectors = trace.len().div_ceil(VECTOR);
    // Source, begin and end, then two chunks a word.
    let words = 2 + vectors.div_ceil(2);
    let new_size = compose::grow(buffer, size, 4 + 4 * words)?;
    let end = begin.wrapping_add(trace.len() as u16);
    let (fixed, chunks) = buffer[size..new_size].split_at_mut(12);
    fixed[..2].copy_from_slice(&[1, 0]);
    fixed[2..4].copy_from_slice(&(words as u16).to_be_bytes());
    fixed[4..8].copy_from_slice(&source.to_be_bytes());
    fixed[8..10].copy_from_slice(&begin.to_be_bytes());
    fixed[10..].copy_from_slice(&end.to_be_bytes());
    let (chunks, null) = chunks.split_at_mut(2 * vectors);
    for (packets, chunk) in trace.chunks(VECTOR).zip(chunks.chunks_exact_mut(2)) {
        let vector = match packets.try_into() {
            Ok(packets) => vector(packets),
            Err(_) => vector(&padded(packets)),
        };
        chunk.copy_from_slice(&vector.to_be_bytes());
    }
    null.fill(0);
    Ok(new_size)
}

/// The last packets with lost ones after them: "unused bits zero".
fn padded(packets: &[u8]) -> [u8; VECTOR] {
    let mut padded = [1; VECTOR];
    padded[..packets.len()].copy_from_slice(packets);
    padded
}

/// The vector chunk of packets that are received or lost.
#[inline]
fn vector(packets: &[u8; VECTOR]) -> u16 {
    // The first eight and the last eight, which share one.
    let lost = eight_bits(&packets[..8]) << 7 | eight_bits(&packets[7..]);
    // The bit above the 15, which says the type, is a 1 like those of received packets.
    !lost
}

/// Eight bytes, each 0 or 1, as eight bits.
#[inline]
fn eight_bits(bytes: &[u8]) -> u16 {
    let bytes = u64::from_be_bytes(bytes.try_into().expect("eight bytes"));
    // Adds the number moved up by 7, 14 and so on to 56. The top byte then has bit 0, 8 and so
    // on to 56 of the number, in that order, and no two bits meet, so that none carries.
    (bytes.wrapping_mul(0x0102_0408_1020_4080) >> 56) as u16
}

#[cfg(test)]
mod tests;
