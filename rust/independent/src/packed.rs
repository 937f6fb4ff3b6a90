//! "Pack the trace" (document 02, ticket 6): "64-bit words, packet i in word i / 64 at bit
//! i modulo 64", "bits past the end zero". By ticket 7 they have "a one for each packet counted by
//! the choice" they were packed by, and do not keep the choice. The two conversions take eight
//! packets at a time; effective loss and the plan take the words one bit after another.

use crate::effective::{self, EffectiveLoss};
use crate::refusal::Refusal;
use crate::trace::{self, Event, MOST_PACKETS};

/// The packets of a word.
const WORD: usize = 64;
/// The lowest bit of each of eight bytes.
const LOWEST: u64 = 0x0101_0101_0101_0101;

/// Writes the words of `trace` at the front of `out` and answers their number. Words past them
/// keep what they held, and all do where refused.
/// Refusals in order: 10, 9 (ticket 7: "packing no longer refuses 2"), 8.
#[inline]
pub fn pack(trace: &[u8], event: Event, out: &mut [u64]) -> Result<usize, Refusal> {
    trace::check(trace)?;
    let needed = trace.len().div_ceil(WORD);
    let words = out.get_mut(..needed).ok_or(Refusal::BUFFER_SHORT)?;
    // Of the bytes 0, 1 and 2 a lost packet's has the lowest bit, a discarded one's the next.
    match event {
        Event::Lost => fill(trace, words, |eight| eight),
        Event::Discarded => fill(trace, words, |eight| eight >> 1),
        Event::Either => fill(trace, words, |eight| eight | eight >> 1),
    }
    Ok(needed)
}

/// Writes the words of packets of which `counted` gives, eight by eight, the lowest bit of each
/// byte: one where the packet counts.
#[inline]
fn fill(trace: &[u8], words: &mut [u64], counted: impl Fn(u64) -> u64) {
    for (packets, word) in trace.chunks(WORD).zip(words) {
        *word = match packets.try_into() {
            Ok(packets) => gather(packets, &counted),
            Err(_) => gather(&padded(packets), &counted),
        };
    }
}

/// The last packets with received ones after them: "bits past the end zero".
fn padded(packets: &[u8]) -> [u8; WORD] {
    let mut padded = [0; WORD];
    padded[..packets.len()].copy_from_slice(packets);
    padded
}

/// The word of 64 packets.
#[inline]
fn gather(packets: &[u8; WORD], counted: impl Fn(u64) -> u64) -> u64 {
    packets.chunks_exact(8).fold(0, |word, eight| {
        let eight = u64::from_le_bytes(eight.try_into().expect("eight bytes"));
        let eight = counted(eight) & LOWEST;
        // Adds the number moved up by 7, 14 and so on to 56. The top byte then has bit 0, 8 and
        // so on to 56 of the number, the first lowest, and no two bits meet, so that none carries.
        let bits = eight.wrapping_mul(0x0102_0408_1020_4080) >> 56;
        word >> 8 | bits << 56
    })
}

/// Writes the trace of `packets` packets, 1 for each one and 0 for the rest, at the front of `out`
/// and answers their number. Bytes past them keep what they held, and all do where refused.
/// Refusals in order: 10, 8 for the words, 9, 8 for the room.
#[inline]
pub fn unpack(words: &[u64], packets: usize, out: &mut [u8]) -> Result<usize, Refusal> {
    let words = needed(words, packets)?;
    let trace = out.get_mut(..packets).ok_or(Refusal::BUFFER_SHORT)?;
    for (word, packets) in words.iter().zip(trace.chunks_mut(WORD)) {
        if packets.len() == WORD {
            spread(*word, packets);
        } else {
            let mut last = [0; WORD];
            spread(*word, &mut last);
            packets.copy_from_slice(&last[..packets.len()]);
        }
    }
    Ok(packets)
}

/// Writes the 64 packets of a word.
#[inline]
fn spread(word: u64, packets: &mut [u8]) {
    let eights = packets.chunks_exact_mut(8);
    for (bits, eight) in word.to_le_bytes().into_iter().zip(eights) {
        eight.copy_from_slice(&EIGHT[usize::from(bits)]);
    }
}

/// The trace bytes of every eight bits, the lowest bit first.
static EIGHT: [[u8; 8]; 256] = {
    let mut table = [[0; 8]; 256];
    let mut bits = 0;
    while bits < 256 {
        let mut packet = 0;
        while packet < 8 {
            table[bits][packet] = (bits >> packet & 1) as u8;
            packet += 1;
        }
        bits += 1;
    }
    table
};

/// The effective loss of the trace of `packets` packets in `words`, which counts its ones, those of
/// a batch carried on to the next. Refusals in order: 15, 10, 8, 9, 14.
pub fn packed_loss(
    words: &[u64],
    packets: usize,
    batch: u64,
    threshold: u64,
) -> Result<EffectiveLoss, Refusal> {
    let words = check(words, packets, batch, threshold)?;
    let batch = batch as usize;
    let one = |packet| bit(words, packet) as i32;
    let changes = (batch..packets).map(|come| one(come) - one(come - batch));
    let first = (0..batch).map(one).sum();
    Ok(effective::carried_on(first, changes, threshold as i32))
}

/// Writes the smallest plan of the trace of `packets` packets in `words` at the front of `out`,
/// "still written a byte a packet", and answers its count of marks.
/// Refusals in order: 15, 10, 8 for the words, 9, 14, 8 for the room.
pub fn packed_plan(
    words: &[u64],
    packets: usize,
    batch: u64,
    threshold: u64,
    out: &mut [u8],
) -> Result<usize, Refusal> {
    let words = check(words, packets, batch, threshold)?;
    let plan = out.get_mut(..packets).ok_or(Refusal::BUFFER_SHORT)?;
    let batch = batch as usize;
    let mut marks = 0;
    // The ones without a mark among the B − 1 packets before this one.
    let mut left = 0;
    for packet in 0..packets {
        if let Some(gone) = packet.checked_sub(batch) {
            left -= bit(words, gone) - u64::from(plan[gone]);
        }
        let one = bit(words, packet);
        // One more would put their batch over the threshold.
        let mark = if left == threshold { one } else { 0 };
        plan[packet] = mark as u8;
        marks += mark as usize;
        left += one - mark;
    }
    Ok(marks)
}

/// The needed words of a call that takes B and T. Refuses with 15, 10, 8, 9, 14.
fn check(words: &[u64], packets: usize, batch: u64, threshold: u64) -> Result<&[u64], Refusal> {
    trace::check_batch_settings(batch, threshold)?;
    let words = needed(words, packets)?;
    if batch > packets as u64 {
        return Err(Refusal::BATCH_LONG);
    }
    Ok(words)
}

/// The words up to the last needed one: those past it "are neither read nor changed".
/// Refuses with 10, 8 "for a word slice too short to read", then 9 "at the index, counted on from
/// the packets, of the first nonzero bit past the end in the last needed word".
fn needed(words: &[u64], packets: usize) -> Result<&[u64], Refusal> {
    if packets == 0 || packets > MOST_PACKETS {
        return Err(Refusal::TRACE_LENGTH);
    }
    let needed = packets.div_ceil(WORD);
    let words = words.get(..needed).ok_or(Refusal::BUFFER_SHORT)?;
    let past_the_end = match packets % WORD {
        0 => 0,
        end => words[needed - 1] >> end,
    };
    if past_the_end != 0 {
        let zeros = past_the_end.trailing_zeros() as usize;
        return Err(Refusal::trace_byte(packets + zeros));
    }
    Ok(words)
}

/// The bit of a packet.
#[inline]
fn bit(words: &[u64], packet: usize) -> u64 {
    words[packet / WORD] >> (packet % WORD) & 1
}

#[cfg(test)]
mod tests;
