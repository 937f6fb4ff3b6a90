//! "Compare two reports" (document 02, ticket 1): "every differing field of their two packets,
//! blocks paired by index". Refusals in order: 1 to 6 of the first packet, 1 to 6 of the
//! second, then 8.

use crate::block::{is_rate, word};
use crate::packet;
use crate::refusal::Refusal;
use std::array;

/// "Five an entry: kind, block, field, both readings, unused ones 0."
type Entry = [u32; 5];

const SENDER: u32 = 0;
const FIELD: u32 = 1;
/// "another type, typed against dropped, or unknown or dropped with other bytes, header
/// included"; and, by ticket 5, a type 1 with other bytes, good or dropped
const WHOLE: u32 = 2;
const ONLY_FIRST: u32 = 3;
const ONLY_SECOND: u32 = 4;

/// Fills the front of `out` with the entries, "five an entry", and answers how many entries.
/// Numbers past the last entry keep what they held, and all do where refused.
pub fn compare(first: &[u8], second: &[u8], out: &mut [u32]) -> Result<usize, Refusal> {
    let pair = Pair::judge(first, second)?;
    // No block has more entries for its bytes than a 17, six for 16, and the header has one for
    // 8: a list with room for so many is filled at once, any other when its room is known to do.
    let most = 3 * first.len().max(second.len()) / 8;
    if out.len() >= 5 * most {
        let mut count = 0;
        pair.entries(|entry| {
            out[5 * count..][..5].copy_from_slice(&entry);
            count += 1;
        });
        return Ok(count);
    }
    let mut list = Vec::with_capacity(out.len() / 5);
    pair.entries(|entry| list.push(entry));
    let numbers = list.as_flattened();
    let room = out.get_mut(..numbers.len());
    room.ok_or(Refusal::BUFFER_SHORT)?.copy_from_slice(numbers);
    Ok(list.len())
}

/// A good packet, and the sources that have a measurement in it.
struct Report<'a> {
    packet: &'a [u8],
    sources: Vec<u32>,
}

impl<'a> Report<'a> {
    fn judge(packet: &'a [u8]) -> Result<Report<'a>, Refusal> {
        let sources = packet::sources(packet)?;
        Ok(Report { packet, sources })
    }

    fn sender(&self) -> u32 {
        word(self.packet, 4)
    }

    fn measures(&self, source: u32) -> bool {
        self.sources.binary_search(&source).is_ok()
    }
}

/// Two good packets.
struct Pair<'a> {
    first: Report<'a>,
    second: Report<'a>,
    /// Both measure the same sources, so that the same bytes read alike in both.
    alike: bool,
}

impl<'a> Pair<'a> {
    fn judge(first: &'a [u8], second: &'a [u8]) -> Result<Pair<'a>, Refusal> {
        let (first, second) = (Report::judge(first)?, Report::judge(second)?);
        let alike = first.sources == second.sources;
        Ok(Pair {
            first,
            second,
            alike,
        })
    }

    /// "The sender comes first, then blocks, then fields in layout order."
    fn entries(&self, mut each: impl FnMut(Entry)) {
        let (sender, other) = (self.first.sender(), self.second.sender());
        if sender != other {
            each([SENDER, 0, 0, sender, other]);
        }
        let mut blocks = packet::blocks(self.first.packet);
        let mut others = packet::blocks(self.second.packet);
        for index in 0.. {
            match (blocks.next(), others.next()) {
                (Some(block), Some(other)) => self.of_block(index, block, other, &mut each),
                (Some(_), None) => each(whole(ONLY_FIRST, index)),
                (None, Some(_)) => each(whole(ONLY_SECOND, index)),
                (None, None) => break,
            }
        }
    }

    /// The entries of a block that both packets have.
    fn of_block(&self, index: u32, block: &[u8], other: &[u8], each: &mut impl FnMut(Entry)) {
        // A type is typed with one length only, and the header counts among the bytes.
        if block[0] != other[0] || block.len() != other.len() {
            return each(whole(WHOLE, index));
        }
        match (block[0], block.len() / 4 - 1) {
            (14, 7) => of_fields(index, measurement(block), measurement(other), each),
            (17, 3) => self.of_rated(index, block, other, loss, each),
            (18, 2) => self.of_rated(index, block, other, discard, each),
            (240, 2) => of_fields(index, effective_loss(block), effective_loss(other), each),
            (241, 11) => of_fields(
                index,
                transport_stream(block),
                transport_stream(other),
                each,
            ),
            // Both unknown, both D1, or both of type 1, which its own bytes settle.
            _ if block == other => {}
            _ => each(whole(WHOLE, index)),
        }
    }

    /// The entries of two 17s or two 18s of the right length: typed, or D2, D3 or D4.
    fn of_rated<const FIELDS: usize>(
        &self,
        index: u32,
        block: &[u8],
        other: &[u8],
        fields: impl Fn(&[u8]) -> [u32; FIELDS],
        each: &mut impl FnMut(Entry),
    ) {
        let same = block == other;
        if same && self.alike {
            return;
        }
        let (block, other) = (fields(block), fields(other));
        // Where only one is dropped by itself the bytes differ, and D4 changes nothing.
        let typed = match (is_typed(&block), is_typed(&other)) {
            (true, true) => self.measure(block[1], other[1]),
            by_themselves => by_themselves,
        };
        match typed {
            (true, true) => of_fields(index, block, other, each),
            (false, false) if same => {}
            _ => each(whole(WHOLE, index)),
        }
    }

    /// Whether the first packet measures `source`, and the second `other`.
    fn measure(&self, source: u32, other: u32) -> (bool, bool) {
        let first = self.first.measures(source);
        if self.alike && source == other {
            return (first, first);
        }
        (first, self.second.measures(other))
    }
}

/// An entry without field and readings.
fn whole(kind: u32, index: u32) -> Entry {
    [kind, index, 0, 0, 0]
}

/// The entries of two typed blocks of one type.
fn of_fields<const FIELDS: usize>(
    index: u32,
    block: [u32; FIELDS],
    other: [u32; FIELDS],
    each: &mut impl FnMut(Entry),
) {
    for (field, (reading, other)) in (0..).zip(block.into_iter().zip(other)) {
        if reading != other {
            each([FIELD, index, field, reading, other]);
        }
    }
}

/// Whether a 17 or 18 of these fields is typed, read by itself.
fn is_typed(fields: &[u32]) -> bool {
    fields[0] != 0 && is_rate(fields[2] as u16) && is_rate(fields[3] as u16)
}

// The fields "in layout order from 0, the flag first, reserved bits left out".

fn measurement(block: &[u8]) -> [u32; 7] {
    let [_, source, first, extended_first, extended_last, interval, seconds, fraction] =
        words(block);
    [
        source,
        low(first),
        extended_first,
        extended_last,
        interval,
        seconds,
        fraction,
    ]
}

fn loss(block: &[u8]) -> [u32; 6] {
    let [header, source, rates, bursts] = words(block);
    [
        flag(header),
        source,
        high(rates),
        low(rates),
        high(bursts),
        low(bursts),
    ]
}

fn discard(block: &[u8]) -> [u32; 4] {
    let [header, source, rates] = words(block);
    [flag(header), source, high(rates), low(rates)]
}

fn effective_loss(block: &[u8]) -> [u32; 2] {
    let [_, source, index] = words(block);
    [source, high(index)]
}

fn transport_stream(block: &[u8]) -> [u32; 12] {
    let [_, source, interval, streams, c0, c1, c2, c3, c4, c5, c6, c7] = words(block);
    let (begin, end) = (high(interval), low(interval));
    [source, begin, end, streams, c0, c1, c2, c3, c4, c5, c6, c7]
}

/// The words of a block, its first included.
fn words<const WORDS: usize>(block: &[u8]) -> [u32; WORDS] {
    let block = &block[..4 * WORDS];
    array::from_fn(|index| word(block, 4 * index))
}

/// "The top two bits of the type-specific byte", the second byte of a block's first word.
fn flag(header: u32) -> u32 {
    header >> 22 & 0b11
}

/// The first of two 16-bit numbers in one word.
fn high(word: u32) -> u32 {
    word >> 16
}

/// The second.
fn low(word: u32) -> u32 {
    word & 0xFFFF
}

#[cfg(test)]
mod tests;
