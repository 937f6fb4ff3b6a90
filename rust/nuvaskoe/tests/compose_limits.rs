//! Writing at the limits of fields, headers and lengths, with both implementations.

mod support;

use independent::block::Block;
use support::{
    adding::{add_both, add_lawfully, bytes_of, library_block, new_both, one_of_each},
    answers::{self, Answer},
    compare::{compare, read_both},
    packets::{block, listed, one_block, packet, LONGEST, P12},
    pattern,
};

/// A buffer of `length` bytes with `packet` at its front and a pattern after it, or with
/// as much of the packet as there is room for.
fn buffer(packet: &[u8], length: usize) -> Vec<u8> {
    let mut buffer = pattern(length);
    let common = packet.len().min(length);
    buffer[..common].copy_from_slice(&packet[..common]);
    buffer
}

/// A 17 or 18 with this flag and these rates, the rest as in `one_of_each`.
fn summary(block_type: u8, new_flag: u8, rates: [u16; 2]) -> Block {
    let [_, mut loss, mut discard, _, _] = one_of_each(5);
    if let Block::Loss(block) = &mut loss {
        (block.flag, [block.burst_rate, block.gap_rate]) = (new_flag, rates);
    }
    if let Block::Discard(block) = &mut discard {
        (block.flag, [block.burst_rate, block.gap_rate]) = (new_flag, rates);
    }
    match block_type {
        17 => loss,
        _ => discard,
    }
}

/// Adds to a packet that has the block's measurement; 16 unless `good`.
fn add_to_measured(block: &Block, good: bool) {
    let mut buffer = buffer(&packet(1, &[listed(14, 5)]), 64);
    let expected = match good {
        true => Ok(40 + bytes_of(block)),
        false => Err((16, 0)),
    };
    assert_eq!(add_lawfully(&mut buffer, block), expected, "{block:?}");
}

#[test]
fn every_flag() {
    for block_type in [17, 18] {
        for flag in 0..=u8::MAX {
            let good = (1..=3).contains(&flag);
            add_to_measured(&summary(block_type, flag, [0, 32_768]), good);
            add_to_measured(&summary(block_type, flag, [32_769, 0]), false);
        }
    }
}

#[test]
fn every_rate() {
    for block_type in [17, 18] {
        for rate in 0..=u16::MAX {
            let good = rate <= 32_768 || rate == 65_535;
            add_to_measured(&summary(block_type, 1, [rate, 0]), good);
            add_to_measured(&summary(block_type, 3, [65_535, rate]), good);
        }
    }
}

/// Mean and variance, the index, and begin and end of block 241 are never a reason to
/// refuse.
#[test]
fn every_other_half() {
    for number in 0..=u16::MAX {
        for mut block in one_of_each(5) {
            match &mut block {
                Block::Measurement(block) => block.first = number,
                Block::Loss(block) => (block.mean, block.variance) = (number, !number),
                Block::Discard(_) => continue,
                Block::Effective(block) => block.index = number,
                Block::TransportStream(block) => (block.begin, block.end) = (number, !number),
            }
            let mut buffer = buffer(&packet(1, &[listed(14, 5)]), 100);
            assert!(add_lawfully(&mut buffer, &block).is_ok(), "{block:?}");
        }
    }
}

/// Every length field in front of 64 bytes of empty blocks: 4 where the packet would be
/// under 8 bytes or over the buffer.
#[test]
fn every_length_field() {
    for words in 0..=u16::MAX {
        let size = 4 * (usize::from(words) + 1);
        for added in one_of_each(5) {
            let mut buffer = [0; 64];
            buffer[..2].copy_from_slice(&[0x80, 207]);
            buffer[2..4].copy_from_slice(&words.to_be_bytes());
            let new_size = size + bytes_of(&added);
            let expected = match (size, new_size) {
                (..=7 | 65.., _) => Err((4, 0)),
                (_, 65..) => Err((8, 0)),
                _ => Ok(new_size),
            };
            assert_eq!(add_both(&mut buffer, &added), expected, "length {words}");
        }
    }
}

/// Every first and second byte.
#[test]
fn every_header() {
    for first in 0..=u8::MAX {
        for second in 0..=u8::MAX {
            let mut buffer = buffer(&P12, 40);
            buffer[..2].copy_from_slice(&[first, second]);
            let expected = match (first >> 6, second, first & 0x20) {
                (2, 207, 0) => Ok(32),
                (2, 207, _) => Err((5, 0)),
                (2, _, _) => Err((3, 0)),
                _ => Err((2, 0)),
            };
            assert_eq!(add_both(&mut buffer, &one_of_each(5)[3]), expected);
        }
    }
}

/// The refusals of adding, in their order.
const ORDER: [u32; 9] = [1, 2, 3, 4, 5, 6, 16, 17, 8];

/// A set of the faults that these refusals name.
struct Faults(u32);

impl Faults {
    fn has(&self, number: u32) -> bool {
        let place = ORDER.iter().position(|other| *other == number);
        self.0 >> place.expect("a refusal of adding") & 1 == 1
    }

    /// Three words below the longest packet a block 17 does not fit.
    fn size(&self) -> usize {
        if self.has(17) {
            LONGEST - 12
        } else {
            40
        }
    }

    /// The buffer's length; 16 bytes after the packet are room for a block 17.
    fn length(&self) -> usize {
        match (self.has(1), self.has(8)) {
            (true, _) => 7,
            (false, true) => self.size() + 15,
            (false, false) => self.size() + 16,
        }
    }

    /// A packet of three blocks with the faults 2, 3, 5 and 6 of the set.
    fn packet(&self) -> Vec<u8> {
        let size = self.size();
        let filler = block(1, 0, &vec![0; size - 32]);
        let mut packet = packet(7, &[listed(240, 2), filler, block(1, 0, &[0; 4])]);
        assert_eq!(packet.len(), size);
        if self.has(2) {
            packet[0] ^= 0x40;
        }
        if self.has(3) {
            packet[1] = 200;
        }
        if self.has(5) {
            packet[0] |= 0x20;
        }
        if self.has(6) {
            // Past the packet, and not past a longer buffer.
            packet[size - 5] = 2;
        }
        packet
    }

    /// Length fields: the packet's own or, for fault 4, some over the buffer or under 8 bytes.
    fn length_fields(&self) -> Vec<u16> {
        match (self.has(4), self.has(17)) {
            (false, _) => vec![(self.size() / 4 - 1) as u16],
            (true, false) => vec![0, 14, 255, 65_535],
            // No length field passes a buffer as long as this.
            (true, true) => vec![0],
        }
    }
}

/// All sets of faults: the first in order is the answer.
#[test]
fn faults_in_all_combinations() {
    for set in 0..1 << ORDER.len() {
        let faults = Faults(set);
        let (packet, size) = (faults.packet(), faults.size());
        let rate = if faults.has(16) { 32_769 } else { 32_768 };
        let first = ORDER.into_iter().find(|number| faults.has(*number));
        let expected: Answer<usize> = match first {
            None => Ok(size + 16),
            Some(6) => Err((6, size - 8)),
            Some(number) => Err((number, 0)),
        };
        for field in faults.length_fields() {
            let mut buffer = buffer(&packet, faults.length());
            buffer[2..4].copy_from_slice(&field.to_be_bytes());
            let answer = add_both(&mut buffer, &summary(17, 1, [rate, 0]));
            assert_eq!(answer, expected, "faults {set:b}, length {field}");
        }
    }
}

/// Packets that reach the longest, or would pass it by a word, in every room around what
/// they need: 17 comes before 8.
#[test]
fn up_to_the_longest_packet() {
    for added in one_of_each(5) {
        let needed = bytes_of(&added);
        for size in [
            LONGEST - needed - 4,
            LONGEST - needed,
            LONGEST - needed + 4,
            LONGEST,
        ] {
            let front = one_block(size);
            let new_size = size + needed;
            for length in [size, new_size - 1, new_size, new_size + 9] {
                let mut buffer = buffer(&front, length);
                let expected = match (new_size <= LONGEST, new_size <= length) {
                    (false, _) => Err((17, 0)),
                    (true, false) => Err((8, 0)),
                    (true, true) => Ok(new_size),
                };
                assert_eq!(add_lawfully(&mut buffer, &added), expected, "{size}");
            }
        }
    }
    let [_, loss, ..] = one_of_each(5);
    let mut full = buffer(&one_block(LONGEST), LONGEST + 100);
    assert_eq!(add_both(&mut full, &loss), Err((17, 0)));
    // 16 comes before 17, and a block past the end before both.
    assert_eq!(add_both(&mut full, &summary(17, 0, [0, 0])), Err((16, 0)));
    full[11] += 1;
    assert_eq!(add_both(&mut full, &summary(17, 0, [0, 0])), Err((6, 8)));
}

/// From a new packet to a full one, the kinds in turn, with each implementation on a
/// buffer of its own.
#[test]
fn filled_block_by_block() {
    let (_, mut ours) = new_both(9, LONGEST + 64);
    let mut theirs = ours.clone();
    let (mut size, mut count) = (8, 0);
    for added in one_of_each(5).iter().cycle() {
        let answer = answers::ours(nuvaskoe::packet::add(&mut ours, &library_block(added)));
        let independent = independent::compose::add(&mut theirs, added);
        assert_eq!(answer, answers::theirs(independent));
        if size + bytes_of(added) > LONGEST {
            assert_eq!(answer, Err((17, 0)));
            break;
        }
        (size, count) = (size + bytes_of(added), count + 1);
        assert_eq!(answer, Ok(size));
    }
    assert!(ours == theirs);
    assert!(ours[size..] == pattern(LONGEST + 64)[size..]);
    assert_eq!(read_both(&ours[..size]), Ok((9, count)));
    assert_eq!(compare(&ours[..size]), Ok((9, count)));
}
