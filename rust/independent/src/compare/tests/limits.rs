//! Refusals, room, the largest packets, and many packets that look random.

use super::*;

/// A packet for each of the packets' own refusals.
fn refused_packets() -> [(Vec<u8>, Refusal); 6] {
    let good = report(1, &[block(1, 0, &[]), block(2, 0, &[0])]);
    [
        (good[..7].to_vec(), Refusal::PACKET_SHORT),
        (turned(&good, 0, 0x40), Refusal::VERSION),
        (turned(&good, 1, 0x01), Refusal::PACKET_TYPE),
        (turned(&good, 3, 0x01), Refusal::PACKET_LENGTH),
        (turned(&good, 0, 0x20), Refusal::PADDING),
        (turned(&good, 15, 0x02), Refusal::block_past_end(12)),
    ]
}

/// The first packet's refusal, else the second's, else 8; and nothing is written.
#[test]
fn refusals_in_order() {
    let good = report(2, &[sourced(240, 1)]);
    for length in [0, 4, 5, 100, 1_000] {
        for (first, refusal) in refused_packets() {
            let refused = (Err(refusal), vec![7; length]);
            assert_eq!(lent(&first, &good, length), refused);
            assert_eq!(lent(&good, &first, length), refused);
            for (second, _) in refused_packets() {
                assert_eq!(lent(&first, &second, length), refused);
            }
        }
    }
    let refused = (Err(Refusal::BUFFER_SHORT), vec![7; 4]);
    assert_eq!(lent(&good, &report(1, &[sourced(240, 1)]), 4), refused);
    assert_eq!(lent(&good, &good, 0), (Ok(0), vec![]));
}

/// Lists of every length: five numbers an entry and no more are needed, a number past the last
/// entry keeps what it held.
#[test]
fn every_length_of_the_list() {
    let measured = [sourced(14, 5), sourced(14, 6)].concat();
    let of_source = |source| {
        let blocks = [sourced(17, source), measured.clone(), sourced(241, 3)];
        report(source, &blocks)
    };
    let expected = [[0, 0, 0, 5, 6], [1, 0, 1, 5, 6]];
    let numbers = expected.as_flattened();
    for length in 0..600 {
        let (answer, out) = lent(&of_source(5), &of_source(6), length);
        if length < 10 {
            assert_eq!((answer, out), (Err(Refusal::BUFFER_SHORT), vec![7; length]));
        } else {
            assert_eq!(answer, Ok(2));
            assert_eq!(out[..10], *numbers);
            assert_eq!(out[10..], vec![7; length - 10]);
        }
    }
}

/// As many entries as a length of packet can have: 17s that differ in every field, and the two
/// 14s that they need.
#[test]
fn the_most_entries() {
    for count in [0, 1, 2, 100, 4_000] {
        let measured = [sourced(14, 5), sourced(14, 6)].concat();
        let losses = |specific, words: &[u32]| {
            let losses = block(17, specific, words).repeat(count);
            report(words[0], &[losses, measured.clone()])
        };
        let first = losses(0x40, &[5, 0x0001_0001, 0x0001_0001]);
        let second = losses(0x80, &[6, 0x0002_0002, 0x0002_0002]);
        let needed = 5 * (1 + 6 * count);
        let refused = (Err(Refusal::BUFFER_SHORT), vec![7; needed - 1]);
        assert_eq!(lent(&first, &second, needed - 1), refused);
        for length in [needed, 15 * first.len() / 8, 5 * first.len()] {
            let (answer, out) = lent(&first, &second, length);
            assert_eq!(answer, Ok(1 + 6 * count));
            assert_eq!(out[..5], [0, 0, 0, 5, 6]);
            for (index, entry) in out[5..needed].chunks(5).enumerate() {
                let field = index as u32 % 6;
                let (one, other) = if field == 1 { (5, 6) } else { (1, 2) };
                assert_eq!(entry, [1, index as u32 / 6, field, one, other]);
            }
        }
    }
}

#[test]
fn the_largest_packets() {
    let most = report(1, &vec![block(1, 0, &[]); 65_534]);
    let other = report(1, &[block(1, 0, &vec![0; 65_533])]);
    assert_eq!((most.len(), other.len()), (262_144, 262_144));
    let (answer, out) = lent(&most, &other, 5 * 65_534 + 1);
    assert_eq!(answer, Ok(65_534));
    for (index, entry) in out[..5 * 65_534].chunks(5).enumerate() {
        let kind = if index == 0 { 2 } else { 3 };
        assert_eq!(entry, [kind, index as u32, 0, 0, 0]);
    }
    assert_eq!(out[5 * 65_534], 7);
    let refused = (Err(Refusal::BUFFER_SHORT), vec![7; 5 * 65_534 - 1]);
    assert_eq!(lent(&other, &most, 5 * 65_534 - 1), refused);
    assert_eq!(lent(&most, &most, 0), (Ok(0), vec![]));
    let streams = |word| report(1, &vec![block(241, 0, &[word; 11]); 5_461]);
    let (answer, out) = lent(&streams(0), &streams(0x0001_0001), 5 * 65_532);
    assert_eq!(answer, Ok(65_532));
    assert_eq!(out[5 * 65_531..], [FIELD, 5_460, 11, 0, 0x0001_0001]);
}

/// Numbers that look random, the same in every run.
struct Numbers(u64);

impl Numbers {
    /// A number below `bound`.
    fn below(&mut self, bound: usize) -> usize {
        self.0 = self.0.wrapping_mul(6_364_136_223_846_793_005);
        self.0 = self.0.wrapping_add(1_442_695_040_888_963_407);
        (self.0 >> 33) as usize % bound
    }

    fn one_of<T: Copy>(&mut self, choices: &[T]) -> T {
        choices[self.below(choices.len())]
    }

    /// A block of few sources and numbers, mostly of a listed type and of its length.
    fn block(&mut self) -> Vec<u8> {
        let block_type = self.one_of(&[14, 14, 17, 17, 17, 18, 18, 18, 240, 241, 1]);
        let specific = self.one_of(&[0x00, 0x40, 0x40, 0x80, 0xC0, 0xC1]);
        let words = match crate::block::words(block_type) {
            Some(words) if self.below(8) > 0 => words,
            _ => self.below(9),
        };
        let halves = [0, 0, 0, 1, 1, 2, 32_768, 32_769, 65_534, 65_535];
        let mut body: Vec<_> = (0..words)
            .map(|_| self.one_of(&halves) << 16 | self.one_of(&halves))
            .collect();
        if let Some(source) = body.first_mut() {
            *source = self.below(4) as u32;
        }
        block(block_type, specific, &body)
    }

    /// `blocks` with a few exchanged, changed in one bit, taken out or put in.
    fn altered(&mut self, blocks: &[Vec<u8>]) -> Vec<Vec<u8>> {
        let mut blocks = blocks.to_vec();
        for _ in 0..self.below(4) {
            let index = self.below(blocks.len() + 1);
            match self.below(5) {
                0 => blocks.insert(index, self.block()),
                _ if index == blocks.len() => {}
                1 => {
                    blocks.remove(index);
                }
                2 => blocks[index] = self.block(),
                _ => {
                    let offset = match self.below(blocks[index].len()) {
                        2 | 3 => 1,
                        offset => offset,
                    };
                    let bit = self.below(8);
                    blocks[index] = turned(&blocks[index], offset, 1 << bit);
                }
            }
        }
        blocks
    }
}

#[test]
fn many_packets() {
    let mut numbers = Numbers(1);
    let mut kinds = [0; 5];
    for _ in 0..20_000 {
        let blocks: Vec<_> = (0..numbers.below(9)).map(|_| numbers.block()).collect();
        let others = numbers.altered(&blocks);
        let [sender, other] = [0, 1].map(|_| numbers.below(8).min(1) as u32);
        for [kind, ..] in entries(&report(sender, &blocks), &report(other, &others)) {
            kinds[kind as usize] += 1;
        }
    }
    assert!(kinds.iter().all(|count| *count > 1_000), "{kinds:?}");
}
