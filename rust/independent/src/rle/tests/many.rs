//! Many blocks that look random, against the plain meaning of their chunks.

use super::*;

impl Numbers {
    /// A chunk, mostly of few packets.
    fn chunk(&mut self) -> u16 {
        match self.below(40) {
            0 => 0,
            1 => 0x4000,
            2 => self.half(),
            3 => self.half() & 0x7FFF,
            4 => self.one_of(&[0x3FFF, 0x7FFF, 0x8000, 0xFFFF]),
            5..=15 => self.below(40) as u16,
            16..=26 => 0x4000 | self.below(40) as u16,
            _ => 0x8000 | self.half(),
        }
    }

    /// Chunks of any kind, or vectors with now and then another chunk; and nulls after them.
    fn chunks(&mut self) -> Vec<u16> {
        let vectors = self.below(2) == 0;
        let mut chunks: Vec<_> = (0..self.below(24))
            .map(|_| match self.below(24) {
                1.. if vectors => 0x8000 | self.half(),
                _ => self.chunk(),
            })
            .collect();
        if self.below(3) == 0 {
            let nulls = self.below(6);
            chunks.resize(chunks.len() + nulls, 0);
        }
        chunks
    }

    /// A number of packets, mostly one near what the chunks cover.
    fn packets(&mut self, chunks: &[u16]) -> usize {
        let covered: usize = chunks
            .iter()
            .map(|chunk| match chunk >> 15 {
                0 => usize::from(chunk & 0x3FFF),
                _ => 15,
            })
            .sum();
        let packets = match self.below(10) {
            0 => self.below(65_536),
            1 => self.below(100),
            2 => covered + self.below(16),
            3..=7 => covered.saturating_sub(self.below(16)),
            _ => covered,
        };
        packets.min(65_535)
    }
}

#[test]
fn many_blocks() {
    let mut numbers = Numbers(0x2545_F491_4F6C_DD1D);
    let (mut good, mut lost) = (0, 0);
    for _ in 0..6_000 {
        let chunks = numbers.chunks();
        let packets = numbers.packets(&chunks);
        if let Some(trace) = said(numbers.half(), packets, &chunks) {
            good += 1;
            lost += losses(&trace);
        }
    }
    // Enough of either kind.
    assert!((1_500..4_500).contains(&good), "{good}");
    assert!(lost > 100_000, "{lost}");
}

/// Every end that chunks may have.
#[test]
fn every_interval_of_a_block() {
    let mut numbers = Numbers(1);
    for _ in 0..30 {
        let chunks = numbers.chunks();
        for packets in 0..=200 {
            let lost = plain(&chunks, packets).map(|trace| losses(&trace));
            assert_eq!(count(&bytes(&chunks), packets), lost);
        }
    }
}
