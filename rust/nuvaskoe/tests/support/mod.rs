//! What the comparison tests, the comparison command and the benchmark share: repeatable
//! pseudo-random draws, counts that the environment may set, inputs, and each call of the
//! library beside the independent one.
#![allow(dead_code)] // Each test file is its own crate and uses its own part.

pub mod adding;
pub mod answers;
pub mod batches;
/// The boundary as the library's crate declares it, for what its safe calls do not show.
#[path = "../../src/boundary.rs"]
#[rustfmt::skip]
pub mod boundary;
pub mod calls;
pub mod cards;
pub mod compare;
pub mod differences;
pub mod drawn_packed;
pub mod drawn_runs;
pub mod drawn_tallies;
pub mod events;
pub mod measuring;
pub mod numbers;
pub mod packed;
pub mod packets;
pub mod pairs;
pub mod panels;
pub mod raw;
pub mod runs;
pub mod tallies;

use std::{env, fmt, ops::RangeInclusive, str::FromStr};

const DEFAULT_SEED: u64 = 3611;

/// The value of an environment variable, or `default` where it is not set.
pub fn from_env<T: FromStr>(name: &str, default: T) -> T
where
    T::Err: fmt::Debug,
{
    match env::var(name) {
        Ok(text) => text
            .parse()
            .unwrap_or_else(|error| panic!("{name}={text}: {error:?}")),
        Err(_) => default,
    }
}

/// The seed of a run: `NUVASKOE_SEED`, or always the same.
pub fn seed() -> u64 {
    from_env("NUVASKOE_SEED", DEFAULT_SEED)
}

/// The splitmix64 generator.
pub struct Random(u64);

impl Random {
    /// The draws of one test: its name is mixed into the run's seed, so that a test run
    /// alone draws what it draws among the others.
    pub fn new(test: &str) -> Random {
        let seed = seed();
        println!("{test}: NUVASKOE_SEED={seed}");
        let mut random = Random(seed);
        for byte in test.bytes() {
            random.0 = random.draw() ^ u64::from(byte);
        }
        random
    }

    /// The draws of one numbered case, whichever cases run before it.
    pub fn of_case(seed: u64, number: u64) -> Random {
        let mut random = Random(seed);
        random.0 = random.draw() ^ number;
        random.0 = random.draw();
        random
    }

    pub fn draw(&mut self) -> u64 {
        self.0 = self.0.wrapping_add(0x9E37_79B9_7F4A_7C15);
        let mut z = self.0;
        z = (z ^ (z >> 30)).wrapping_mul(0xBF58_476D_1CE4_E5B9);
        z = (z ^ (z >> 27)).wrapping_mul(0x94D0_49BB_1331_11EB);
        z ^ (z >> 31)
    }

    /// A number from 0 to `bound` less one.
    pub fn below(&mut self, bound: usize) -> usize {
        (self.draw() % bound as u64) as usize
    }

    /// A number of `range`.
    pub fn within(&mut self, range: &RangeInclusive<u32>) -> u32 {
        let count = u64::from(range.end() - range.start()) + 1;
        range.start() + (self.draw() % count) as u32
    }

    pub fn byte(&mut self) -> u8 {
        self.draw() as u8
    }

    /// One of `choices`.
    pub fn one_of<T: Copy>(&mut self, choices: &[T]) -> T {
        choices[self.below(choices.len())]
    }

    pub fn bytes(&mut self, length: usize) -> Vec<u8> {
        (0..length).map(|_| self.byte()).collect()
    }

    /// An ASCII digit.
    pub fn digit(&mut self) -> u8 {
        b'0' + self.below(10) as u8
    }

    pub fn digits(&mut self, length: usize) -> Vec<u8> {
        (0..length).map(|_| self.digit()).collect()
    }
}

/// A buffer whose bytes differ from their neighbours and are never ASCII, so that a
/// byte written or moved shows.
pub fn pattern(length: usize) -> Vec<u8> {
    (0..length).map(|index| 0x80 | index as u8).collect()
}
