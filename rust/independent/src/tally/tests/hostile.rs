//! Tallies of any numbers at all: sound exactly by the lines of the list, and nothing overflows.

use super::*;

/// Numbers at the ends of ranges, out of the first `kinds` of them.
fn any_numbers(next: &mut impl FnMut(u64) -> u64, kinds: u64) -> Tally {
    let ends = [0, 1, 2, 3, 4, 65_536, 2_621_440, 1 << 32, 1 << 63, u64::MAX];
    let mut number = || ends[next(kinds) as usize];
    Tally {
        gmin: number(),
        spacing: number(),
        event: Discarded,
        seen: number(),
        events: number(),
        burst_packets: number(),
        burst_events: number(),
        bursts: number(),
        duration_sum: number(),
        duration_squares: number(),
        open_events: number(),
        open_packets: number(),
        open_gap: number(),
    }
}

/// Any numbers at all are answered, without an overflow, on both sides of the last line.
#[test]
fn hostile_tallies() {
    let mut next = numbers(3);
    // Sound; not by the last line alone; not by another.
    let mut met = [0; 3];
    for round in 0..2_400_000 {
        let tally = match round % 3 {
            // Small numbers alone.
            0 => any_numbers(&mut next, 5),
            1 => any_numbers(&mut next, 10),
            _ => last_line::near_the_limit(&mut next),
        };
        let kind = match last_line::of(&tally) {
            Some((nq, ss)) if nq >= ss => 0,
            Some(_) => 1,
            None => 2,
        };
        met[kind] += 1;
        match kind {
            0 => sound(tally),
            _ => unsound(tally),
        }
    }
    assert!(met.iter().all(|count| *count > 1_000), "{met:?}");
}
