//! Packed traces to read, good and bad for every cause, and traces to pack.

use super::{
    batches::{random_settings, LONGEST, SETTINGS},
    drawn_runs::lossy,
    events::make_late,
    packed::{Packed, WORD},
    Random,
};
use independent::trace::Event;

/// How many packets: few, around whole words, some, or many.
pub fn any_length(random: &mut Random) -> usize {
    match random.below(64) {
        0 => random.one_of(&[
            LONGEST,
            LONGEST - 1,
            LONGEST - 63,
            LONGEST - 64,
            LONGEST - 65,
        ]),
        1 => 1 + random.below(LONGEST),
        2..=5 => 1 + random.below(4_000),
        6..=25 => (WORD * (1 + random.below(6)) + random.below(5)) - 2,
        26..=40 => 1 + random.below(400),
        _ => 1 + random.below(70),
    }
}

/// So many received and lost packets, lost at random or in bursts.
pub fn random_losses(random: &mut Random, length: usize) -> Vec<u8> {
    if random.below(3) > 0 {
        return lossy(random, length);
    }
    let mut trace = Vec::with_capacity(length + 200);
    while trace.len() < length {
        trace.resize(trace.len() + random.below(150), 0);
        trace.resize(trace.len() + random.below(50), 1);
    }
    trace.truncate(length);
    trace
}

/// A trace to pack, of received, lost and discarded packets, at times empty, too long, or with bytes
/// that are none of these.
pub fn any_trace(random: &mut Random) -> Vec<u8> {
    let length = match random.below(24) {
        0 => 0,
        1 => random.one_of(&[LONGEST + 1, LONGEST + 2, LONGEST + 64, 2 * LONGEST]),
        _ => any_length(random),
    };
    let mut trace = random_losses(random, length);
    make_late(random, &mut trace);
    if !trace.is_empty() && random.below(8) == 0 {
        for _ in 0..=random.below(2) {
            let place = random.below(trace.len());
            trace[place] = random.one_of(&[3, 3, 4, 127, 128, 129, 130, 255]);
        }
    }
    trace
}

/// Words of a good packed trace, at times with more behind.
pub fn good_packed(random: &mut Random) -> Packed {
    let length = any_length(random);
    let packed = Packed::of(&random_losses(random, length));
    let behind = random.one_of(&[0, 0, 0, 1, 3]);
    followed_by_any(random, &packed, behind)
}

/// The same with so many words behind, which hold anything.
pub fn followed_by_any(random: &mut Random, packed: &Packed, behind: usize) -> Packed {
    let any = random.draw();
    let words = (0..behind).map(|_| random.one_of(&[0, u64::MAX, 1, any]));
    packed.followed(&words.collect::<Vec<_>>())
}

/// A packed trace: two of three are good, and every cause to refuse one has its share of the others.
pub fn any_packed(random: &mut Random) -> Packed {
    let mut packed = good_packed(random);
    let needed = packed.packets.div_ceil(WORD);
    match random.below(18) {
        0 => packed.packets = random.one_of(&[0, LONGEST + 1, 2 * LONGEST, 1 << 32, usize::MAX]),
        1 => packed.words.truncate(random.below(needed)),
        2 => packed.words.truncate(needed - 1),
        3..=5 => spoil(random, &mut packed),
        // Another number of packets than those that were packed.
        6 => packed.packets = any_length(random),
        _ => {}
    }
    packed
}

/// Puts ones behind the packets of the last needed word, if it has room.
pub fn spoil(random: &mut Random, packed: &mut Packed) {
    let (word, used) = (packed.packets / WORD, packed.packets % WORD);
    if used == 0 {
        return;
    }
    let bit = used + random.below(WORD - used);
    let any = random.draw();
    packed.words[word] |= random.one_of(&[1, u64::MAX, any, any | 1]) << bit;
}

/// Settings as for an accepted trace, at times a batch longer than it or one out of range.
pub fn any_settings(random: &mut Random, packed: &Packed) -> (u32, u32) {
    let (mut batch, mut threshold) = match packed.refusal() {
        Some(_) => (1 + random.below(100) as u32, random.below(4) as u32),
        None => random_settings(random, &packed.trace(), Event::Lost),
    };
    match random.below(12) {
        0 => batch = random.one_of(&SETTINGS),
        1 => threshold = random.one_of(&SETTINGS),
        2 => batch = packed.packets.saturating_add(1).min(1_024) as u32,
        3 => batch = random.within(&(1..=1_024)),
        // Batches of whole words, and of a packet more and fewer.
        4 => batch = random.one_of(&[63, 64, 65, 127, 128, 129, 192, 960, 1_023, 1_024]),
        _ => {}
    }
    (batch, threshold)
}

/// Room for so many, more, or too little.
pub fn room(random: &mut Random, needed: usize) -> usize {
    match random.below(8) {
        0 => random.below(needed.max(1)),
        1 => needed.saturating_sub(1),
        2 => needed + 1 + random.below(70),
        _ => needed,
    }
}
