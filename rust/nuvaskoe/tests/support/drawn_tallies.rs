//! Tallies to compare on: such as a trace leads to, and such as none does.

use super::{
    boundary,
    events::{any_event, library_event, EVENTS},
    measuring::{random_gmin, random_spacing, random_trace, LONGEST},
    tallies::{at_boundary, fields, tally, DURATIONS, FIELDS, LIMITS, PACKETS},
    Random,
};
use nuvaskoe::tally::Tally;

/// The numbers of a tally at the boundary, at times with an event that is none.
pub fn any_numbers(random: &mut Random) -> boundary::Tally {
    let tally = at_boundary(&any_tally(random));
    boundary::Tally {
        event: any_event(random),
        ..tally
    }
}

/// A tally of one of several makes: reached by a trace, the same with numbers put elsewhere,
/// full, with settings out of range, or drawn number by number.
pub fn any_tally(random: &mut Random) -> Tally {
    if random.below(2) == 0 {
        return random_hostile(random);
    }
    let most = random.one_of(&[10, 60, 400]);
    let reached = reached_within(random, most);
    let mut numbers = fields(&reached);
    let (mut gmin, mut spacing) = (reached.gmin, reached.spacing);
    match random.below(8) {
        0 => gmin = random.one_of(&[0, 1, 255, 256, 1 << 16, u32::MAX]),
        1 => spacing = random.one_of(&[0, 1, 40_000, 40_001, 1 << 16, u32::MAX]),
        // Packets that were received since, up to the most.
        2 => numbers[0] = PACKETS,
        3 | 4 => {
            for _ in 0..=random.below(2) {
                let field = random.below(FIELDS);
                numbers[field] = elsewhere(field, numbers[field], random.below(8));
            }
        }
        _ => {}
    }
    tally(gmin, spacing, reached.event, numbers)
}

/// One of eight numbers to put in a field: as it was, next to it, or at a limit.
pub fn elsewhere(field: usize, was: u64, choice: usize) -> u64 {
    match choice {
        0 => was,
        1 => 0,
        2 => 1,
        3 => was.saturating_sub(1),
        4 => was.saturating_add(1),
        5 => LIMITS[field],
        6 => LIMITS[field] + 1,
        _ => u64::MAX,
    }
}

/// A tally that took a random trace.
pub fn random_reached(random: &mut Random) -> Tally {
    let most = random.one_of(&[10, 500, LONGEST]);
    reached_within(random, most)
}

/// The same, of at most `most` packets.
fn reached_within(random: &mut Random, most: usize) -> Tally {
    let (gmin, spacing) = (random_gmin(random), random_spacing(random));
    let event = library_event(random.one_of(&EVENTS));
    let length = 1 + random.below(most);
    let mut tally = Tally::open(gmin, spacing, event).expect("good settings");
    for packet in random_trace(random, length) {
        let (next, answer) = tally.take(packet);
        assert_eq!(answer, Ok(()));
        tally = next;
    }
    tally
}

/// A number at or next to a bound, at times any number.
fn around(random: &mut Random, bound: u64) -> u64 {
    match random.below(40) {
        0 => random.draw(),
        1 => u64::MAX - random.below(3) as u64,
        2 => bound.saturating_add(1),
        3 => 1 << random.below(64),
        4..=11 => bound,
        12..=15 => bound.saturating_sub(1),
        16..=19 => random.below(3) as u64,
        _ => random.draw() % bound.saturating_add(1).max(1),
    }
}

/// Numbers drawn line by line from the list of what is sound, so that many are sound and
/// most others fail one line alone.
pub fn random_hostile(random: &mut Random) -> Tally {
    let (gmin, spacing) = (random_gmin(random), random_spacing(random));
    let event = library_event(random.one_of(&EVENTS));
    let most = random.one_of(&[1, 2, 5, 40, PACKETS, PACKETS]);
    let packets = around(random, most);
    let open_packets = around(random, packets);
    let few = random.one_of(&[2, packets]);
    let open_events = around(random, few.min(packets));
    let since = around(random, packets);
    // The open stretch, where it is a burst.
    let duration = open_packets.wrapping_mul(spacing.into()) / 1_000;
    let open = match open_events {
        ..=1 => [0; 5],
        _ => {
            let square = duration.wrapping_mul(duration);
            [open_packets, open_events, 1, duration, square]
        }
    };
    let sums = hostile_sums(random, packets, open);
    let [packets, events, burst_packets, burst_events, bursts, durations, squares] = sums;
    let numbers = [
        packets,
        events,
        burst_packets,
        burst_events,
        bursts,
        durations,
        squares,
        open_events,
        open_packets,
        since,
    ];
    tally(gmin, spacing, event, numbers)
}

/// Sums of so many packets, around what is sound beside the open burst's packets, events,
/// count, duration and its square.
fn hostile_sums(random: &mut Random, packets: u64, open: [u64; 5]) -> [u64; 7] {
    let burst_packets = around(random, packets.saturating_sub(open[0]));
    let all_burst_packets = burst_packets.saturating_add(open[0]);
    let burst_events = around(random, all_burst_packets.saturating_sub(open[1]));
    let all_burst_events = burst_events.saturating_add(open[1]);
    let in_gaps = around(random, packets.saturating_sub(all_burst_packets));
    let events = all_burst_events.wrapping_add(in_gaps);
    let bursts = around(random, (all_burst_packets / 2).saturating_sub(open[2]));
    let n = bursts.saturating_add(open[2]);
    let longest = match n {
        // Without a burst 0 alone is sound.
        0 => random.one_of(&[0, 0, DURATIONS]),
        _ => random.one_of(&[DURATIONS, all_burst_packets.min(DURATIONS)]),
    };
    let durations = around(random, longest.saturating_sub(open[3]));
    let s = durations.saturating_add(open[3]);
    let most = s.wrapping_mul(s);
    let least = most.div_ceil(n.max(1));
    let bound = random.one_of(&[least, least, most]);
    let squares = around(random, bound.wrapping_sub(open[4]));
    [
        packets,
        events,
        burst_packets,
        burst_events,
        bursts,
        durations,
        squares,
    ]
}
