//! Tallies that no trace gives, with both implementations: 15 exactly where one is not
//! sound, and then it comes back as given.

mod support;

use nuvaskoe::{tally::Tally, trace::Event};
use support::{
    drawn_tallies::{elsewhere, random_hostile, random_reached},
    from_env,
    tallies::{close_both, fields, independent_tally, take_both, tally, FIELDS, LIMITS, PACKETS},
    Random,
};

/// How many tallies were sound and how many were not.
#[derive(Debug, Default)]
struct Seen {
    sound: usize,
    unsound: usize,
}

impl Seen {
    /// Closes the tally and gives it a packet; gives the next one.
    fn check(&mut self, given: Tally, packet: u8) -> Tally {
        let sound = independent_tally(&given).sound();
        let closed = close_both(given);
        let (next, taken) = take_both(given, packet);
        if sound {
            self.sound += 1;
            assert!(closed.is_ok(), "{given:?}");
            let expected = match (given.sums.packets, packet) {
                (PACKETS, _) => Err((10, 0)),
                (_, 3..) => Err((9, 0)),
                _ => Ok(()),
            };
            assert_eq!(taken, expected, "{given:?}, {packet}");
        } else {
            self.unsound += 1;
            assert_eq!(closed, Err((15, 0)), "{given:?}");
            assert_eq!(taken, Err((15, 0)), "{given:?}, {packet}");
        }
        next
    }

    /// A run that saw too few of either would show little.
    fn at_least(&self, sound: usize, unsound: usize) {
        println!("{self:?}");
        assert!(self.sound >= sound && self.unsound >= unsound, "{self:?}");
    }
}

/// Each field 0, 1, its limit, one more and the largest number, in all combinations.
#[test]
fn all_limits() {
    let mut seen = Seen::default();
    let values = LIMITS.map(|limit| [0, 1, limit, limit + 1, u64::MAX]);
    for number in 0..5_usize.pow(FIELDS as u32) {
        let mut rest = number;
        let fields = values.map(|choices| {
            let choice = choices[rest % 5];
            rest /= 5;
            choice
        });
        seen.check(tally(16, 40_000, Event::Lost, fields), (number % 4) as u8);
    }
    seen.at_least(500, 5_000_000);
}

/// Tallies that short traces lead to, with up to three fields put elsewhere.
#[test]
fn all_limits_of_three_fields() {
    let mut random = Random::new("all_limits_of_three_fields");
    let mut seen = Seen::default();
    for _ in 0..from_env("NUVASKOE_TALLIES", 12) {
        let given = random_reached(&mut random);
        let start = fields(&given);
        for first in 0..FIELDS {
            for second in 0..first {
                for third in 0..second {
                    for number in 0..8_usize.pow(3) {
                        let mut fields = start;
                        for (field, shift) in [(first, 0), (second, 3), (third, 6)] {
                            let choice = number >> shift & 7;
                            fields[field] = elsewhere(field, start[field], choice);
                        }
                        let hostile = tally(given.gmin, given.spacing, given.event, fields);
                        seen.check(hostile, (number % 4) as u8);
                    }
                }
            }
        }
    }
    seen.at_least(5_000, 100_000);
}

/// A setting of 0 or above its limit makes any tally unsound.
#[test]
fn settings_out_of_range() {
    let mut random = Random::new("settings_out_of_range");
    let mut seen = Seen::default();
    for _ in 0..50 {
        let reached = random_reached(&mut random);
        for gmin in [0, 1, 255, 256, 1 << 16, u32::MAX] {
            for spacing in [0, 1, 40_000, 40_001, 1 << 16, u32::MAX] {
                let mut given = reached;
                (given.gmin, given.spacing) = (gmin, spacing);
                seen.check(given, random.below(4) as u8);
            }
        }
    }
    seen.at_least(100, 1_500);
}

/// Also what a few packets make of them, which need not be sound.
#[test]
fn random_tallies() {
    let mut random = Random::new("random_tallies");
    let (mut seen, mut afterwards) = (Seen::default(), Seen::default());
    for _ in 0..from_env("NUVASKOE_HOSTILE", 2_000_000) {
        let hostile = random_hostile(&mut random);
        let mut next = seen.check(hostile, random.below(4) as u8);
        if next != hostile {
            for _ in 0..4 {
                next = afterwards.check(next, random.below(4) as u8);
            }
        }
    }
    seen.at_least(20_000, 200_000);
    afterwards.at_least(20_000, 100);
}

/// "Q ≤ S × S" and "n × Q ≥ S × S", for all small numbers: of closed bursts, and with an open
/// one of 3 milliseconds counted in.
#[test]
fn the_lines_on_squares() {
    let (mut seen, mut sound) = (Seen::default(), 0);
    for (open, [n, s, q]) in [([0, 0], [0; 3]), ([2, 3], [1, 3, 9])] {
        for bursts in 0..=4 {
            for durations in 0..=12 {
                for squares in 0..=durations * durations + 10 {
                    let [n, s, q] = [n + bursts, s + durations, q + squares];
                    sound += usize::from(q <= s * s && n * q >= s * s);
                    let closed = [50, 20, 10, 8, bursts, durations, squares];
                    let fields = [&closed[..], &open, &[0]].concat().try_into().unwrap();
                    seen.check(tally(2, 1_000, Event::Lost, fields), 1);
                    assert_eq!(seen.sound, sound, "{fields:?}");
                }
            }
        }
    }
    seen.at_least(2_000, 2_000);
}

/// The bounds of the list, each just kept and just passed, of a tally with no open stretch
/// and of the same with its last burst open.
#[test]
fn each_line() {
    // Ten packets, eight of them in two bursts of four; spacing 1,000.
    let closed = [10, 7, 8, 6, 2, 8, 32, 0, 0, 0];
    let open = [10, 7, 4, 3, 1, 4, 16, 3, 4, 1];
    let mut sound = Seen::default();
    let mut unsound = Seen::default();
    for start in [closed, open] {
        sound.check(tally(2, 1_000, Event::Lost, start), 1);
        let with = |field: usize, value| {
            let mut fields = start;
            fields[field] = value;
            tally(2, 1_000, Event::Lost, fields)
        };
        let last = start[7] > 0;
        // Events in gaps: none, or all of two packets, or one more.
        sound.check(with(1, 6), 1);
        sound.check(with(1, 8), 1);
        unsound.check(with(1, 5), 1);
        unsound.check(with(1, 9), 1);
        // Two packets for each burst.
        sound.check(with(4, if last { 3 } else { 4 }), 1);
        unsound.check(with(4, if last { 4 } else { 5 }), 1);
        // Squares from two times four times four to eight times eight.
        sound.check(with(6, if last { 48 } else { 64 }), 1);
        unsound.check(with(6, if last { 49 } else { 65 }), 1);
        unsound.check(with(6, if last { 15 } else { 31 }), 1);
        // The open stretch's own counts.
        sound.check(with(9, 10), 1);
        unsound.check(with(9, 11), 1);
        unsound.check(with(7, 11), 1);
        unsound.check(with(8, 11), 1);
    }
    assert_eq!((sound.sound, sound.unsound), (12, 0));
    assert_eq!((unsound.sound, unsound.unsound), (0, 16));
}
