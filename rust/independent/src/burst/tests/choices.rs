//! Document 02's ticket 7: "lost only, discarded only, or either. Bursts [..] take it."

use super::*;
use crate::choices::{as_lost, traces};
use Event::Either;

/// The figures by each choice: lost, discarded, either.
fn by_choice(digits: &str, gmin: u64) -> [[u16; 4]; 3] {
    EVENTS.map(|event| numbers(both(&trace(digits), gmin, 1_000, event).unwrap()))
}

const NO_EVENT: [u16; 4] = [UNAVAILABLE, 0, UNAVAILABLE, UNAVAILABLE];

/// One event alone among so many packets.
fn lone(packets: u16) -> [u16; 4] {
    [UNAVAILABLE, 32_768 / packets, UNAVAILABLE, UNAVAILABLE]
}

#[test]
fn by_hand() {
    // One of each: neither kind has a burst of its own, together they are one of 2 packets.
    let together = [32_768, 0, 2, 0];
    assert_eq!(by_choice("0120", 1), [lone(4), lone(4), together]);
    // The same with one packet between: together below Gmin 2, apart at Gmin 1. Apart there are
    // two events in a gap of four packets.
    let together = [21_845, 0, 3, 0];
    assert_eq!(by_choice("1020", 2), [lone(4), lone(4), together]);
    let apart = [UNAVAILABLE, 16_384, UNAVAILABLE, UNAVAILABLE];
    assert_eq!(by_choice("1020", 1), [lone(4), lone(4), apart]);
    // P6 with some of its losses late: 4 events in 5 packets of two bursts, 1 in 6 of the gap.
    // By lost 1 stands alone twice, by discarded thrice: 2 and 3 of 11 packets.
    let p6 = [26_214, 5_461, 2, 0];
    let alone = |events: u32| {
        let rate = (events * 32_768 / 11) as u16;
        [UNAVAILABLE, rate, UNAVAILABLE, UNAVAILABLE]
    };
    assert_eq!(by_choice("10200200012", 2), [alone(2), alone(3), p6]);
}

#[test]
fn a_packet_that_does_not_count_stands_between() {
    // Two losses with a discarded packet between them, Gmin 1: a burst of three by either alone.
    let two = [UNAVAILABLE, 21_845, UNAVAILABLE, UNAVAILABLE];
    let three = [32_768, UNAVAILABLE, 3, 0];
    assert_eq!(by_choice("121", 1), [two, lone(3), three]);
    // At Gmin 2 the losses are a burst too, of three packets with two events.
    let burst = [21_845, UNAVAILABLE, 3, 0];
    assert_eq!(by_choice("121", 2), [burst, lone(3), three]);
}

/// Where there is one kind alone, either counts as that kind does.
#[test]
fn one_kind_alone() {
    let p6 = [26_214, 5_461, 2, 0];
    assert_eq!(by_choice("10100100011", 2), [p6, NO_EVENT, p6]);
    assert_eq!(by_choice("20200200022", 2), [NO_EVENT, p6, p6]);
    assert_eq!(by_choice("000", 16), [NO_EVENT; 3]);
}

/// The sums by either: bursts of 2 and 4 packets, and one event alone.
#[test]
fn the_sums_of_either() {
    let sums = sums(&trace("1200021120002"), 2, 1_000, Either);
    let expected = Sums {
        packets: 13,
        events: 7,
        burst_packets: 6,
        burst_events: 6,
        bursts: 2,
        duration_sum: 6,
        duration_squares: 20,
    };
    assert_eq!(sums, expected);
}

#[test]
fn every_choice_in_terms_of_lost_packets() {
    for length in 1..=8 {
        for trace in traces(length) {
            for gmin in [1, 2, 3] {
                for event in EVENTS {
                    let lost = both(&as_lost(&trace, event), gmin, 700, Lost);
                    assert_eq!(both(&trace, gmin, 700, event), lost, "{trace:?}");
                }
            }
        }
    }
}

#[test]
fn the_longest_trace() {
    let mixed: Vec<u8> = (0..65_536).map(|packet| 1 + packet as u8 % 2).collect();
    let all = [32_768, UNAVAILABLE, OVER_RANGE, 0];
    assert_eq!(numbers(both(&mixed, 1, 1_000, Either).unwrap()), all);
    // Of one kind every second packet: none together at Gmin 1. At Gmin 2 there is one burst of
    // 65,535 packets, 32,768 of them events, and in the gap the one packet left.
    let apart = [UNAVAILABLE, 16_384, UNAVAILABLE, UNAVAILABLE];
    let together = [16_384, 0, OVER_RANGE, 0];
    for event in [Lost, Discarded] {
        assert_eq!(numbers(both(&mixed, 1, 1_000, event).unwrap()), apart);
        assert_eq!(numbers(both(&mixed, 2, 1_000, event).unwrap()), together);
    }
}
