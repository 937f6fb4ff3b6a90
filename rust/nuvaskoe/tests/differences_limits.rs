//! Two packets compared at the limits of lengths, counts, lists and addresses, their refusals in
//! order, and all pairs of a few blocks.

mod support;

use std::{cmp::Ordering, collections::BTreeSet};
use support::{
    boundary::DIFFERENCE_NUMBERS,
    differences::{compare_both, enough, entries, lawful_entries, needed, Entry},
    from_env,
    packets::{
        all_kinds, block, damage, fit_length, listed, measured_late, one_block, packet,
        random_packet, sourced, LONGEST, P12,
    },
    pairs::{any_pair, good_pair},
    Random,
};

/// How many pairs a test draws; `NUVASKOE_PACKETS` overrides.
const PAIRS: usize = 20_000;

/// A packet for each of the refusals 1 to 6, and their places.
fn refused_packets() -> Vec<(Vec<u8>, (u32, usize))> {
    let good = packet(1, &[listed(240, 2), block(1, 0, &[0; 4])]);
    let changed = |place: usize, byte: u8| {
        let mut bytes = good.clone();
        bytes[place] = byte;
        bytes
    };
    vec![
        (good[..7].to_vec(), (1, 0)),
        (changed(0, 0x40), (2, 0)),
        (changed(1, 206), (3, 0)),
        (changed(3, 7), (4, 0)),
        (changed(0, 0xA0), (5, 0)),
        (changed(23, 2), (6, 20)),
    ]
}

/// "1 to 6, first packet before second, then 8": any refusal of the first comes before any of
/// the second, and both before the list is found too short.
#[test]
fn refusals_in_order() {
    let good = all_kinds();
    for numbers in [0, 4, 5, 1_000] {
        for (first, refusal) in refused_packets() {
            for (second, other) in refused_packets() {
                assert_eq!(compare_both(&first, &second, numbers).0, Err(refusal));
                assert_eq!(compare_both(&second, &first, numbers).0, Err(other));
            }
            assert_eq!(compare_both(&first, &good, numbers).0, Err(refusal));
            assert_eq!(compare_both(&good, &first, numbers).0, Err(refusal));
            assert_eq!(compare_both(&first, &first, numbers).0, Err(refusal));
        }
    }
    assert_eq!(compare_both(&good, &P12, 4).0, Err((8, 0)));
}

/// The refusal's place is in the packet that is refused.
#[test]
fn places() {
    let mut past = measured_late();
    let offset = past.len() - 32;
    past[offset + 3] += 1;
    for other in [P12.to_vec(), all_kinds(), packet(1, &[])] {
        assert_eq!(entries(&past, &other), Err((6, offset)));
        assert_eq!(entries(&other, &past), Err((6, offset)));
    }
    let mut early = all_kinds();
    early[10] = 0xFF;
    assert_eq!(entries(&early, &past), Err((6, 8)));
    assert_eq!(entries(&past, &early), Err((6, offset)));
}

/// Every length up to 24 bytes of both.
#[test]
fn short_lengths() {
    let good = packet(1, &[block(1, 0, &[0; 4]), block(9, 0, &[]), listed(240, 2)]);
    let cut = |length: usize| {
        let mut bytes = good[..length].to_vec();
        fit_length(&mut bytes);
        bytes
    };
    let answered = |length: usize| matches!(length, 8 | 16 | 20);
    for (length, other) in (0..=24).flat_map(|length| (0..=24).map(move |other| (length, other))) {
        let found = entries(&cut(length), &cut(other));
        assert_eq!(found.is_ok(), answered(length) && answered(other));
        if let Ok(found) = found {
            let blocks = |length: usize| [8, 16, 20].iter().position(|some| *some == length);
            let (first, second) = (blocks(length).unwrap(), blocks(other).unwrap());
            assert_eq!(found.len(), first.abs_diff(second));
        }
    }
}

/// Every length of the list up to two entries more than needed: under five numbers an entry it
/// is refused, and nothing is written.
#[test]
fn lists_of_every_length() {
    let mut random = Random::new("differences lists_of_every_length");
    let mut pairs = vec![
        (P12.to_vec(), P12.to_vec()),
        (P12.to_vec(), packet(1, &[])),
        (all_kinds(), measured_late()),
        (measured_late(), packet(1, &[])),
    ];
    pairs.extend((0..300).map(|_| good_pair(&mut random)));
    for (first, second) in pairs {
        let needed = needed(&first, &second);
        for numbers in 0..=needed + 2 * DIFFERENCE_NUMBERS {
            let (answer, _) = compare_both(&first, &second, numbers);
            match numbers < needed {
                true => assert_eq!(answer, Err((8, 0))),
                false => assert_eq!(answer, Ok(needed / DIFFERENCE_NUMBERS)),
            }
        }
    }
}

/// A list for no entries may have no numbers.
#[test]
fn nothing_to_list() {
    for bytes in [
        packet(1, &[]),
        P12.to_vec(),
        all_kinds(),
        one_block(LONGEST),
    ] {
        assert_eq!(compare_both(&bytes, &bytes, 0), (Ok(0), Vec::new()));
        assert_eq!(compare_both(&bytes, &bytes.clone(), 0), (Ok(0), Vec::new()));
    }
}

/// One unknown block over the longest packet: each byte of it counts.
#[test]
fn the_longest_block() {
    let one = one_block(LONGEST);
    for place in [
        8,
        9,
        12,
        13,
        14,
        15,
        16,
        LONGEST / 2 + 1,
        LONGEST - 2,
        LONGEST - 1,
    ] {
        let mut other = one.clone();
        other[place] ^= 0x80;
        assert_eq!(lawful_entries(&one, &other), [[2, 0, 0, 0, 0]], "{place}");
    }
    // A block less at its end, or a word less of it.
    let shorter = one_block(LONGEST - 4);
    assert_eq!(lawful_entries(&one, &shorter), [[2, 0, 0, 0, 0]]);
    let mut cut = shorter.clone();
    cut.extend(block(0, 0, &[]));
    fit_length(&mut cut);
    let expected = [[2, 0, 0, 0, 0], [4, 1, 0, 0, 0]];
    assert_eq!(lawful_entries(&one, &cut), expected);
}

/// The most blocks that a packet can have, each of another type, or in one packet only.
#[test]
fn the_most_blocks() {
    let count = (LONGEST - 8) / 4;
    let [first, second] = [9, 10].map(|kind| packet(1, &vec![block(kind, 0, &[]); count]));
    let each = |kind| (0..count as u32).map(move |index| [kind, index, 0, 0, 0]);
    assert!(lawful_entries(&first, &second).into_iter().eq(each(2)));
    let empty = packet(1, &[]);
    assert!(lawful_entries(&first, &empty).into_iter().eq(each(3)));
    let found = lawful_entries(&packet(2, &[]), &first);
    assert_eq!(found[0], [0, 0, 0, 2, 1]);
    assert!(found.into_iter().skip(1).eq(each(4)));
}

/// The most entries: 17s that differ in all six fields, of sources that are all measured, and
/// another sender. They do not pass what is always enough.
#[test]
fn the_most_entries() {
    let turn = |loss: &[u8]| {
        let mut loss = loss.to_vec();
        loss[1] ^= 0x80;
        for place in [7, 9, 11, 13, 15] {
            loss[place] ^= 1;
        }
        loss
    };
    let measured = [listed(14, 4), listed(14, 5)];
    let count = (LONGEST - 8 - 64) / 16;
    let first = [&measured[..], &vec![listed(17, 5); count]].concat();
    let second = [&measured[..], &vec![turn(&listed(17, 5)); count]].concat();
    let filler = vec![block(9, 0, &[]); (LONGEST - 8 - 64 - 16 * count) / 4];
    let [first, second] = [(1, first), (2, second)]
        .map(|(sender, blocks)| packet(sender, &[&blocks[..], &filler].concat()));
    assert_eq!((first.len(), second.len()), (LONGEST, LONGEST));
    let found = lawful_entries(&first, &second);
    assert_eq!(found.len(), 1 + 6 * count);
    assert!(DIFFERENCE_NUMBERS * found.len() <= enough(&first, &second));
    let last = 1 + count as u32;
    let expected: [Entry; 6] = [
        [1, last, 0, 1, 3],
        [1, last, 1, 5, 4],
        [1, last, 2, 0, 1],
        [1, last, 3, 0, 1],
        [1, last, 4, 0, 1],
        [1, last, 5, 0, 1],
    ];
    assert_eq!(found[found.len() - 6..], expected);
}

/// 18s of many sources, each measured in both packets, in one or in none, their 14s late.
#[test]
fn many_sources() {
    let count = (LONGEST - 8) / (12 + 32);
    let summaries: Vec<_> = (0..count as u32).map(|source| listed(18, source)).collect();
    // The first packet measures sources that two divides, the second those that three does.
    let measured = |by: u32| (0..count as u32).map(move |source| (source % by == 0, source));
    let report = |by: u32| {
        let late = measured(by).map(|(yes, source)| match yes {
            true => listed(14, source),
            false => block(9, 0, &[0; 28]),
        });
        packet(1, &[&summaries[..], &late.collect::<Vec<_>>()].concat())
    };
    let differs = |index: u32| (index % 2 == 0) != (index % 3 == 0);
    let (of_summaries, of_late) = (0..count as u32, count as u32..2 * count as u32);
    let expected = of_summaries
        .filter(|index| differs(*index))
        .chain(of_late.filter(|index| differs(index - count as u32)))
        .map(|index| [2, index, 0, 0, 0]);
    assert!(lawful_entries(&report(2), &report(3))
        .into_iter()
        .eq(expected));
}

/// A packet of `length` bytes full of 14s, each of another source, behind 18s of the first of
/// these; blocks of one word fill its end. The 14 number `other` has a source that is none of them.
fn full_of_sources(length: usize, summaries: usize, other: Option<usize>) -> Vec<u8> {
    let rest = length - 8 - 12 * summaries;
    let count = rest / 32;
    let of_source = |index: usize| match other == Some(index) {
        true => listed(14, scattered(count)),
        false => listed(14, scattered(index)),
    };
    let blocks = (0..summaries)
        .map(|index| listed(18, scattered(index)))
        .chain((0..count).map(of_source))
        .chain(vec![block(9, 0, &[]); rest % 32 / 4]);
    let bytes = packet(1, &blocks.collect::<Vec<_>>());
    assert_eq!(bytes.len(), length);
    bytes
}

/// Another source for each number, not in order.
fn scattered(number: usize) -> u32 {
    (number as u32).wrapping_mul(0x9E37_79B1)
}

/// The library has short tables of sources where neither packet is longer than 2,048 bytes: both
/// packets on either side of that, and one on each. One 14 is of another source, and its 18, if
/// it has one, is then dropped.
#[test]
fn short_and_long_tables() {
    let lengths = [2_048, 2_052];
    // 18s, 14s, and all blocks of the shorter packet: the most 14s, and as many as there are 18s.
    for (summaries, count, blocks) in [(2, 63, 65), (46, 46, 96)] {
        for (length, other_length) in lengths
            .map(|one| lengths.map(|other| (one, other)))
            .concat()
        {
            let only = match length.cmp(&other_length) {
                Ordering::Equal => None,
                Ordering::Greater => Some([3, blocks, 0, 0, 0]),
                Ordering::Less => Some([4, blocks, 0, 0, 0]),
            };
            let first = full_of_sources(length, summaries, None);
            for other in 0..count {
                let second = full_of_sources(other_length, summaries, Some(other));
                let dropped = (other < summaries).then_some([2, other as u32, 0, 0, 0]);
                let at = (summaries + other) as u32;
                let source = Some([1, at, 0, scattered(other), scattered(count)]);
                let expected = [dropped, source, only].into_iter().flatten();
                assert!(lawful_entries(&first, &second).into_iter().eq(expected));
            }
        }
    }
}

/// As many 14s as a packet can have, each of another source; one field of one of them differs.
#[test]
fn the_most_sources() {
    let count = 8_191;
    let first = full_of_sources(8 + 32 * count, 0, None);
    for block in [0, count / 2, count - 1] {
        for (field, word) in [(0, 1), (1, 2), (6, 7)] {
            let place = 8 + 32 * block + 4 * word;
            let mut second = first.clone();
            second[place + 3] ^= 1;
            let [reading, other] = [&first, &second]
                .map(|packet| u32::from_be_bytes(packet[place..][..4].try_into().unwrap()));
            let expected = [1, block as u32, field, reading, other];
            assert_eq!(lawful_entries(&first, &second), [expected]);
        }
    }
    // Two 18s more make it the longest, the second of them not measured in one packet.
    let [first, second] = [None, Some(1)].map(|other| full_of_sources(LONGEST, 2, other));
    let source = [1, 3, 0, scattered(1), scattered(count)];
    assert_eq!(lawful_entries(&first, &second), [[2, 1, 0, 0, 0], source]);
}

/// No length field fits a longer packet.
#[test]
fn longer_than_the_longest() {
    let mut longer = packet(7, &[]);
    for length in [LONGEST + 1, LONGEST + 4, 2 * LONGEST] {
        longer.resize(length, 0);
        fit_length(&mut longer);
        assert_eq!(entries(&longer, &P12), Err((4, 0)));
        assert_eq!(entries(&P12, &longer), Err((4, 0)));
    }
}

/// Two packets that lie anywhere in memory, one in the other among them.
#[test]
fn at_any_address() {
    let bytes = [&[0xFF; 3][..], &all_kinds(), &[0xFF; 3], &measured_late()].concat();
    for start in 0..4 {
        let moved = [&vec![0xFF; start][..], &bytes].concat();
        let first = &moved[start + 3..][..152];
        let second = &moved[start + 3 + 152 + 3..];
        let expected = entries(&all_kinds(), &measured_late());
        assert_eq!(entries(first, second), expected);
    }
    // An unknown block whose body is a packet.
    let outer = packet(1, &[block(9, 0, &all_kinds())]);
    let inner = &outer[12..];
    assert_eq!(entries(&outer, inner), entries(&outer, &all_kinds()));
    assert_eq!(entries(inner, &outer), entries(&all_kinds(), &outer));
}

/// All pairs of two packets of up to two blocks from a choice of nine.
#[test]
fn every_choice_of_two_blocks_each() {
    let mut bad_rate = listed(18, 5);
    bad_rate[8] = 0x90;
    let choices = [
        vec![],
        listed(14, 5),
        listed(14, 6),
        sourced(14, 6, 5),
        listed(17, 5),
        listed(18, 5),
        listed(18, 6),
        bad_rate,
        listed(240, 5),
        block(9, 0, &[]),
    ];
    let all: Vec<_> = (0..choices.len().pow(2))
        .map(|number| {
            let chosen = [number / choices.len(), number % choices.len()];
            packet(1, &chosen.map(|choice| choices[choice].clone()))
        })
        .collect();
    for first in &all {
        for second in &all {
            let found = lawful_entries(first, second);
            assert!(!found.is_empty() || first == second);
        }
    }
}

/// Packets drawn apart, and any bytes; every refusal of a packet is met.
#[test]
fn any_packets() {
    let mut random = Random::new("differences any_packets");
    let mut seen = BTreeSet::new();
    let pairs = from_env("NUVASKOE_PACKETS", PAIRS);
    for _ in 0..pairs {
        let (first, second) = any_pair(&mut random);
        seen.insert(entries(&first, &second).map_or_else(|refusal| refusal.0, |_| 0));
        let mut damaged = random_packet(&mut random);
        damage(&mut random, &mut damaged);
        let _ = entries(&first, &damaged);
        let _ = entries(&damaged, &second);
    }
    assert!(pairs < PAIRS || seen == BTreeSet::from([0, 1, 2, 3, 4, 5, 6]));
}
