//! Traces written as blocks of type 1, and both calls at the limits of lengths, rooms and packets,
//! their refusals in order, beside the independent ones.

mod support;

use std::collections::BTreeSet;
use support::{
    adding::{add_lawfully, new_both, one_of_each, with_room},
    answers::Answer,
    compare::verdicts,
    drawn_runs::{any_trace, begin, covering, lossy, rle_block, run, MOST, NULL},
    from_env,
    packets::{
        all_kinds, any_packet, block, listed, measured_late, one_block, packet, random_packet,
        LONGEST, P12,
    },
    pattern,
    runs::{add_rle_both, add_rle_lawfully, bytes_of_rle, rle_both},
    Random,
};

/// How many packets a test draws; `NUVASKOE_PACKETS` overrides.
const PACKETS: usize = 20_000;

fn packets() -> usize {
    from_env("NUVASKOE_PACKETS", PACKETS)
}

/// What adding to a good packet comes to, far from the longest.
fn expected(start: usize, length: usize, trace: &[u8]) -> Answer<usize> {
    let size = start + bytes_of_rle(trace.len());
    let bad = trace.iter().position(|packet| *packet > 1);
    match (trace.len(), bad) {
        (0 | 65_534.., _) => Err((10, 0)),
        (_, Some(place)) => Err((9, place)),
        _ if size > length => Err((8, 0)),
        _ => Ok(size),
    }
}

/// "Vector chunks alone, unused bits zero, and a null chunk where the count is odd", by hand.
#[test]
fn written_by_hand() {
    let (_, mut buffer) = new_both(1, 40);
    let trace = [0, 1, 1, 0, 1, 0];
    assert_eq!(add_rle_lawfully(&mut buffer, 2, 65_534, &trace), Ok(24));
    let head = [1, 0, 0, 3, 0, 0, 0, 2, 0xFF, 0xFE, 0, 4];
    assert_eq!(buffer[8..20], head);
    // Behind the type: received, lost, lost, received, lost, received; then a null chunk.
    assert_eq!(buffer[20..24], [0b1100_1010, 0, 0, 0]);
    // A vector and one packet more: two chunks, and no null.
    let (_, mut buffer) = new_both(1, 40);
    let trace = [1, 1, 1, 1, 1, 1, 1, 1, 1, 1, 1, 1, 1, 1, 0, 1];
    assert_eq!(add_rle_lawfully(&mut buffer, 2, 0, &trace), Ok(24));
    assert_eq!(buffer[20..24], [0x80, 0x01, 0x80, 0x00]);
}

/// Every length up to some vectors, all received, all lost and mixed.
#[test]
fn every_short_length() {
    let mut random = Random::new("runs_limits every_short_length");
    for length in 0..=200 {
        for trace in [
            vec![0; length],
            vec![1; length],
            lossy(&mut random, length),
            lossy(&mut random, length),
        ] {
            let mut buffer = with_room(&P12, 60);
            let begin = begin(&mut random);
            let answer = add_rle_lawfully(&mut buffer, 9, begin, &trace);
            assert_eq!(answer, expected(20, 80, &trace), "{length}");
        }
    }
}

/// All traces of up to ten packets.
#[test]
fn every_short_trace() {
    for length in 1..=10 {
        for bits in 0..1u32 << length {
            let trace: Vec<u8> = (0..length).map(|at| (bits >> at & 1) as u8).collect();
            let (_, mut buffer) = new_both(1, 24);
            assert_eq!(add_rle_lawfully(&mut buffer, 3, 65_530, &trace), Ok(24));
        }
    }
}

/// Lengths at the limit and past it.
#[test]
fn the_longest_trace() {
    let mut random = Random::new("runs_limits the_longest_trace");
    for length in [
        65_520, 65_532, MOST, 65_534, 65_535, 65_536, 65_537, 131_072,
    ] {
        let trace = lossy(&mut random, length);
        let mut buffer = with_room(&P12, 20_000);
        for begin in [0, 1, 2, 65_535] {
            let answer = add_rle_lawfully(&mut buffer, 9, begin, &trace);
            let good = length <= MOST;
            assert_eq!(answer.is_ok(), good, "{length}");
            assert!(good || answer == Err((10, 0)), "{length}");
            buffer[2..4].copy_from_slice(&P12[2..4]);
        }
    }
}

/// Every byte at every place of a trace: 0 and 1 are packets, and 2 is refused like any other.
#[test]
fn every_byte_of_a_trace() {
    for place in 0..34 {
        for byte in 0..=u8::MAX {
            let mut trace = [0, 1].repeat(17);
            trace[place] = byte;
            let mut buffer = with_room(&P12, 20);
            let answer = add_rle_lawfully(&mut buffer, 1, 2, &trace);
            assert_eq!(answer, expected(20, 40, &trace), "{byte} at {place}");
            // The first of two is told.
            trace[33] = 2;
            let answer = add_rle_both(&mut with_room(&P12, 20), 1, 2, &trace);
            assert_eq!(answer, expected(20, 40, &trace), "{byte} at {place}");
        }
    }
    // Far behind.
    for place in [255, 256, 4_095, 32_768, MOST - 1] {
        let mut trace = vec![0; MOST];
        trace[place] = 2;
        let answer = add_rle_both(&mut with_room(&P12, 9_000), 1, 2, &trace);
        assert_eq!(answer, Err((9, place)));
    }
}

/// Every room from none to more than it needs, for both calls.
#[test]
fn every_room() {
    let mut random = Random::new("runs_limits every_room");
    for length in [1, 15, 16, 30, 31, 45, 100] {
        let trace = lossy(&mut random, length);
        for room in 0..=bytes_of_rle(length) + 5 {
            let mut buffer = with_room(&measured_late(), room);
            let (start, all) = (measured_late().len(), buffer.len());
            let answer = add_rle_lawfully(&mut buffer, 6, 7, &trace);
            assert_eq!(answer, expected(start, all, &trace), "{room}");
        }
        let bytes = packet(
            1,
            &[rle_block(3, 7, length, &covering(&mut random, length))],
        );
        for room in 0..length + 40 {
            let expected = if room < length {
                Err((8, 0))
            } else {
                Ok(length)
            };
            assert_eq!(rle_both(&bytes, 0, room).0, expected, "{room}");
        }
    }
    // No packets need no room.
    let bytes = packet(1, &[rle_block(3, 7, 0, &[NULL])]);
    for room in 0..3 {
        assert_eq!(rle_both(&bytes, 0, room).0, Ok(0));
    }
}

/// The longest packet, reached and passed by a word: 17 comes before 8.
#[test]
fn up_to_the_longest_packet() {
    for length in [1, 30, 31, 60, MOST] {
        let trace = vec![1; length];
        let needed = bytes_of_rle(length);
        for size in [
            LONGEST - needed - 4,
            LONGEST - needed,
            LONGEST - needed + 4,
            LONGEST,
        ] {
            let new_size = size + needed;
            for room in [0, needed - 1, needed, needed + 9] {
                let mut buffer = with_room(&one_block(size), room);
                let expected = match (new_size <= LONGEST, new_size <= size + room) {
                    (false, _) => Err((17, 0)),
                    (true, false) => Err((8, 0)),
                    (true, true) => Ok(new_size),
                };
                let answer = add_rle_lawfully(&mut buffer, 1, 9, &trace);
                assert_eq!(answer, expected, "{length} to {size}, {room}");
            }
        }
    }
}

/// The longest block that a packet can have, no packets and nulls alone; and a run for each packet.
#[test]
fn the_longest_block() {
    let words = (LONGEST - 12) / 4;
    let nulls = vec![NULL; 2 * (words - 2)];
    let mut bytes = packet(1, &[rle_block(3, 7, 0, &nulls)]);
    assert_eq!(bytes.len(), LONGEST);
    assert_eq!(verdicts(&bytes), [254]);
    assert_eq!(rle_both(&bytes, 0, 4).0, Ok(0));
    // The last chunk is one behind the end.
    bytes[LONGEST - 1] = 1;
    assert_eq!(verdicts(&bytes), [5]);
    assert_eq!(rle_both(&bytes, 0, 4).0, Err((7, 0)));
    let runs: Vec<u16> = (0..MOST).map(|at| run(at % 3 != 0, 1)).collect();
    let bytes = packet(1, &[rle_block(3, 7, MOST, &runs)]);
    let (answer, trace) = rle_both(&bytes, 0, MOST);
    assert_eq!(answer, Ok(MOST));
    let third = |(at, packet): (usize, &u8)| *packet == u8::from(at % 3 == 0);
    assert!(trace.iter().enumerate().all(third));
}

/// The refusals of adding, in their order.
const ORDER: [u32; 10] = [1, 2, 3, 4, 5, 6, 10, 9, 17, 8];

/// All sets of faults but those of the length of a packet and of a trace at once: the first in order
/// is the answer.
#[test]
fn faults_in_all_combinations() {
    for set in 0..1u32 << ORDER.len() {
        let has = |number: u32| {
            let place = ORDER.iter().position(|other| *other == number);
            set >> place.expect("a refusal of adding") & 1 == 1
        };
        // An empty trace has no bad byte, and a long one may.
        let mut trace = if has(10) {
            vec![0; MOST + 1]
        } else {
            vec![0; 40]
        };
        if has(9) {
            trace[7] = 2;
        }
        let needed = bytes_of_rle(trace.len());
        let size = if has(17) { LONGEST - needed + 4 } else { 40 };
        let filler = block(2, 0, &vec![0; size - 32]);
        let mut bytes = packet(7, &[listed(240, 2), filler, block(2, 0, &[0; 4])]);
        assert_eq!(bytes.len(), size);
        bytes[0] ^= if has(2) { 0x40 } else { 0 };
        bytes[0] |= if has(5) { 0x20 } else { 0 };
        bytes[1] = if has(3) { 200 } else { 207 };
        if has(4) {
            bytes[2..4].copy_from_slice(&[0, 0]);
        }
        if has(6) {
            bytes[size - 5] = 2;
        }
        let room = if has(8) { needed - 1 } else { needed };
        let mut buffer = with_room(&bytes, room);
        if has(1) {
            buffer.truncate(7);
        }
        let expected = match ORDER.into_iter().find(|number| has(*number)) {
            None => Ok(size + needed),
            Some(6) => Err((6, size - 8)),
            Some(9) => Err((9, 7)),
            Some(number) => Err((number, 0)),
        };
        let answer = add_rle_both(&mut buffer, 1, 9, &trace);
        assert_eq!(answer, expected, "faults {set:b}");
    }
}

/// Reading out: 1 to 6 of the whole packet, then 7, then 8.
#[test]
fn refusals_of_reading_out() {
    let rle = rle_block(3, 7, 20, &[run(true, 20)]);
    let good = packet(1, &[listed(14, 5), rle, listed(17, 5)]);
    let changed = |place: usize, byte: u8| {
        let mut bytes = good.clone();
        bytes[place] = byte;
        bytes
    };
    let last = good.len() - 16;
    let refused = [
        (good[..7].to_vec(), (1, 0)),
        (changed(0, 0x40), (2, 0)),
        (changed(1, 206), (3, 0)),
        (changed(3, 7), (4, 0)),
        (changed(0, 0xA0), (5, 0)),
        (changed(last + 3, 9), (6, last)),
    ];
    for room in [0, 19, 20, 30] {
        for (bytes, refusal) in &refused {
            for index in 0..5 {
                assert_eq!(rle_both(bytes, index, room).0, Err(*refusal));
            }
        }
        for index in [0, 2, 3] {
            assert_eq!(rle_both(&good, index, room).0, Err((7, 0)));
        }
        let expected = if room < 20 { Err((8, 0)) } else { Ok(20) };
        assert_eq!(rle_both(&good, 1, room).0, expected);
    }
}

/// Traces and typed blocks added in turn: all read back, and earlier blocks stay as they are.
#[test]
fn among_typed_blocks() {
    let mut random = Random::new("runs_limits among_typed_blocks");
    for _ in 0..packets() / 50 {
        let (_, mut buffer) = new_both(random.draw() as u32, 2_000);
        for _ in 0..6 {
            let length = 1 + random.below(120);
            let trace = lossy(&mut random, length);
            let begin = begin(&mut random);
            assert!(add_rle_lawfully(&mut buffer, 5, begin, &trace).is_ok());
            let added = random.one_of(&one_of_each(5));
            assert!(add_lawfully(&mut buffer, &added).is_ok());
        }
    }
}

/// Any trace to any packet meets every refusal.
#[test]
fn adding_to_any_packet() {
    let mut random = Random::new("runs_limits adding_to_any_packet");
    let mut seen = BTreeSet::new();
    for _ in 0..packets() / 2 {
        let bytes = match random.below(3) {
            0 => any_packet(&mut random),
            _ => random_packet(&mut random),
        };
        let trace = any_trace(&mut random);
        let needed = bytes_of_rle(trace.len());
        let room = random.one_of(&[0, needed - 1, needed, needed + 50]);
        let mut buffer = with_room(&bytes, room);
        let answer = add_rle_lawfully(&mut buffer, 1, begin(&mut random), &trace);
        seen.insert(answer.map_or_else(|refusal| refusal.0, |_| 0));
    }
    let all = BTreeSet::from_iter(ORDER.into_iter().chain([0]));
    assert!(packets() < PACKETS || seen == all, "{seen:?}");
}

/// A buffer, and a trace, start anywhere.
#[test]
fn every_alignment() {
    for start in 0..16 {
        let mut bytes = pattern(start + 300);
        let trace = [0, 1, 1, 0, 1].repeat(20);
        let buffer = &mut bytes[start..];
        buffer[..8].copy_from_slice(&[0x80, 207, 0, 1, 0, 0, 0, 9]);
        for front in 0..16 {
            assert!(add_rle_lawfully(buffer, 5, 6, &trace[front..front + 31]).is_ok());
            buffer[2..4].copy_from_slice(&[0, 1]);
        }
        assert_eq!(bytes[..start], pattern(start));
    }
    assert!(add_rle_lawfully(&mut with_room(&all_kinds(), 300), 5, 6, &[1; 200]).is_ok());
}
