mod choices;
mod figures;

use super::*;
use crate::choices::EVENTS;
use Event::{Discarded, Either, Lost};

/// A trace from its digits.
fn trace(digits: &str) -> Vec<u8> {
    digits.bytes().map(|digit| digit - b'0').collect()
}

/// `length` packets, lost where listed.
fn losing(length: usize, lost: &[usize]) -> Vec<u8> {
    let byte = |packet| u8::from(lost.contains(&packet));
    (0..length).map(byte).collect()
}

/// "Packet i in word i / 64 at bit i modulo 64", "a one for each packet counted by the choice it
/// was packed by", "bits past the end zero".
fn plain(trace: &[u8], event: Event) -> Vec<u64> {
    let mut words = vec![0; trace.len().div_ceil(64)];
    for (i, byte) in trace.iter().enumerate() {
        if event.counts(*byte) {
            words[i / 64] |= 1 << (i % 64);
        }
    }
    words
}

/// What stands in words that a call is not to change.
const HELD: u64 = 0xA5A5_5A5A_0F0F_F0F0;

/// The call with room for `length` words, and the words after it.
fn lent(trace: &[u8], event: Event, length: usize) -> (Result<usize, Refusal>, Vec<u64>) {
    let mut out = vec![HELD; length];
    let answer = pack(trace, event, &mut out);
    (answer, out)
}

/// Refused by every choice, whatever the room, and nothing is written.
fn not_packed(trace: &[u8], refusal: Refusal) {
    for event in EVENTS {
        for length in [0, 1, 2, 1_025] {
            let unchanged = (Err(refusal), vec![HELD; length]);
            assert_eq!(lent(trace, event, length), unchanged);
        }
    }
}

/// Refused whatever the room, and nothing is written.
fn not_unpacked(words: &[u64], packets: usize, refusal: Refusal) {
    for length in [0, 1, 64, 300] {
        let mut out = vec![0xA5; length];
        assert_eq!(unpack(words, packets, &mut out), Err(refusal));
        assert_eq!(out, vec![0xA5; length]);
    }
}

/// The words of a trace by this choice, which packing gives with just enough room or more, and
/// refuses with less.
fn packed(trace: &[u8], event: Event) -> Vec<u64> {
    let words = plain(trace, event);
    for more in [0, 1, 9] {
        let held = [&words[..], &vec![HELD; more]].concat();
        assert_eq!(lent(trace, event, held.len()), (Ok(words.len()), held));
    }
    for less in [0, words.len() - 1] {
        let unchanged = (Err(Refusal::BUFFER_SHORT), vec![HELD; less]);
        assert_eq!(lent(trace, event, less), unchanged);
    }
    words
}

/// The words of a trace without discards, by lost only and by either, which unpacking turns back
/// with just enough room or more, and refuses with less. Words past those needed are not read.
fn both_ways(trace: &[u8]) -> Vec<u64> {
    let (words, packets) = (packed(trace, Lost), trace.len());
    assert_eq!(packed(trace, Either), words);
    for more in [0, 1, 9] {
        let held = [&words[..], &vec![HELD; more]].concat();
        let mut out = vec![0xA5; packets + more];
        assert_eq!(unpack(&held, packets, &mut out), Ok(packets));
        assert_eq!(out, [trace, &vec![0xA5; more]].concat());
    }
    for less in [0, words.len() - 1] {
        not_unpacked(&words[..less], packets, Refusal::BUFFER_SHORT);
    }
    for less in [0, packets / 2, packets - 1] {
        let mut out = vec![0xA5; less];
        let answer = unpack(&words, packets, &mut out);
        assert_eq!(answer, Err(Refusal::BUFFER_SHORT));
        assert_eq!(out, vec![0xA5; less]);
    }
    words
}

/// Numbers that look random, the same in every run.
struct Numbers(u64);

impl Numbers {
    fn word(&mut self) -> u64 {
        self.0 ^= self.0 << 13;
        self.0 ^= self.0 >> 7;
        self.0 ^= self.0 << 17;
        self.0.wrapping_mul(0x2545_F491_4F6C_DD1D)
    }

    /// A number below `bound`.
    fn below(&mut self, bound: usize) -> usize {
        (self.word() >> 32) as usize % bound
    }

    /// A trace of so many packets, few of them lost, or half, or most.
    fn trace(&mut self, packets: usize) -> Vec<u8> {
        let percent = [1, 5, 20, 50, 80, 99][self.below(6)];
        (0..packets)
            .map(|_| u8::from(self.below(100) < percent))
            .collect()
    }

    /// The same, some of those lost discarded instead.
    fn mixed(&mut self, packets: usize) -> Vec<u8> {
        let percent = [0, 10, 50, 100][self.below(4)];
        let mut trace = self.trace(packets);
        for byte in trace.iter_mut().filter(|byte| **byte == 1) {
            *byte += u8::from(self.below(100) < percent);
        }
        trace
    }
}

#[test]
fn by_hand() {
    // Packets 1, 2, 4 and 6: 2 + 4 + 16 + 64.
    assert_eq!(both_ways(&trace("011010100")), [86]);
    assert_eq!(both_ways(&trace("0")), [0]);
    assert_eq!(both_ways(&trace("1")), [1]);
    assert_eq!(both_ways(&trace("1000000011")), [0x301]);
}

#[test]
fn about_a_whole_word() {
    assert_eq!(both_ways(&[1; 63]), [u64::MAX >> 1]);
    assert_eq!(both_ways(&[1; 64]), [u64::MAX]);
    assert_eq!(both_ways(&[1; 65]), [u64::MAX, 1]);
    assert_eq!(both_ways(&losing(63, &[62])), [1 << 62]);
    assert_eq!(both_ways(&losing(64, &[63])), [1 << 63]);
    assert_eq!(both_ways(&losing(65, &[64])), [0, 1]);
    assert_eq!(both_ways(&losing(65, &[0, 63])), [1 | 1 << 63, 0]);
    assert_eq!(both_ways(&losing(128, &[64, 127])), [0, 1 | 1 << 63]);
    assert_eq!(both_ways(&losing(129, &[7, 72, 128])), [1 << 7, 1 << 8, 1]);
}

#[test]
fn every_short_trace_and_every_place() {
    for length in 1..=8 {
        for number in 0..1_u64 << length {
            let trace: Vec<u8> = (0..length)
                .map(|packet| (number >> packet & 1) as u8)
                .collect();
            assert_eq!(both_ways(&trace), [number]);
        }
    }
    // One packet unlike the others, or none.
    for length in 1..=200 {
        for packet in 0..=length {
            let lost = losing(length, &[packet]);
            both_ways(&lost);
            both_ways(&lost.iter().map(|byte| 1 - byte).collect::<Vec<u8>>());
        }
    }
}

#[test]
fn random_traces_and_words() {
    let mut numbers = Numbers(0x9E37_79B9_7F4A_7C15);
    for round in 0..500 {
        let packets = match round % 25 {
            0 => 1 + numbers.below(65_536),
            _ => 1 + numbers.below(400),
        };
        both_ways(&numbers.trace(packets));
        // Words to bytes and back are the words.
        let mut words: Vec<u64> = (0..packets.div_ceil(64)).map(|_| numbers.word()).collect();
        if packets % 64 > 0 {
            *words.last_mut().unwrap() &= (1 << (packets % 64)) - 1;
        }
        let mut out = vec![0xA5; packets];
        assert_eq!(unpack(&words, packets, &mut out), Ok(packets));
        for event in [Lost, Either] {
            let there_and_back = (Ok(words.len()), words.clone());
            assert_eq!(lent(&out, event, words.len()), there_and_back);
        }
    }
}

#[test]
fn from_1_to_65_536_packets() {
    for byte in [0, 1] {
        let words = both_ways(&vec![byte; 65_536]);
        assert_eq!(words, vec![u64::MAX * u64::from(byte); 1_024]);
    }
    assert_eq!(both_ways(&losing(65_535, &[65_534]))[1_023], 1 << 62);
    for packets in [0, 65_537, 65_600, 131_072] {
        // 10 comes before 9 and 8.
        for byte in [0, 2, 3] {
            not_packed(&vec![byte; packets], Refusal::TRACE_LENGTH);
        }
    }
    for packets in [0, 65_537, 1 << 32, 1 << 58, usize::MAX] {
        for words in [0, 1, 1_024, 1_025] {
            not_unpacked(&vec![HELD; words], packets, Refusal::TRACE_LENGTH);
        }
    }
}

/// A byte above 2, at the first such byte and before the room: "packing no longer refuses 2".
#[test]
fn bytes_above_2() {
    for byte in 3..=255 {
        for (place, packets) in [(0, 1), (2, 5), (63, 64), (64, 65), (100, 300)] {
            let mut trace = vec![1; packets];
            trace[place] = byte;
            not_packed(&trace, Refusal::trace_byte(place));
            trace[place..].fill(byte);
            not_packed(&trace, Refusal::trace_byte(place));
            // A 2 before it is not the first bad byte.
            trace[..place].fill(2);
            not_packed(&trace, Refusal::trace_byte(place));
        }
    }
    let mut longest = vec![2; 65_536];
    longest[65_535] = 3;
    not_packed(&longest, Refusal::trace_byte(65_535));
}

/// "9 at the index, counted on from the packets, of the first nonzero bit past the end in the
/// last needed word": each such bit, with none or all of those above it.
#[test]
fn bits_past_the_end() {
    for packets in 1..=192_usize {
        let needed = packets.div_ceil(64);
        for bit in packets..64 * needed {
            for past in [1 << (bit % 64), u64::MAX << (bit % 64)] {
                let mut words = both_ways(&vec![1; packets]);
                words[needed - 1] |= past;
                not_unpacked(&words, packets, Refusal::trace_byte(bit));
                // The next word has no say.
                words.push(u64::MAX);
                not_unpacked(&words, packets, Refusal::trace_byte(bit));
            }
        }
    }
    not_unpacked(&[2], 1, Refusal::trace_byte(1));
    not_unpacked(&[1 << 63], 63, Refusal::trace_byte(63));
    not_unpacked(&[0, 6], 65, Refusal::trace_byte(65));
    not_unpacked(&[HELD; 1_024], 65_535, Refusal::trace_byte(65_535));
}

/// A word slice too short to read comes before bits past the end, and those before the room.
#[test]
fn an_8_before_9_and_an_8_after_it() {
    not_unpacked(&[], 1, Refusal::BUFFER_SHORT);
    not_unpacked(&[u64::MAX], 65, Refusal::BUFFER_SHORT);
    not_unpacked(&[u64::MAX; 2], 65, Refusal::trace_byte(65));
    let answer = unpack(&[u64::MAX, 1], 65, &mut [0; 64]);
    assert_eq!(answer, Err(Refusal::BUFFER_SHORT));
    assert_eq!(unpack(&[u64::MAX, 1], 65, &mut [0; 65]), Ok(65));
    let refusal = Refusal::BUFFER_SHORT;
    assert_eq!((refusal.number, refusal.place), (8, 0));
}
