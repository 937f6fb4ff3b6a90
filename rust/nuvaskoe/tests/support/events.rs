//! What counts, by the caller's choice: the events of both implementations, their numbers at the
//! boundary, numbers that are none, and traces for each choice.

use super::Random;
use independent::trace::Event;
use nuvaskoe::trace;
use std::fmt::Debug;

/// The choices, in the order of their numbers.
pub const EVENTS: [Event; 3] = [Event::Lost, Event::Discarded, Event::Either];
/// Those that have a block of their own, 17 and 18.
pub const REPORTED: [Event; 2] = [Event::Lost, Event::Discarded];
/// Numbers that are no event, such as would be one if cut to fewer bits among them.
pub const NO_EVENTS: [u32; 16] = [
    0,
    4,
    5,
    127,
    255,
    256,
    257,
    258,
    259,
    65_537,
    65_538,
    65_539,
    1 << 31,
    (1 << 31) | 1,
    (1 << 31) | 3,
    u32::MAX,
];

/// These, one bit alone, and any with a bit that no event has.
pub fn many_no_events(random: &mut Random) -> Vec<u32> {
    let mut numbers = NO_EVENTS.to_vec();
    numbers.extend((2..32).map(|bit| 1 << bit));
    numbers.extend((0..300).map(|_| random.draw() as u32 | 4));
    numbers
}

/// An event's number at the boundary, by the words of include/nuvaskoe.h.
pub fn number_of(event: Event) -> u32 {
    match event {
        Event::Lost => 1,
        Event::Discarded => 2,
        Event::Either => 3,
    }
}

/// The event with this number.
pub fn event_numbered(number: u32) -> Option<Event> {
    let mut events = EVENTS.into_iter();
    events.find(|event| number_of(*event) == number)
}

/// An event's number, at times one that is none.
pub fn any_event(random: &mut Random) -> u32 {
    let any = random.draw() as u32;
    match random.below(12) {
        0 => random.one_of(&NO_EVENTS),
        1 => any,
        _ => number_of(random.one_of(&EVENTS)),
    }
}

pub fn library_event(event: Event) -> trace::Event {
    match event {
        Event::Lost => trace::Event::Lost,
        Event::Discarded => trace::Event::Discarded,
        Event::Either => trace::Event::Either,
    }
}

pub fn independent_event(event: trace::Event) -> Event {
    match event {
        trace::Event::Lost => Event::Lost,
        trace::Event::Discarded => Event::Discarded,
        trace::Event::Either => Event::Either,
        other => unreachable!("{other:?}"),
    }
}

/// The same trace, with lost and discarded packets exchanged.
pub fn exchanged(trace: &[u8]) -> Vec<u8> {
    let exchange = |packet: &u8| match packet {
        1 | 2 => 3 - packet,
        other => *other,
    };
    trace.iter().map(exchange).collect()
}

/// A trace of which the event counts the packets that are lost in this one, and no other.
pub fn recast(trace: &[u8], event: Event) -> Vec<u8> {
    match event {
        Event::Lost => trace.to_vec(),
        Event::Discarded => exchanged(trace),
        Event::Either => {
            let kinds = [1, 2].into_iter().cycle();
            let mixed = |(packet, kind): (&u8, u8)| match packet {
                1 => kind,
                2 => 0,
                other => *other,
            };
            trace.iter().zip(kinds).map(mixed).collect()
        }
    }
}

/// An answer by each choice, to a trace of which that counts the packets lost in this one: by all
/// three it is the same.
pub fn by_each<T: PartialEq + Debug>(trace: &[u8], answer: impl Fn(&[u8], Event) -> T) -> T {
    let [lost, discarded, either] = EVENTS.map(|event| answer(&recast(trace, event), event));
    assert_eq!(lost, discarded);
    assert_eq!(lost, either);
    lost
}

/// Makes of none, some or all lost packets discarded ones.
pub fn make_late(random: &mut Random, trace: &mut [u8]) {
    let share = random.one_of(&[0, 0, 20, 50, 80, 100]);
    for packet in trace.iter_mut().filter(|packet| **packet == 1) {
        if random.below(100) < share {
            *packet = 2;
        }
    }
}
