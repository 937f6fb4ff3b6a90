//! The library's tallies beside the independent ones: the whole answers of the boundary, then
//! the safe calls, where they have such a tally.

use super::{
    adding::library_block,
    answers::{ours, refusal, theirs, Answer},
    boundary::{self, Tallied},
    events::{event_numbered, independent_event, library_event, number_of},
    measuring::{figured, independent_figures, summarized, LONGEST},
    raw,
};
use independent::{block::Block, burst::Figures, late_tally, summary, tally::Tally as Independent};
use nuvaskoe::{
    tally::{Stretch, Sums, Tally},
    trace::Event,
};

/// The most packets, and the most of each other number that a sound tally can hold.
pub const PACKETS: u64 = LONGEST as u64;
pub const BURSTS: u64 = PACKETS / 2;
pub const DURATIONS: u64 = 2_621_440;
pub const SQUARES: u64 = DURATIONS * DURATIONS;

/// The sums and the open stretch, in the order of their structs.
pub const FIELDS: usize = 10;
pub const LIMITS: [u64; FIELDS] = [
    PACKETS, PACKETS, PACKETS, PACKETS, BURSTS, DURATIONS, SQUARES, PACKETS, PACKETS, PACKETS,
];

/// What a refused opening hands out.
const NO_TALLY: boundary::Tally = numbered(0, 0, 0, [0; FIELDS]);

/// Opens a tally, and gives the answer on which all agree. An event that is none is refused.
pub fn open_numbered(gmin: u32, spacing: u32, event: u32) -> Answer<boundary::Tally> {
    let expected = match event_numbered(event) {
        None => Err((15, 0)),
        Some(event) => {
            let opened = theirs(Independent::open(gmin.into(), spacing.into(), event));
            let safe = ours(Tally::open(gmin, spacing, library_event(event)));
            assert_eq!(
                safe.map(|tally| at_boundary(&tally)),
                opened.map(|tally| of_independent(&tally)),
                "{gmin}, {spacing}, {event:?}"
            );
            opened.map(|tally| of_independent(&tally))
        }
    };
    let whole = Tallied {
        refusal: refusal(&expected),
        tally: expected.unwrap_or(NO_TALLY),
    };
    let answer = raw::tally_open(gmin, spacing, event);
    assert_eq!(answer, whole, "{gmin}, {spacing}, {event}");
    expected
}

/// Gives the tally a packet, and gives the next tally and the answer on which all agree. A
/// refused tally comes back as given.
pub fn take_numbered(given: boundary::Tally, packet: u8) -> (boundary::Tally, Answer<()>) {
    let (next, expected) = match independent_numbers(&given) {
        None => (given, Err((15, 0))),
        Some(tally) => {
            let (next, answer) = late_tally::take(tally, packet);
            (of_independent(&next), theirs(answer))
        }
    };
    let whole = Tallied {
        refusal: refusal(&expected),
        tally: next,
    };
    let answer = raw::tally_take(given, packet);
    assert_eq!(answer, whole, "{given:?}, {packet}");
    if let Some(tally) = library_tally(&given) {
        let (safe_next, answer) = tally.take(packet);
        let safe = (at_boundary(&safe_next), ours(answer));
        assert_eq!(safe, (next, expected), "{given:?}, {packet}");
    }
    (next, expected)
}

/// Closes the tally, and gives the answer on which all agree.
pub fn close_numbered(given: boundary::Tally) -> Answer<Figures> {
    let expected = match independent_numbers(&given) {
        None => Err((15, 0)),
        Some(tally) => theirs(tally.close()),
    };
    assert_eq!(raw::tally_close(given), figured(&expected), "{given:?}");
    if let Some(tally) = library_tally(&given) {
        let safe = ours(tally.close()).map(|figures| independent_figures(&figures));
        assert_eq!(safe, expected, "{given:?}");
    }
    expected
}

/// The tally's block, on which all agree; one that counts either has none.
pub fn tally_block_numbered(given: boundary::Tally, source: u32, flag: u8) -> Answer<Block> {
    let expected = match independent_numbers(&given) {
        None => Err((15, 0)),
        Some(tally) => theirs(summary::of_tally(tally, source, flag)),
    };
    let answer = raw::tally_block(given, source, flag);
    assert_eq!(answer, summarized(&expected), "{given:?}, {source}, {flag}");
    if let Some(tally) = library_tally(&given) {
        let safe = ours(tally.block(source, flag));
        let in_our_words = expected.map(|block| library_block(&block));
        assert_eq!(safe, in_our_words, "{given:?}, {source}, {flag}");
    }
    expected
}

/// The same calls on the library's own tallies.
pub fn open_both(gmin: u32, spacing: u32, event: Event) -> Answer<Tally> {
    let number = number_of(independent_event(event));
    open_numbered(gmin, spacing, number).map(|numbers| known(&numbers))
}

pub fn take_both(given: Tally, packet: u8) -> (Tally, Answer<()>) {
    let (next, answer) = take_numbered(at_boundary(&given), packet);
    (known(&next), answer)
}

pub fn close_both(given: Tally) -> Answer<Figures> {
    close_numbered(at_boundary(&given))
}

pub fn tally_block_both(given: Tally, source: u32, flag: u8) -> Answer<Block> {
    tally_block_numbered(at_boundary(&given), source, flag)
}

fn known(numbers: &boundary::Tally) -> Tally {
    library_tally(numbers).expect("a tally with an event")
}

pub fn tally(gmin: u32, spacing: u32, event: Event, fields: [u64; FIELDS]) -> Tally {
    let number = number_of(independent_event(event));
    known(&numbered(gmin, spacing, number, fields))
}

pub const fn numbered(
    gmin: u32,
    spacing: u32,
    event: u32,
    fields: [u64; FIELDS],
) -> boundary::Tally {
    let [packets, events, burst_packets, burst_events, bursts, durations, squares, stretch @ ..] =
        fields;
    boundary::Tally {
        gmin,
        spacing,
        event,
        sums: boundary::Sums {
            packets,
            events,
            burst_packets,
            burst_events,
            bursts,
            durations,
            squares,
        },
        stretch: boundary::Stretch {
            events: stretch[0],
            packets: stretch[1],
            since: stretch[2],
        },
    }
}

pub fn fields(tally: &Tally) -> [u64; FIELDS] {
    let (sums, stretch) = (&tally.sums, &tally.stretch);
    [
        sums.packets,
        sums.events,
        sums.burst_packets,
        sums.burst_events,
        sums.bursts,
        sums.durations,
        sums.squares,
        stretch.events,
        stretch.packets,
        stretch.since,
    ]
}

/// The library's tally in the numbers of the boundary.
pub fn at_boundary(tally: &Tally) -> boundary::Tally {
    let event = number_of(independent_event(tally.event));
    numbered(tally.gmin, tally.spacing, event, fields(tally))
}

/// The library's tally of these numbers; none where its event is none.
fn library_tally(numbers: &boundary::Tally) -> Option<Tally> {
    let event = library_event(event_numbered(numbers.event)?);
    let mut sums = Sums::default();
    sums.packets = numbers.sums.packets;
    sums.events = numbers.sums.events;
    sums.burst_packets = numbers.sums.burst_packets;
    sums.burst_events = numbers.sums.burst_events;
    sums.bursts = numbers.sums.bursts;
    sums.durations = numbers.sums.durations;
    sums.squares = numbers.sums.squares;
    let stretch = Stretch {
        events: numbers.stretch.events,
        packets: numbers.stretch.packets,
        since: numbers.stretch.since,
    };
    let (gmin, spacing) = (numbers.gmin, numbers.spacing);
    Some(Tally::from_parts(gmin, spacing, event, sums, stretch))
}

/// The library's tally as an independent one.
pub fn independent_tally(tally: &Tally) -> Independent {
    independent_numbers(&at_boundary(tally)).expect("a tally with an event")
}

/// The independent tally of these numbers; none where its event is none.
fn independent_numbers(numbers: &boundary::Tally) -> Option<Independent> {
    Some(Independent {
        gmin: numbers.gmin.into(),
        spacing: numbers.spacing.into(),
        event: event_numbered(numbers.event)?,
        seen: numbers.sums.packets,
        events: numbers.sums.events,
        burst_packets: numbers.sums.burst_packets,
        burst_events: numbers.sums.burst_events,
        bursts: numbers.sums.bursts,
        duration_sum: numbers.sums.durations,
        duration_squares: numbers.sums.squares,
        open_events: numbers.stretch.events,
        open_packets: numbers.stretch.packets,
        open_gap: numbers.stretch.since,
    })
}

/// The numbers of an independent tally, whose settings came from 32 bits.
fn of_independent(tally: &Independent) -> boundary::Tally {
    let fields = [
        tally.seen,
        tally.events,
        tally.burst_packets,
        tally.burst_events,
        tally.bursts,
        tally.duration_sum,
        tally.duration_squares,
        tally.open_events,
        tally.open_packets,
        tally.open_gap,
    ];
    let event = number_of(tally.event);
    numbered(tally.gmin as u32, tally.spacing as u32, event, fields)
}
