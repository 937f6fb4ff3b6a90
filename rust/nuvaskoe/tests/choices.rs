//! What counts as a loss, by the caller's choice: document 02, ticket 7. By lost only every answer
//! is as it was; the other choices are told in terms of it, each call beside the independent one.

mod support;

use independent::trace::Event::{self, Discarded, Either, Lost};
use nuvaskoe::tally::Tally;
use support::{
    adding::with_room,
    answers::Answer,
    batches::{
        all_settings, all_traces, digits, loss_both, loss_numbered, plan_lawfully, plan_numbered,
        random_settings, random_trace, LONGEST,
    },
    drawn_packed, events,
    events::{exchanged, library_event, many_no_events, EVENTS, NO_EVENTS},
    from_env,
    measuring::{figures_both, random_gmin, random_spacing},
    packed::{
        pack_both, pack_numbered, packed_loss_both, packed_plan_into, unpack_both, word_pattern,
        Packed, WORD,
    },
    packets::packet,
    pattern,
    runs::{add_rle_both, bytes_of_rle},
    tallies::{fields, open_both, take_both, tally_block_both, FIELDS},
    Random,
};

/// How many traces a test draws; `NUVASKOE_TRACES` overrides.
const TRACES: usize = 300;

fn traces() -> usize {
    from_env("NUVASKOE_TRACES", TRACES)
}

/// The trace with every discarded packet lost.
fn late_as_lost(trace: &[u8]) -> Vec<u8> {
    trace.iter().map(|packet| u8::from(*packet != 0)).collect()
}

/// The trace as lost only has it: 1 for each counted packet, and 0 for each other.
fn ones(trace: &[u8], event: Event) -> Vec<u8> {
    let counted = trace.iter().map(|packet| event.counts(*packet).into());
    counted.collect()
}

/// Each choice but the first, and the trace of which lost only tells the same.
fn in_terms_of_lost(trace: &[u8]) -> [(Event, Vec<u8>); 2] {
    [(Discarded, exchanged(trace)), (Either, late_as_lost(trace))]
}

/// Received, lost and discarded packets of any length, lost at random or in bursts.
fn mixed(random: &mut Random) -> Vec<u8> {
    let most = random.one_of(&[30, 200, 3_000]);
    let length = 1 + random.below(most);
    random_trace(random, length)
}

/// The losses of P1 and P2 of document 01, the last two of them late.
const LATE: &str = "011020200";

/// By hand: what counts in [`LATE`] is 011000000, 000010100 and 011010100.
#[test]
fn by_hand() {
    let trace = digits(LATE);
    for (event, over, first, marks) in [
        (Lost, 2, 0, "001000000"),
        (Discarded, 1, 4, "000000100"),
        (Either, 4, 0, "001000100"),
    ] {
        let loss = loss_both(&trace, 3, 1, event).expect("an accepted trace");
        assert_eq!((loss.over, loss.batches), (over, 7));
        assert_eq!(u64::from(loss.index), over * 65_535 / 7);
        assert_eq!(loss.first, Some(first));
        let plan = plan_lawfully(&trace, (3, 1), event).1;
        assert_eq!(plan, digits(marks));
    }
    for (event, word) in [(Lost, 0x06), (Discarded, 0x50), (Either, 0x56)] {
        assert_eq!(pack_both(&trace, event, &[7]), (Ok(1), vec![word]));
    }
    // Gmin 2: lost 1 and 2; discarded 4 and 6; either all four, no two packets between two of them.
    for (event, burst_rate, mean) in [
        (Lost, 2 * 32_768 / 2, 2),
        (Discarded, 2 * 32_768 / 3, 3),
        (Either, 4 * 32_768 / 6, 6),
    ] {
        let figures = figures_both(&trace, 2, 1_000, event).expect("an accepted trace");
        assert_eq!(u32::from(figures.burst_rate), burst_rate);
        assert_eq!((figures.gap_rate, figures.mean), (0, mean));
        assert_eq!(figures.variance, 0);
    }
}

/// Discarded is lost with the two exchanged, and either is lost with every late packet lost: here
/// for figures.
fn check_figures(trace: &[u8], gmin: u32, spacing: u32) {
    for (event, by_lost) in in_terms_of_lost(trace) {
        let lost = figures_both(&by_lost, gmin, spacing, Lost);
        assert_eq!(figures_both(trace, gmin, spacing, event), lost, "{trace:?}");
    }
}

/// The numbers of the tally after each packet, the event aside.
fn tallied(trace: &[u8], gmin: u32, spacing: u32, event: Event) -> Vec<[u64; FIELDS]> {
    let opened = open_both(gmin, spacing, library_event(event));
    let mut tally = opened.expect("good settings");
    let after = |packet: &u8| {
        let (next, answer) = take_both(tally, *packet);
        assert_eq!(answer, Ok(()));
        tally = next;
        assert_eq!(tally.event, library_event(event));
        fields(&tally)
    };
    trace.iter().map(after).collect()
}

/// The same of a tally, packet by packet.
fn check_tallies(trace: &[u8], gmin: u32, spacing: u32) {
    for (event, by_lost) in in_terms_of_lost(trace) {
        let lost = tallied(&by_lost, gmin, spacing, Lost);
        assert_eq!(tallied(trace, gmin, spacing, event), lost, "{trace:?}");
    }
}

/// The same of effective loss and the plan.
fn check_batches(trace: &[u8], (batch, threshold): (u32, u32)) {
    for (event, by_lost) in in_terms_of_lost(trace) {
        let lost = loss_both(&by_lost, batch, threshold, Lost);
        let answer = loss_both(trace, batch, threshold, event);
        assert_eq!(answer, lost, "B {batch}, T {threshold}, {trace:?}");
        let lost = plan_lawfully(&by_lost, (batch, threshold), Lost);
        let plan = plan_lawfully(trace, (batch, threshold), event);
        assert_eq!(plan, lost, "B {batch}, T {threshold}, {trace:?}");
    }
}

/// Packed by each choice, loss and plan of the words are those of the bytes by that choice, and
/// unpacking has 1 for each counted packet.
fn check_packed(trace: &[u8], (batch, threshold): (u32, u32)) {
    let needed = trace.len().div_ceil(WORD);
    for event in EVENTS {
        let (answer, words) = pack_both(trace, event, &word_pattern(needed));
        assert_eq!(answer, Ok(needed));
        let packets = trace.len();
        let packed = Packed { words, packets };
        let loss = packed_loss_both(&packed, (batch, threshold));
        assert_eq!(loss, loss_both(trace, batch, threshold, event));
        let (marks, plan) = plan_lawfully(trace, (batch, threshold), event);
        let answer = packed_plan_into(&packed, (batch, threshold), &pattern(packets));
        assert_eq!(answer, (Ok(marks), plan));
        let answer = unpack_both(&packed, &pattern(packets));
        assert_eq!(answer, (Ok(packets), ones(trace, event)));
    }
}

#[test]
fn all_short_traces() {
    for length in 1..=7 {
        for trace in all_traces(length, 3) {
            for gmin in 1..=3 {
                check_figures(&trace, gmin, 700);
                check_tallies(&trace, gmin, 700);
            }
            for settings in all_settings(length) {
                check_batches(&trace, settings);
                check_packed(&trace, settings);
            }
        }
    }
}

#[test]
fn random_traces() {
    let mut random = Random::new("choices random_traces");
    let mut unlike = 0;
    for _ in 0..traces() {
        let trace = mixed(&mut random);
        let (gmin, spacing) = (random_gmin(&mut random), random_spacing(&mut random));
        check_figures(&trace, gmin, spacing);
        check_tallies(&trace[..trace.len().min(300)], gmin, spacing);
        let event = random.one_of(&EVENTS);
        let (batch, threshold) = random_settings(&mut random, &trace, event);
        check_batches(&trace, (batch, threshold));
        check_packed(&trace, (batch, threshold));
        let [lost, discarded, either] = EVENTS.map(|event| {
            let loss = loss_both(&trace, batch, threshold, event);
            loss.expect("an accepted trace").over
        });
        // What counts by more is over as often or more often.
        assert!(either >= lost.max(discarded));
        unlike += usize::from(lost != discarded && either > lost.max(discarded));
    }
    // Enough of which the three choices answer three things.
    assert!(traces() < TRACES || unlike > TRACES / 10, "{unlike}");
}

/// The longest trace of lost and discarded packets in turn.
#[test]
fn longest_trace() {
    let trace: Vec<u8> = [1, 2].repeat(LONGEST / 2);
    let number = |event| {
        let loss = loss_both(&trace, 1, 0, event);
        loss.expect("an accepted trace").over
    };
    assert_eq!(EVENTS.map(number), [32_768, 32_768, 65_536]);
    check_figures(&trace, 1, 1_000);
    check_figures(&trace, 255, 40_000);
    for settings in [(1, 0), (2, 1), (1_024, 512), (1_024, 1_023)] {
        check_batches(&trace, settings);
        check_packed(&trace, settings);
    }
    let words = EVENTS.map(|event| Packed::by(event, &trace).words[1_023]);
    assert_eq!(words, [u64::MAX / 3, u64::MAX / 3 * 2, u64::MAX]);
}

/// Ticket 6's conversion, for traces without discards by lost only and by either: packed and
/// unpacked they are the trace, and words unpacked and packed are the words.
#[test]
fn both_ways() {
    let mut random = Random::new("choices both_ways");
    for _ in 0..traces() {
        let length = drawn_packed::any_length(&mut random);
        let trace = drawn_packed::random_losses(&mut random, length);
        let needed = length.div_ceil(WORD);
        for event in [Lost, Either] {
            let (answer, words) = pack_both(&trace, event, &word_pattern(needed));
            assert_eq!(answer, Ok(needed));
            let packed = Packed {
                words,
                packets: length,
            };
            let (answer, bytes) = unpack_both(&packed, &pattern(length));
            assert_eq!(answer, Ok(length));
            assert!(bytes == trace);
            let again = pack_both(&bytes, event, &word_pattern(needed)).1;
            assert!(again == packed.words);
        }
        // By discarded only such a trace has no ones.
        let (answer, words) = pack_both(&trace, Discarded, &word_pattern(needed));
        assert_eq!((answer, words), (Ok(needed), vec![0; needed]));
    }
}

/// "Blocks 17 and 18 keep their own events": a tally that counts either has none, whatever it took
/// and whatever the flag, and closes all the same.
#[test]
fn no_block_of_either() {
    let mut random = Random::new("choices no_block_of_either");
    for _ in 0..traces() {
        let (gmin, spacing) = (random_gmin(&mut random), random_spacing(&mut random));
        let opened = Tally::open(gmin, spacing, library_event(Either));
        let mut tally = opened.expect("good settings");
        for packet in mixed(&mut random) {
            tally = tally.take(packet).0;
        }
        assert!(tally.close().is_ok());
        for flag in [0, 1, 2, 3, 4, 255] {
            let answer = tally_block_both(tally, random.draw() as u32, flag);
            assert_eq!(answer, Err((15, 0)));
        }
    }
}

/// A block of type 1 has received and lost packets alone: its writer refuses a discarded one still.
#[test]
fn loss_rle_takes_no_discards() {
    for length in [1, 15, 16, 70] {
        for place in 0..length {
            let mut trace = vec![1; length];
            trace[place] = 2;
            let before = with_room(&packet(1, &[]), bytes_of_rle(length));
            let mut buffer = before.clone();
            let answer = add_rle_both(&mut buffer, 7, 0, &trace);
            assert_eq!(answer, Err((9, place)));
            assert_eq!(buffer, before);
            // As a trace it is accepted.
            assert!(loss_both(&trace, 1, 0, Lost).is_ok());
            assert!(pack_both(&trace, Lost, &word_pattern(2)).0.is_ok());
        }
    }
}

/// A trace, a batch and a threshold, of which each is good or bad.
fn any_call(random: &mut Random) -> (Vec<u8>, (u32, u32)) {
    let trace = match random.below(5) {
        0 => Vec::new(),
        1 => vec![3; LONGEST + 1],
        2 => vec![0, 1, 2, 3],
        _ => mixed(random),
    };
    let settings = [(1, 0), (3, 1), (0, 0), (1_025, 0), (1, 1_025), (1_024, 1)];
    (trace, random.one_of(&settings))
}

/// A number that is no event is refused with 15 before anything else, and lent buffers keep what
/// they held; figures and tallies have their own such test.
#[test]
fn numbers_that_are_no_event() {
    const REFUSED: (u32, usize) = (15, 0);
    let mut random = Random::new("choices numbers_that_are_no_event");
    for event in many_no_events(&mut random) {
        let (trace, (batch, threshold)) = any_call(&mut random);
        let answer = loss_numbered(&trace, batch, threshold, event);
        assert_eq!(answer, Err(REFUSED), "{event}");
        for room in [0, trace.len().saturating_sub(1), trace.len(), 70_000] {
            let answer = plan_numbered(&trace, (batch, threshold), event, &pattern(room));
            assert_eq!(answer, (Err(REFUSED), pattern(room)), "{event}");
        }
        for room in [0, 1, 1_024, 1_100] {
            let answer = pack_numbered(&trace, event, &word_pattern(room));
            assert_eq!(answer, (Err(REFUSED), word_pattern(room)), "{event}");
        }
    }
}

/// The numbers of the three choices at the boundary, which answer three things.
#[test]
fn numbers_of_events() {
    let numbers = EVENTS.map(events::number_of);
    assert_eq!(numbers, [1, 2, 3]);
    assert!(NO_EVENTS.iter().all(|number| !numbers.contains(number)));
    let trace = digits(LATE);
    let over = |number| -> Answer<u64> {
        let loss = loss_numbered(&trace, 3, 1, number);
        loss.map(|loss| loss.over)
    };
    assert_eq!(numbers.map(over), [Ok(2), Ok(1), Ok(4)]);
}
