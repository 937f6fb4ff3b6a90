//! What the library answers to each case. A number that its field cannot hold is no case.

use crate::line::{Case, WORD};
use crate::shown;
use nuvaskoe::block::{
    self, Block, Discard, Effective, Loss, Measurement, Reading, TransportStream,
};
use nuvaskoe::card::{self, Settings};
use nuvaskoe::tally::{Stretch, Sums, Tally};
use nuvaskoe::trace::Event;
use nuvaskoe::values::{EffectiveIndex, Figure, Rate};
use nuvaskoe::{effective, figures, packed, packet, panel, resend, Refusal};

/// What a lent byte or entry holds before the call.
const HELD: u8 = 7;

/// The answer of a case; none where a number does not fit.
pub fn answer(case: &Case) -> Option<String> {
    let (n, data) = (&case.numbers[..], &case.data[..]);
    Some(match case.word {
        "read" => shown::or_refused(packet::read(data), |packet| {
            format!("ssrc {:08x} blocks {}", packet.sender, packet.blocks)
        }),
        "block" => shown::or_refused(packet::block(data, n[0] as usize), |reading| {
            shown::line(n[0], &reading, packet::body(data, n[0] as usize).len())
        }),
        "body" => body(n[0], data),
        "list" => list(n[0], data),
        "compare" => compare(n[0], data.split_at(n[1] as usize)),
        "alone" => shown::line(0, &alone(n, data)?, data.len()),
        "panel" => shown::panel(&panel::of_packet(data, n[0] as usize)),
        "panelalone" => shown::panel(&panel::of_reading(&alone(n, data)?)),
        "panel17" | "panel18" => shown::panel(&panel::of_block(&given(case.word, n)?)),
        "rle" => read_out(n[0], n[1], data),
        "add1" => adding_trace(n, data)?,
        "new" => lending(n[1], |lent| packet::new(n[0], lent)),
        "card" => shown::or_refused(card::read(data), |set| {
            let (gmin, batch, threshold) = (set.gmin, set.batch, set.threshold);
            format!(
                "gmin {gmin} batch {batch} threshold {threshold} spacing {}",
                set.spacing
            )
        }),
        "write" => lending(n[4], |lent| card::write(settings(n), lent)),
        "loss" | "plan" | "pack" => of_trace(case.word, n, data)?,
        "unpack" | "packedloss" | "packedplan" => of_words(case.word, n, data),
        "figures" | "tally" | "close" | "tallyblock" | "take" => measured(case.word, n, data)?,
        "loss17" | "discard18" => reported(case.word, n, data)?,
        _ => adding(case.word, n, data)?,
    })
}

/// What counts.
fn event(number: u32) -> Option<Event> {
    match number {
        1 => Some(Event::Lost),
        2 => Some(Event::Discarded),
        3 => Some(Event::Either),
        _ => None,
    }
}

/// A block read by itself.
fn alone(n: &[u32], body: &[u8]) -> Option<Reading> {
    let (block_type, specific) = (u8::try_from(n[0]).ok()?, u8::try_from(n[1]).ok()?);
    Some(block::read(block_type, specific, body))
}

fn settings(n: &[u32]) -> Settings {
    Settings {
        gmin: n[0],
        batch: n[1],
        threshold: n[2],
        spacing: n[3],
    }
}

/// A call that fills lent bytes from the front.
fn lending(room: u32, call: impl FnOnce(&mut [u8]) -> Result<usize, Refusal>) -> String {
    let mut lent = vec![HELD; room as usize];
    let answer = shown::or_refused(call(&mut lent), |size| format!("size {size}"));
    answer + &shown::bytes(&lent)
}

/// Where a body stands in its packet.
fn body(index: u32, packet: &[u8]) -> String {
    let body = packet::body(packet, index as usize);
    let at = body.as_ptr() as usize - packet.as_ptr() as usize;
    format!("body at {at} bytes {}", body.len())
}

fn list(entries: u32, packet: &[u8]) -> String {
    let mut lent = vec![u32::from(HELD); entries as usize];
    let answer = packet::list(packet, &mut lent);
    shown::or_refused(answer, |written| format!("entries {written}")) + &shown::table(&lent)
}

fn read_out(index: u32, room: u32, packet: &[u8]) -> String {
    let mut lent = vec![HELD; room as usize];
    let answer = packet::rle(packet, index as usize, &mut lent);
    shown::or_refused(answer, |packets| format!("packets {packets}")) + &shown::trace(&lent)
}

/// A trace added to the packet at the front of the data before it.
fn adding_trace(n: &[u32], data: &[u8]) -> Option<String> {
    let (source, begin) = (n[0], u16::try_from(n[1]).ok()?);
    let (buffer, trace) = data.split_at(n[2] as usize);
    let mut buffer = buffer.to_vec();
    let answer = packet::add_rle(&mut buffer, source, begin, trace);
    Some(shown::or_refused(answer, |size| format!("size {size}")) + &shown::bytes(&buffer))
}

fn compare(numbers: u32, (first, second): (&[u8], &[u8])) -> String {
    let mut lent = vec![u32::from(HELD); numbers as usize];
    let answer = packet::compare(first, second, &mut lent);
    shown::or_refused(answer, |count| format!("differences {count}")) + &shown::numbers(&lent)
}

/// A call that plans into lent bytes.
fn planning(room: u32, call: impl FnOnce(&mut [u8]) -> Result<usize, Refusal>) -> String {
    let mut lent = vec![HELD; room as usize];
    let answer = shown::or_refused(call(&mut lent), |marks| format!("marks {marks}"));
    answer + &shown::plan(&lent)
}

/// The three calls on traces of which the first number is the event.
fn of_trace(word: &str, n: &[u32], trace: &[u8]) -> Option<String> {
    let event = event(n[0])?;
    Some(match word {
        "loss" => {
            let loss = effective::effective_loss(trace, n[1], n[2], event);
            shown::or_refused(loss, shown::loss)
        }
        "plan" => planning(n[3], |lent| resend::plan(trace, n[1], n[2], event, lent)),
        _ => {
            let mut lent = vec![u64::from(HELD); n[1] as usize];
            let answer = packed::pack(trace, event, &mut lent);
            shown::or_refused(answer, |words| format!("words {words}")) + &shown::words(&lent)
        }
    })
}

/// The three calls on words, of which the first number is how many packets they hold.
fn of_words(word: &str, n: &[u32], data: &[u8]) -> String {
    let words = data.chunks_exact(WORD).map(|word| word.try_into());
    let words = words.map(|word| u64::from_be_bytes(word.expect("eight bytes")));
    let (words, packets) = (words.collect::<Vec<u64>>(), n[0] as usize);
    match word {
        "unpack" => {
            let mut lent = vec![HELD; n[1] as usize];
            let answer = packed::unpack(&words, packets, &mut lent);
            let answer = shown::or_refused(answer, |packets| format!("packets {packets}"));
            answer + &shown::trace(&lent)
        }
        "packedplan" => planning(n[3], |lent| packed::plan(&words, packets, n[1], n[2], lent)),
        _ => {
            let loss = packed::effective_loss(&words, packets, n[1], n[2]);
            shown::or_refused(loss, shown::loss)
        }
    }
}

/// Figures of a trace, by one call or by a tally, and tallies made of their numbers. The first
/// number is the event.
fn measured(word: &str, n: &[u32], trace: &[u8]) -> Option<String> {
    let event = event(n[0])?;
    let answer = match word {
        "figures" => figures::of_trace(trace, n[1], n[2], event),
        "tally" => tallied(n[1], n[2], event, trace),
        "close" => tally(n, event).close(),
        "tallyblock" => {
            let block = tally(n, event).block(n[13], u8::try_from(n[14]).ok()?);
            return Some(shown::or_refused(block, |block| shown::typed(&block)));
        }
        _ => {
            let (next, answer) = tally(n, event).take(u8::try_from(n[13]).ok()?);
            return Some(shown::or_refused(answer, |()| taken(&next)));
        }
    };
    Some(shown::or_refused(answer, shown::figures))
}

/// The block of a trace.
fn reported(word: &str, n: &[u32], trace: &[u8]) -> Option<String> {
    let (gmin, spacing, source, flag) = (n[0], n[1], n[2], u8::try_from(n[3]).ok()?);
    let block = match word {
        "loss17" => figures::loss_of_trace(trace, gmin, spacing, source, flag).map(Block::Loss),
        _ => figures::discard_of_trace(trace, gmin, spacing, source, flag).map(Block::Discard),
    };
    Some(shown::or_refused(block, |block| shown::typed(&block)))
}

/// A tally opened, given each packet in turn, and closed; the first refusal ends it.
fn tallied(
    gmin: u32,
    spacing: u32,
    event: Event,
    trace: &[u8],
) -> Result<figures::Figures, Refusal> {
    let mut tally = Tally::open(gmin, spacing, event)?;
    for packet in trace {
        let (next, answer) = tally.take(*packet);
        answer?;
        tally = next;
    }
    tally.close()
}

fn tally(n: &[u32], event: Event) -> Tally {
    let count = |place: usize| u64::from(n[place]);
    let mut sums = Sums::default();
    (sums.packets, sums.events) = (count(3), count(4));
    (sums.burst_packets, sums.burst_events) = (count(5), count(6));
    (sums.bursts, sums.durations, sums.squares) = (count(7), count(8), count(9));
    let stretch = Stretch {
        events: count(10),
        packets: count(11),
        since: count(12),
    };
    Tally::from_parts(n[1], n[2], event, sums, stretch)
}

fn taken(tally: &Tally) -> String {
    let (sums, open) = (&tally.sums, &tally.stretch);
    let bursts = [
        sums.burst_packets,
        sums.burst_events,
        sums.bursts,
        sums.durations,
        sums.squares,
    ];
    let counts = [
        &[sums.packets, sums.events],
        &bursts[..],
        &[open.events, open.packets, open.since],
    ];
    let counts = counts
        .concat()
        .iter()
        .map(|count| format!(" {count}"))
        .collect::<String>();
    format!("taken{counts}")
}

/// A block added to the packet at the front of the data.
fn adding(word: &str, n: &[u32], data: &[u8]) -> Option<String> {
    let block = given(word, n)?;
    let mut buffer = data.to_vec();
    let answer = packet::add(&mut buffer, &block);
    Some(shown::or_refused(answer, |size| format!("size {size}")) + &shown::bytes(&buffer))
}

/// The block that the numbers of a case are.
fn given(word: &str, n: &[u32]) -> Option<Block> {
    let short = |place: usize| u16::try_from(n[place]).ok();
    let rate = |place: usize| short(place).map(Rate);
    let flag = || u8::try_from(n[0]).ok();
    Some(match word {
        "add14" => Block::Measurement(Measurement {
            source: n[0],
            first: short(1)?,
            extended_first: n[2],
            extended_last: n[3],
            interval: n[4],
            seconds: n[5],
            fraction: n[6],
        }),
        "add17" | "panel17" => Block::Loss(Loss {
            flag: flag()?,
            source: n[1],
            burst_rate: rate(2)?,
            gap_rate: rate(3)?,
            mean: Figure(short(4)?),
            variance: Figure(short(5)?),
        }),
        "add18" | "panel18" => Block::Discard(Discard {
            flag: flag()?,
            source: n[1],
            burst_rate: rate(2)?,
            gap_rate: rate(3)?,
        }),
        "add240" => Block::Effective(Effective {
            source: n[0],
            index: EffectiveIndex(short(1)?),
        }),
        _ => Block::TransportStream(TransportStream {
            source: n[0],
            begin: short(1)?,
            end: short(2)?,
            streams: n[3],
            counts: n[4..12].try_into().expect("eight counts"),
        }),
    })
}
