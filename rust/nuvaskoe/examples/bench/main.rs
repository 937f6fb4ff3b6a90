//! Times the library's calls beside the independent ones, on the same packets and traces
//! and in one run:
//!
//! ```text
//! cargo run --release --offline --example bench
//! ```
//!
//! Each figure is the least of several rounds, in nanoseconds a call, and answers are
//! compared before they are timed. Every public call has a row:
//!
//! - cards: `read` and `write`;
//! - packets: `read` asks for the sender and the number of blocks, `all` for every block's
//!   offset and verdict, `last` for the last block by its index and `body` for its body;
//!   `alone` reads one block by itself;
//! - comparing: `diff` lists the differences of two packets, each of so many bytes, into a list
//!   with room that is always enough;
//! - writing: `new` writes a packet without blocks, `add` adds one block to the packet named,
//!   and `make` makes the packet named from a new one, by adding one block after the other;
//! - Loss RLE on 65,533 packets: `count` reads a block of such chunks by itself, which counts its
//!   lost packets, `out` reads its trace out of a packet, and `add` adds a trace as such a block;
//! - traces, a byte a packet: `figs` gives the burst figures, `plan` the resend plan and
//!   `loss` effective loss; in rows "B x by B y" both times are ours, with batches of x and y;
//! - packed traces, a bit a packet: `pack` and `unpack` a trace, `loss` and `plan` as above; in rows
//!   "packed by bytes" both times are ours, of the trace packed and in bytes;
//! - in rows "mixed by" the packets of the choice named count, on a trace with 2 % lost and 4 %
//!   discarded; in all other rows of `figs`, `plan`, `loss`, `pack` and tallies it is the lost ones;
//! - tallies: `open`, `take` one packet and `close`, after as many packets as there are bytes
//!   in the row; `tally` is all three over the trace named, each packet taken in turn;
//! - `block` makes the block of a trace, of a tally or of figures;
//! - `panel` sets the front panel by a block given, one that was read, or the first of a packet.

#[path = "../../tests/support/mod.rs"]
mod support;

mod batches;
mod cards;
mod choices;
mod comparing;
mod measuring;
mod packed;
mod panels;
mod reading;
mod runs;
mod tallies;
mod writing;

use std::{
    hint::black_box,
    time::{Duration, Instant},
};

const ROUNDS: usize = 15;
/// A round repeats its call until it takes at least this long.
const ROUND: Duration = Duration::from_millis(4);

/// Times two calls in turns: the least time of each, in nanoseconds.
fn race<A, B>(mut ours: impl FnMut() -> A, mut theirs: impl FnMut() -> B) -> (f64, f64) {
    let (our_repeats, their_repeats) = (repeats(&mut ours), repeats(&mut theirs));
    let mut least = (f64::INFINITY, f64::INFINITY);
    for _ in 0..ROUNDS {
        least.0 = least.0.min(nanoseconds(&mut ours, our_repeats));
        least.1 = least.1.min(nanoseconds(&mut theirs, their_repeats));
    }
    least
}

fn repeats<T>(call: &mut impl FnMut() -> T) -> u32 {
    let mut repeats = 1;
    while nanoseconds(call, repeats) * f64::from(repeats) < ROUND.as_nanos() as f64 {
        repeats *= 2;
    }
    repeats
}

fn nanoseconds<T>(call: &mut impl FnMut() -> T, repeats: u32) -> f64 {
    let start = Instant::now();
    for _ in 0..repeats {
        black_box(call());
    }
    start.elapsed().as_nanos() as f64 / f64::from(repeats)
}

fn print(input: &str, bytes: usize, call: &str, (ours, independent): (f64, f64)) {
    println!(
        "{input:<34} {bytes:>7} {call:<6} {ours:>12.1} {independent:>12.1} {:>7.2}",
        ours / independent
    );
}

fn main() {
    println!(
        "{:<34} {:>7} {:<6} {:>12} {:>12} {:>7}",
        "input", "bytes", "call", "ours ns", "indep. ns", "ratio"
    );
    cards::time();
    reading::time();
    comparing::time();
    writing::time();
    runs::time();
    let traces = measuring::traces();
    measuring::time(&traces);
    tallies::time(&traces);
    batches::time();
    packed::time();
    choices::time();
    panels::time();
}
