//! Every public call of include/nuvaskoe.h with inputs drawn for it, good and hostile, and the
//! comparison of its whole answer and of all lent bytes with the independent one. Case number n is
//! of call n modulo how many there are, and is drawn from the seed and n alone.

mod batches;
mod cards;
mod measuring;
mod packed;
mod panels;
mod reading;
mod runs;
mod writing;

use super::{answers::Answer, raw, Random};
use std::{
    collections::BTreeMap,
    fmt::{self, Debug},
    ops::Range,
    panic::{catch_unwind, AssertUnwindSafe},
};

/// So many cases meet every refusal of every call.
pub const ENOUGH: u64 = 20_000;

/// The refusals of a packet.
const PACKET: [u32; 6] = [1, 2, 3, 4, 5, 6];

/// A public call.
pub struct Call {
    /// Its name in the header, after `nuvaskoe_`.
    pub name: &'static str,
    /// The refusals that the header gives it.
    pub refusals: Vec<u32>,
    /// Draws an input and compares; gives the refusal's number, or 0 for an answer.
    run: Box<dyn Fn(Random) -> u32>,
    /// The input that is drawn, in full.
    input: Box<dyn Fn(Random) -> String>,
}

/// A call from its inputs and its comparison, which panics where the two differ.
fn call<I: Debug + 'static>(
    name: &'static str,
    refusals: &[u32],
    draw: fn(&mut Random) -> I,
    compare: fn(&I) -> u32,
) -> Call {
    Call {
        name,
        refusals: refusals.to_vec(),
        run: Box::new(move |mut random| compare(&draw(&mut random))),
        input: Box::new(move |mut random| format!("{:?}", draw(&mut random))),
    }
}

/// A packet's own refusals, then these.
fn after_packet(refusals: &[u32]) -> Vec<u32> {
    [&PACKET, refusals].concat()
}

/// The refusal's number, or 0.
fn number<T>(answer: &Answer<T>) -> u32 {
    answer.as_ref().map_or_else(|refusal| refusal.0, |_| 0)
}

/// All calls.
pub fn calls() -> Vec<Call> {
    let mut calls = vec![call("version", &[], |_| (), |()| version_both())];
    calls.extend(cards::calls());
    calls.extend(reading::calls());
    calls.extend(writing::calls());
    calls.extend(runs::calls());
    calls.extend(measuring::calls());
    calls.extend(batches::calls());
    calls.extend(packed::calls());
    calls.extend(panels::calls());
    calls
}

/// The library's version is that of its crate; it is never refused.
fn version_both() -> u32 {
    let parts = env!("CARGO_PKG_VERSION").split('.');
    let parts = parts.map(|part| part.parse::<u32>().expect("a number"));
    let version = parts.fold(0, |version, part| 100 * version + part);
    assert_eq!((raw::version(), nuvaskoe::version()), (version, version));
    0
}

/// How many cases of each call were answered, and refused with each number.
pub struct Counts {
    calls: Vec<Call>,
    /// For each call, by refusal; 0 for answers.
    seen: Vec<BTreeMap<u32, u64>>,
}

/// Runs the cases with these numbers, or tells of the first one where the two differ.
pub fn compare_cases(seed: u64, numbers: Range<u64>) -> Result<Counts, String> {
    let calls = calls();
    let mut seen = vec![BTreeMap::new(); calls.len()];
    for case in numbers {
        let turn = (case % calls.len() as u64) as usize;
        let call = &calls[turn];
        let run = || (call.run)(Random::of_case(seed, case));
        let told = |what: &str| {
            let input = (call.input)(Random::of_case(seed, case));
            let name = call.name;
            let again = format!("cargo run --offline --example compare -- 1 {seed} {case}");
            format!(
                "seed {seed}, case {case}, {name} {what}, with the input\n{input}\nagain: {again}"
            )
        };
        let number = catch_unwind(AssertUnwindSafe(run)).map_err(|_| told("differs"))?;
        if number != 0 && !call.refusals.contains(&number) {
            return Err(told(&format!("is refused with {number}")));
        }
        *seen[turn].entry(number).or_default() += 1;
    }
    Ok(Counts { calls, seen })
}

impl Counts {
    /// Answers and refusals that no case met, by call and number.
    pub fn unmet(&self) -> Vec<(&'static str, u32)> {
        let rows = self.calls.iter().zip(&self.seen);
        rows.flat_map(|(call, seen)| {
            let numbers = [0].into_iter().chain(call.refusals.iter().copied());
            let unmet = numbers.filter(|number| !seen.contains_key(number));
            unmet.map(|number| (call.name, number))
        })
        .collect()
    }
}

impl fmt::Display for Counts {
    fn fmt(&self, f: &mut fmt::Formatter<'_>) -> fmt::Result {
        let [name, cases, answers] = ["call", "cases", "answered"];
        writeln!(f, "{name:<24} {cases:>8} {answers:>8}  refused, by number")?;
        let mut total = 0;
        for (call, seen) in self.calls.iter().zip(&self.seen) {
            let cases: u64 = seen.values().sum();
            let answers = seen.get(&0).copied().unwrap_or(0);
            let refused = seen.iter().filter(|(number, _)| **number != 0);
            let refused: Vec<_> = refused.map(|(n, count)| format!("{n}: {count}")).collect();
            let (name, refused) = (call.name, refused.join(", "));
            writeln!(f, "{name:<24} {cases:>8} {answers:>8}  {refused}")?;
            total += cases;
        }
        write!(f, "{:<24} {total:>8}", "all")
    }
}
