//! Compares every public call of the library with the independent implementation, on random
//! and hostile inputs:
//!
//! ```text
//! cargo run --offline --example compare -- [CASES] [SEED] [FIRST]
//! ```
//!
//! It runs CASES cases, a million unless given, from number FIRST, 0 unless given; the calls
//! take turns. `NUVASKOE_CASES` and `NUVASKOE_SEED` stand for the first two. A case compares
//! the whole answer of the boundary, that of the safe call and every lent byte. Before the first
//! case all 65,536 rates are compared on both needles of the panel; a difference there ends it with
//! status 1 and the block. The run ends with how many cases of each call were answered and how many
//! refused, by number; at the first difference it ends with status 1, the seed, the case and its
//! input.

#[path = "../tests/support/mod.rs"]
mod support;

use std::{env, panic::catch_unwind, process::exit};
use support::{
    calls::{compare_cases, ENOUGH},
    from_env,
    panels::every_rate,
    seed,
};

const CASES: u64 = 1_000_000;

fn main() {
    let mut arguments = env::args().skip(1).map(|text| {
        text.parse::<u64>().unwrap_or_else(|error| {
            eprintln!("{text}: {error}\ncompare [CASES] [SEED] [FIRST]");
            exit(2);
        })
    });
    let cases = arguments
        .next()
        .unwrap_or_else(|| from_env("NUVASKOE_CASES", CASES));
    let seed = arguments.next().unwrap_or_else(seed);
    let first = arguments.next().unwrap_or(0);
    if first == 0 {
        catch_unwind(every_rate).unwrap_or_else(|_| exit(1));
        println!("every rate on both needles of the panel: no difference");
    }
    println!("NUVASKOE_SEED={seed}, {cases} cases from case {first}");
    match compare_cases(seed, first..first.saturating_add(cases)) {
        Ok(counts) => {
            println!("{counts}");
            if cases >= ENOUGH && !counts.unmet().is_empty() {
                eprintln!("no case met {:?}", counts.unmet());
                exit(1);
            }
            println!("no difference");
        }
        Err(difference) => {
            eprintln!("{difference}");
            exit(1);
        }
    }
}
