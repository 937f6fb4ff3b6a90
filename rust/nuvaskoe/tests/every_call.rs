//! A part of the comparison of all public calls; `cargo run --example compare` runs more of
//! the same cases.

mod support;

use support::{
    calls::{calls, compare_cases, ENOUGH},
    from_env, seed,
};

const HEADER: &str = include_str!("../../../include/nuvaskoe.h");

/// The functions that a header declares: each starts a line with its answer's type, and then
/// has a name of ours before its first parenthesis.
fn declared(header: &str) -> Vec<&str> {
    header.lines().filter_map(declared_by).collect()
}

/// The function that a line declares. Comments, fields and directives start otherwise; what is
/// defined in the header is no call of the library.
fn declared_by(line: &str) -> Option<&str> {
    let elsewhere = ["typedef ", "static ", "struct ", "enum ", "extern \"C\""];
    if !line.starts_with(|first: char| first.is_ascii_alphabetic())
        || elsewhere.iter().any(|start| line.starts_with(start))
    {
        return None;
    }
    let (front, _) = line.split_once('(')?;
    let name = front.trim_end().rsplit([' ', '*']).next()?;
    name.strip_prefix("nuvaskoe_")
}

#[test]
fn lines_of_a_header() {
    let lines = [
        ("uint32_t nuvaskoe_version(void);", Some("version")),
        (
            "nuvaskoe_written nuvaskoe_card_write(nuvaskoe_settings settings,",
            Some("card_write"),
        ),
        (
            "const char *nuvaskoe_words (uint32_t number);",
            Some("words"),
        ),
        ("extern uint32_t nuvaskoe_version(void);", Some("version")),
        ("static inline uint32_t nuvaskoe_major(void) {", None),
        ("typedef uint32_t (*nuvaskoe_call)(void);", None),
        ("typedef struct nuvaskoe_part {", None),
        ("} nuvaskoe_part;", None),
        ("    uint32_t nuvaskoe_indented(void);", None),
        ("nuvaskoe_part is a struct", None),
        (" * nuvaskoe_packet_body(packet) says where", None),
        ("#define NUVASKOE_FIELDS 13", None),
        ("extern \"C\" {", None),
        ("", None),
    ];
    for (line, name) in lines {
        assert_eq!(declared_by(line), name, "{line}");
    }
}

#[test]
fn all_functions_of_the_header() {
    let mut compared: Vec<_> = calls().iter().map(|call| call.name).collect();
    let mut declared = declared(HEADER);
    compared.sort_unstable();
    declared.sort_unstable();
    assert_eq!(compared, declared);
}

#[test]
fn cases_of_every_call() {
    let (seed, cases) = (seed(), from_env("NUVASKOE_CASES", ENOUGH));
    println!("cases_of_every_call: NUVASKOE_SEED={seed}");
    match compare_cases(seed, 0..cases) {
        Err(difference) => panic!("{difference}"),
        Ok(counts) => {
            println!("{counts}");
            assert!(
                cases < ENOUGH || counts.unmet().is_empty(),
                "{:?}",
                counts.unmet()
            );
        }
    }
}
