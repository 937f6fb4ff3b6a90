//! Packets listed: document 01's lines.

use super::Job;
use crate::{
    answer::{not_refused, shown, Answer, Failure, Part},
    arguments::{Arguments, Takes, JSON},
    input,
    json::{object, Object},
    listing,
};
use std::ffi::OsStr;

pub const LIST: Job = Job {
    name: "list",
    usage: "FILE..",
    purpose: "report packets, their sender and a line for each block",
    words: "\
Each FILE holds one packet; where there are several, each has a heading. A
figure that reads `none` could not be measured, and one that reads `over` is
too large to send. A block that reads `rle` says which packets were lost, and
the job `runs` writes its trace. One that reads `dropped` has a reason, which the
job `explain` explains. A file of over 65,536 bytes is `too long`.
",
    options: &[JSON],
    takes: Takes {
        least: 1,
        most: usize::MAX,
        files: usize::MAX,
        fewer: "FILE is missing",
    },
    example: "\
$ printf '\\200\\317\\0\\4\\0\\0\\0\\1\\360\\0\\0\\2\\0\\0\\0\\2\\222\\110\\0\\0' | nuvaskoe list -
ssrc 00000001 blocks 1
0 eli source 00000002 index 37448
",
    run,
};

/// The most bytes of a packet that is listed.
const MOST: usize = 65_536;

fn run(arguments: &Arguments) -> Result<Answer<'_>, Failure> {
    let json = arguments.is_json();
    let names = arguments.words();
    let several = names.len() > 1;
    let parts = names.iter().enumerate().map(move |(place, name)| {
        let mut part = part(name, json);
        if several && !json {
            let before = if place == 0 { "" } else { "\n" };
            part.said = format!("{before}==> {} <==\n{}", shown(name), part.said);
        }
        part
    });
    Ok(Answer::Several {
        name: "files",
        parts: Box::new(parts),
    })
}

/// One packet among several. Where there is no answer, the line of the program `listing` is said too.
fn part(name: &OsStr, json: bool) -> Part {
    let file = object([("file", name.to_string_lossy().as_ref().into())]);
    match listed(name, json) {
        Ok((lines, numbers)) => Part::new(json, lines, file.and(not_refused()).and(numbers), None),
        Err(failure) => {
            let line = match &failure {
                Failure::Refused { refusal, .. } | Failure::OneOfTwo { refusal, .. } => {
                    format!("refused {} at {}\n", refusal.number(), refusal.place)
                }
                Failure::TooLong { .. } => "too long\n".into(),
                Failure::Usage(_) | Failure::File(_) => String::new(),
            };
            Part::new(json, line, file.and(failure.numbers()), Some(failure))
        }
    }
}

/// The lines of a packet or its numbers, whichever is asked for: it may have thousands of blocks.
fn listed(name: &OsStr, json: bool) -> Result<(String, Object), Failure> {
    let packet = input::all(name, MOST)?;
    let refused = |refusal| Failure::refused(refusal, shown(name));
    match json {
        true => Ok((String::new(), listing::numbers(&packet).map_err(refused)?)),
        false => Ok((listing::lines(&packet).map_err(refused)?, Object::default())),
    }
}
