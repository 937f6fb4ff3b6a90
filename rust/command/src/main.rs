//! The command for the people at the set: it reads files, calls the library and prints.
//!
//! Nothing that a figure depends on is computed here. A job (`jobs`) takes its arguments and ends with an [`Answer`], in
//! words for people or in JSON for scripts, or with a [`Failure`]; this file alone writes them.
//! Exit status: 0 an answer, 1 refused by the library, 2 wrong usage or a file that cannot be read or written. Of the job
//! `compare` 1 is an answer with differences, and 2 a refusal too.
#![forbid(unsafe_code)]

mod answer;
mod arguments;
mod count;
mod drawing;
mod help;
mod input;
mod jobs;
mod json;
mod listing;
mod manual;
mod output;
mod packed;
mod settings;
mod trace;
mod words;

use answer::{Answer, Failure, One, Part};
use std::{
    env,
    io::{self, ErrorKind, Write},
    process::ExitCode,
};

/// That of a failure or an answer.
type Status = u8;

fn main() -> ExitCode {
    let words = env::args_os().skip(1).collect();
    let status = match arguments::parse(words) {
        Ok((run, arguments)) => finish(run(&arguments), arguments.is_json()),
        Err(failure) => Ok(fail(&failure)),
    };
    let (Ok(status) | Err(status)) = status;
    ExitCode::from(status)
}

/// Puts an answer where it belongs, and gives the status; `Err` where standard output ends.
fn finish(answer: Result<Answer, Failure>, json: bool) -> Result<Status, Status> {
    match answer {
        Ok(Answer::One(one)) => finish_one(one, json),
        Ok(Answer::Several { name, parts }) => finish_several(name, parts, json),
        Err(failure) => {
            let status = fail(&failure);
            let refusal = matches!(failure, Failure::Refused { .. } | Failure::OneOfTwo { .. });
            if refusal && json {
                put(format!("{}\n", failure.numbers()).as_bytes(), status)?;
            }
            Ok(status)
        }
    }
}

/// Bytes come first, so that nothing is said of a file that could not be written; what is wrong comes last.
fn finish_one(one: One, json: bool) -> Result<Status, Status> {
    let said = match json {
        true => format!("{}\n", one.numbers),
        false => one.words,
    };
    let status = one.failure.as_ref().map_or(one.status, Failure::status);
    match one.bytes {
        // Standard output is the result's.
        Some((to, bytes)) if to == "-" => {
            put(&bytes, status)?;
            tell(&said);
        }
        Some((to, bytes)) => {
            if let Err(failure) = output::write(&to, &bytes) {
                let refused = one.failure.map(|refused| fail(&refused));
                return Ok(fail(&failure).max(refused.unwrap_or_default()));
            }
            put(said.as_bytes(), status)?;
        }
        None => put(said.as_bytes(), status)?,
    }
    Ok(one.failure.map_or(status, |failure| fail(&failure)))
}

/// Each part as it is found, and what is wrong with it behind it. The highest status counts.
fn finish_several(
    name: &str,
    parts: impl Iterator<Item = Part>,
    json: bool,
) -> Result<Status, Status> {
    let (before, after) = match json {
        true => (format!("{{\"{name}\": ["), "]}\n"),
        false => (String::new(), ""),
    };
    put(before.as_bytes(), 0)?;
    let mut status = 0;
    for (place, part) in parts.enumerate() {
        let between = if json { json::comma(place) } else { "" };
        put(format!("{between}{}", part.said).as_bytes(), status)?;
        let failed = part.failure.map(|failure| fail(&failure));
        status = status.max(failed.unwrap_or_default());
    }
    put(after.as_bytes(), status)?;
    Ok(status)
}

/// Says why there is no answer, and gives the status.
fn fail(failure: &Failure) -> Status {
    tell(&failure.to_string());
    failure.status()
}

/// Writes to standard output. Where its reader has gone away, all ends quietly with the status so far.
fn put(bytes: &[u8], so_far: Status) -> Result<(), Status> {
    let mut output = io::stdout().lock();
    let written = output.write_all(bytes).and_then(|()| output.flush());
    written.map_err(|error| match error.kind() {
        ErrorKind::BrokenPipe => so_far,
        _ => fail(&Failure::File(format!("standard output: {error}"))),
    })
}

/// Writes to standard error. Where that is closed there is no one to tell.
fn tell(words: &str) {
    let _ = io::stderr().lock().write_all(words.as_bytes());
}
