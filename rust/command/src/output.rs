//! Where a job puts the bytes that it makes: `-o FILE`.

use crate::{
    answer::{shown, Failure, One},
    arguments::{Arguments, Opt},
    json::object,
};
use std::{
    ffi::OsStr,
    fs::{self, File},
    io::Write,
    os::unix::fs::{FileTypeExt, MetadataExt},
};

/// The option's name.
pub const NAME: &str = "-o";

/// The option of a job, with what it is for.
pub const fn option(words: &'static str) -> Opt {
    Opt {
        name: NAME,
        value: Some("FILE"),
        words,
    }
}

/// Whether the bytes can go where they are asked for: not over an input, and not among the words of the answer.
pub fn judge(arguments: &Arguments) -> Result<(), Failure> {
    let Some(to) = arguments.value(NAME) else {
        return Ok(());
    };
    let is_json = arguments.is_json();
    let read = arguments.inputs().any(|input| match input == "-" {
        true => is_same(to, OsStr::new("/dev/stdin")),
        false => is_same(to, input),
    });
    let wrong = match to == "-" {
        true if is_json => "standard output cannot be both FILE and the JSON object",
        false if read => "FILE is read, and is not written over",
        false if is_same(to, OsStr::new("/dev/stdout")) => "FILE is standard output: write -",
        _ => return Ok(()),
    };
    Err(arguments.usage(wrong))
}

/// Whether two names are of one file or pipe.
fn is_same(one: &OsStr, other: &OsStr) -> bool {
    match (fs::metadata(one), fs::metadata(other)) {
        (Ok(one), Ok(other)) => {
            let holds = one.is_file() || one.file_type().is_fifo();
            holds && (one.dev(), one.ino()) == (other.dev(), other.ino())
        }
        _ => false,
    }
}

/// An answer with the bytes that it is about, where they are asked for.
pub fn with(arguments: &Arguments, one: One, bytes: Vec<u8>) -> One {
    let Some(to) = arguments.value(NAME) else {
        return one;
    };
    let place = match to == "-" {
        true => "standard output".into(),
        false => shown(to),
    };
    let size = bytes.len();
    One {
        words: format!("{}  {size} bytes to {place}\n", one.words),
        numbers: one.numbers.and(object([("size", size.into())])),
        bytes: Some((to.into(), bytes)),
        ..one
    }
}

/// Writes a file. One that cannot be written whole is left empty: a part of a plan would be taken for a trace.
pub fn write(to: &OsStr, bytes: &[u8]) -> Result<(), Failure> {
    let written = File::create(to).and_then(|mut file| {
        let written = file.write_all(bytes);
        if written.is_err() {
            // A pipe has no length to set.
            let _ = file.set_len(0);
        }
        written
    });
    written.map_err(|error| Failure::file(to, error))
}
