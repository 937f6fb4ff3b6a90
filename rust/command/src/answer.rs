//! What a job ends with.

use crate::json::{object, Object};
use nuvaskoe::Refusal;
use std::{
    ffi::{OsStr, OsString},
    fmt, io,
};

/// What a job found. It borrows its arguments.
pub enum Answer<'a> {
    /// Of one input, or of none.
    One(One),
    /// Of several inputs, each found when it is asked for.
    Several {
        /// What JSON calls them.
        name: &'static str,
        parts: Box<dyn Iterator<Item = Part> + 'a>,
    },
}

/// One answer.
#[derive(Default)]
pub struct One {
    /// For people.
    pub words: String,
    /// For scripts: every number of the answer, by the names of `nuvaskoe.h`.
    pub numbers: Object,
    /// The result of a job that makes a file, and where `-o` puts it.
    pub bytes: Option<(OsString, Vec<u8>)>,
    /// The exit status: 0, or 1 for the differences of two packets.
    pub status: u8,
    /// Why there is no more to answer; its status counts.
    pub failure: Option<Failure>,
}

/// The answer of one input of several.
pub struct Part {
    /// What is printed: words, or an object.
    pub said: String,
    /// Why there is no answer.
    pub failure: Option<Failure>,
}

impl Part {
    /// What is printed of words and an object, and why there is no answer.
    pub fn new(json: bool, words: String, numbers: Object, failure: Option<Failure>) -> Part {
        let said = match json {
            true => numbers.to_string(),
            false => words,
        };
        Part { said, failure }
    }
}

impl Answer<'_> {
    /// Words alone.
    pub fn words(words: String) -> Self {
        Answer::One(One {
            words,
            ..One::default()
        })
    }
}

/// Why there is no answer.
pub enum Failure {
    /// The library refused.
    Refused {
        /// Why, and the place.
        refusal: Refusal,
        /// What was refused, in a line.
        what: String,
        /// What that means and what to do, where the table of refusals says it of other inputs.
        told: Option<(&'static str, &'static str)>,
    },
    /// The library refused one of two packets. Status 1 says there that they differ.
    OneOfTwo { refusal: Refusal, file: OsString },
    /// The arguments are no job.
    Usage(String),
    /// A file cannot be read or written.
    File(String),
    /// A file has more bytes than are taken.
    TooLong { name: String, most: usize },
}

impl Failure {
    /// What the library said of this input.
    pub fn refused(refusal: Refusal, what: impl Into<String>) -> Failure {
        let (what, told) = (what.into(), None);
        Failure::Refused {
            refusal,
            what,
            told,
        }
    }

    /// The same in words of its own: what a refusal means, and what to do.
    pub fn saying(mut self, meaning: &'static str, advice: &'static str) -> Failure {
        if let Failure::Refused { told, .. } = &mut self {
            *told = Some((meaning, advice));
        }
        self
    }

    /// What the system said of this file.
    pub fn file(name: &OsStr, error: io::Error) -> Failure {
        Failure::File(format!("{}: {error}", shown(name)))
    }

    /// The exit status.
    pub fn status(&self) -> u8 {
        match self {
            Failure::Refused { .. } => 1,
            Failure::OneOfTwo { .. } => 2,
            Failure::Usage(_) | Failure::File(_) | Failure::TooLong { .. } => 2,
        }
    }

    /// For scripts: the refusal, or what is wrong.
    pub fn numbers(&self) -> Object {
        match self {
            Failure::Refused { refusal, .. } => refusal_of(refusal.number(), refusal.place),
            Failure::OneOfTwo { refusal, file } => {
                let file = object([("file", file.to_string_lossy().as_ref().into())]);
                file.and(refusal_of(refusal.number(), refusal.place))
            }
            Failure::Usage(words) | Failure::File(words) => {
                object([("error", words.as_str().into())])
            }
            Failure::TooLong { .. } => object([("error", "too long".into())]),
        }
    }
}

impl fmt::Display for Failure {
    fn fmt(&self, f: &mut fmt::Formatter<'_>) -> fmt::Result {
        match self {
            Failure::Refused {
                refusal,
                what,
                told,
            } => in_words(refusal, what, *told, f),
            Failure::OneOfTwo { refusal, file } => in_words(refusal, &shown(file), None, f),
            Failure::Usage(words) | Failure::File(words) => writeln!(f, "nuvaskoe: {words}"),
            Failure::TooLong { name, most } => {
                writeln!(f, "nuvaskoe: {name}: too long, over {most} bytes")
            }
        }
    }
}

/// A refusal of this, what it means and what to do.
fn in_words(
    refusal: &Refusal,
    what: &str,
    told: Option<(&str, &str)>,
    f: &mut fmt::Formatter<'_>,
) -> fmt::Result {
    let (number, place) = (refusal.number(), refusal.place);
    let (meaning, advice) = told.unwrap_or((refusal.kind.meaning(), refusal.kind.advice()));
    writeln!(f, "refused {number} at {place}")?;
    writeln!(f, "  {what}")?;
    writeln!(f, "  {meaning}")?;
    writeln!(f, "  what to do: {advice}")
}

/// For scripts: no refusal.
pub fn not_refused() -> Object {
    refusal_of(0, 0)
}

/// As `nuvaskoe_refusal`.
fn refusal_of(number: u32, place: usize) -> Object {
    let refusal = object([("number", number.into()), ("place", place.into())]);
    object([("refusal", refusal.into())])
}

/// A file's name in words.
pub fn shown(name: &OsStr) -> String {
    match name == "-" {
        true => "standard input".into(),
        false => plain(&name.to_string_lossy()),
    }
}

/// Text that was given, on one line: what would move the cursor or turn the text round is written out.
pub fn plain(text: &str) -> String {
    let characters = text.chars().map(|character| match character {
        '\u{2028}'..='\u{202e}' | '\u{2066}'..='\u{2069}' => character.escape_default().to_string(),
        control if control.is_control() => control.escape_default().to_string(),
        other => other.into(),
    });
    characters.collect()
}
