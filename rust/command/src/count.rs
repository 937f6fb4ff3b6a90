//! What counts as a loss, by the choice of `--count`.

use crate::{
    answer::Failure,
    arguments::{Arguments, Opt},
    json::{object, Object},
};
use nuvaskoe::trace::Event;
use std::{ffi::OsStr, fmt};

pub const COUNT: Opt = Opt {
    name: "--count",
    value: Some("WHAT"),
    words: "what counts: lost, discarded or either",
};

/// A choice.
#[derive(Clone, Copy)]
pub struct Count {
    /// What the option calls it.
    pub name: &'static str,
    /// What happened to the packets that count.
    pub were: &'static str,
    /// The line that says so; none of the lost ones alone.
    said: Option<&'static str>,
    /// What the library calls it.
    pub event: Event,
}

pub const LOST: Count = Count {
    name: "lost",
    were: "lost",
    said: None,
    event: Event::Lost,
};
pub const DISCARDED: Count = Count {
    name: "discarded",
    were: "discarded",
    said: Some("counted as lost: discarded packets"),
    event: Event::Discarded,
};
pub const EITHER: Count = Count {
    name: "either",
    were: "lost or discarded",
    said: Some("counted as lost: lost and discarded packets"),
    event: Event::Either,
};

/// All choices, in the order of help.
pub const COUNTS: [Count; 3] = [LOST, DISCARDED, EITHER];

/// The choice that a job is given.
pub fn given(arguments: &Arguments) -> Result<Option<Count>, Failure> {
    let Some(text) = arguments.text(&COUNT) else {
        return Ok(None);
    };
    let mut counts = COUNTS.into_iter();
    match counts.find(|count| text == OsStr::new(count.name)) {
        None => Err(arguments.bad(&COUNT, "is none of lost, discarded and either")),
        count => Ok(count),
    }
}

/// The packets that the library counts: the lost ones where nothing is asked for.
pub fn event(count: Option<Count>) -> Event {
    count.unwrap_or(LOST).event
}

/// Words with the line that says what was counted below them, where that is not the lost packets alone.
pub fn said_below(words: impl fmt::Display, count: Option<Count>) -> String {
    match count.unwrap_or(LOST).said {
        Some(said) => format!("{words}\n{said}"),
        None => words.to_string(),
    }
}

/// For scripts: the choice, where one is given.
pub fn numbers(count: Option<Count>) -> Object {
    match count {
        Some(count) => object([("count", count.name.into())]),
        None => Object::default(),
    }
}
