//! The jobs, each a file: what it takes, what help says of it, and what does it.

pub mod card;
mod compare;
mod dials;
mod explain;
mod figures;
mod list;
mod loss;
mod pack;
mod plan;
mod report;
mod runs;
mod unpack;

use crate::{
    answer::{plain, Failure},
    arguments::{cut, Opt, Run, Takes},
    help,
};
use std::ffi::{OsStr, OsString};

/// A job.
pub struct Job {
    /// One word or two.
    pub name: &'static str,
    /// What follows the name on a command line.
    pub usage: &'static str,
    /// What it does, in a line.
    pub purpose: &'static str,
    /// What one has to know of it.
    pub words: &'static str,
    /// Its options, in the order of help.
    pub options: &'static [Opt],
    /// The words that are no options.
    pub takes: Takes,
    /// A command line and what it prints.
    pub example: &'static str,
    /// What does it.
    pub run: Run,
}

/// All jobs, in the order of help.
pub static JOBS: [&Job; 14] = [
    &list::LIST,
    &compare::COMPARE,
    &dials::DIALS,
    &runs::RUNS,
    &card::READ,
    &card::MAKE,
    &figures::FIGURES,
    &loss::LOSS,
    &plan::PLAN,
    &pack::PACK,
    &unpack::UNPACK,
    &report::REPORT,
    &explain::EXPLAIN,
    &help::HELP,
];

impl Job {
    /// The job's option with this name.
    pub fn option(&self, name: &OsStr) -> Option<&'static Opt> {
        self.options.iter().find(|option| name == option.name)
    }

    /// Whether a word is one of the job's options, which is then no value of another.
    pub fn knows(&self, word: &OsStr) -> bool {
        let (name, _) = cut(word);
        self.option(name).is_some() || ["-h", "--help", "--"].iter().any(|other| word == *other)
    }

    /// The first word of its name.
    pub fn first(&self) -> &'static str {
        self.name.split(' ').next().unwrap_or_default()
    }
}

/// The job that words begin with, and how many of them are its name.
pub fn named(words: &[OsString]) -> Result<(&'static Job, usize), Failure> {
    let found = JOBS.iter().find_map(|job| {
        let name: Vec<&str> = job.name.split(' ').collect();
        let front = words.get(..name.len())?;
        (front == name).then_some((*job, name.len()))
    });
    let asks = |word: &OsString| word == "-h" || word == "--help";
    let first = words.first().map(|word| word.to_string_lossy());
    match (found, first.as_deref()) {
        (Some(job), _) => Ok(job),
        (None, Some("-V" | "--version")) => Ok((&help::VERSION, words.len())),
        (None, _) if words.iter().take(2).any(asks) => Ok((&help::HELP, 0)),
        (None, first) => Err(Failure::Usage(unknown(first.unwrap_or_default()))),
    }
}

/// Says that there is no job of this name, and which there are.
pub fn unknown(name: &str) -> String {
    let begins = |job: &&Job| job.first() == name && job.name != name;
    let name = plain(name);
    let wrong = match (name.as_str(), JOBS.iter().any(begins)) {
        ("", _) => "which job?".into(),
        (_, true) => format!("{name} what?"),
        _ if name.starts_with('-') => "the job comes first, then its options".into(),
        _ => format!("there is no job \"{name}\""),
    };
    let names = JOBS.map(|job| job.name).join(", ");
    format!("{wrong}\njobs: {names}\n\"nuvaskoe help\" says more")
}
