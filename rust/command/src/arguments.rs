//! The words of a command line: the job, its options and the words between them.

use crate::{
    answer::{plain, Answer, Failure},
    help,
    jobs::{self, Job},
    output,
    settings::CARD,
};
use std::{
    ffi::{OsStr, OsString},
    os::unix::ffi::OsStrExt,
};

/// What does a job.
pub type Run = for<'a> fn(&'a Arguments) -> Result<Answer<'a>, Failure>;

/// An option of a job.
pub struct Opt {
    /// With its dashes.
    pub name: &'static str,
    /// What help calls its value; none for an option without one.
    pub value: Option<&'static str>,
    /// What it is for, in a line.
    pub words: &'static str,
}

/// One object for scripts.
pub const JSON: Opt = Opt {
    name: "--json",
    value: None,
    words: "one JSON object with every number, in place of words",
};

/// How many words a job takes that are no options, how many of them, from the first on, can be files, and what usage says
/// of fewer.
pub struct Takes {
    pub least: usize,
    pub most: usize,
    pub files: usize,
    pub fewer: &'static str,
}

/// What was given to a job.
pub struct Arguments {
    job: &'static Job,
    options: Vec<(&'static str, OsString)>,
    words: Vec<OsString>,
}

/// The job of these words and what it was given.
pub fn parse(words: Vec<OsString>) -> Result<(Run, Arguments), Failure> {
    let (job, length) = jobs::named(&words)?;
    let mut arguments = Arguments::of(job, Vec::new());
    let mut rest = words.into_iter().skip(length);
    while let Some(word) = rest.next() {
        match word.to_str() {
            Some("-h" | "--help") if job.name == help::HELP.name => {}
            Some("-h" | "--help") => return Ok(help::of(job)),
            Some("--") => arguments.words.extend(rest.by_ref()),
            _ if is_option(&word) => arguments.take(&word, &mut rest)?,
            _ => arguments.words.push(word),
        }
    }
    arguments.judge()?;
    output::judge(&arguments)?;
    Ok((job.run, arguments))
}

/// Whether a word begins as options do; `-` alone is standard input.
pub fn is_option(word: &OsStr) -> bool {
    word != "-" && word.as_bytes().starts_with(b"-")
}

/// An option's word cut at its first `=`.
pub fn cut(word: &OsStr) -> (&OsStr, Option<&OsStr>) {
    let mut parts = word.as_bytes().splitn(2, |byte| *byte == b'=');
    let name = parts.next().unwrap_or_default();
    (OsStr::from_bytes(name), parts.next().map(OsStr::from_bytes))
}

impl Arguments {
    /// A job with words and no options.
    pub fn of(job: &'static Job, words: Vec<OsString>) -> Arguments {
        let options = Vec::new();
        Arguments {
            job,
            options,
            words,
        }
    }

    /// Takes an option, and its value from behind a `=` or from the next word.
    fn take(
        &mut self,
        word: &OsStr,
        rest: &mut impl Iterator<Item = OsString>,
    ) -> Result<(), Failure> {
        let (name, joined) = cut(word);
        let Some(option) = self.job.option(name) else {
            let name = plain(&name.to_string_lossy());
            return Err(self.usage(format!("there is no option {name}")));
        };
        let (name, job) = (option.name, self.job);
        let value = match (option.value, joined) {
            (Some(_), Some(value)) => value.into(),
            (Some(value), None) => match rest.next() {
                Some(next) if !job.knows(&next) => next,
                _ => return Err(self.usage(format!("{name} needs {value} behind it"))),
            },
            (None, Some(_)) => return Err(self.usage(format!("{name} takes no value"))),
            (None, None) => OsString::new(),
        };
        if self.text(option).is_some() {
            return Err(self.usage(format!("{name} is given twice")));
        }
        self.options.push((name, value));
        Ok(())
    }

    /// Whether there are as many words as the job takes, and standard input is read once.
    fn judge(&self) -> Result<(), Failure> {
        let Takes {
            least, most, fewer, ..
        } = self.job.takes;
        if self.words.len() < least {
            return Err(self.usage(fewer));
        }
        if let Some(word) = self.words.get(most) {
            let word = plain(&word.to_string_lossy());
            return Err(self.usage(format!("\"{word}\" is one word too many")));
        }
        match self.inputs().filter(|input| *input == "-").count() {
            0 | 1 => Ok(()),
            _ => Err(self.usage("standard input can be read once")),
        }
    }

    /// What can be read: files, and the card where it is on standard input.
    pub fn inputs(&self) -> impl Iterator<Item = &OsStr> {
        let words = self.words.iter().map(OsString::as_os_str);
        let files = words.take(self.job.takes.files);
        files.chain(self.text(&CARD).filter(|card| *card == "-"))
    }

    /// The words that are no options.
    pub fn words(&self) -> &[OsString] {
        &self.words
    }

    /// The first of them, of a job that takes at least one.
    pub fn word(&self) -> &OsStr {
        let first = self.words.first();
        first.map_or(OsStr::new(""), OsString::as_os_str)
    }

    /// A word that is a number, of which usage has this name. One that is too large is as good as the largest: no packet has
    /// such a block, and no trace so many packets.
    pub fn numbered(&self, name: &str, word: &OsStr) -> Result<usize, Failure> {
        match word.to_str().and_then(decimal) {
            Some(number) => Ok(usize::try_from(number).unwrap_or(usize::MAX)),
            None => {
                let word = plain(&word.to_string_lossy());
                Err(self.usage(format!("{name}: \"{word}\" is no number")))
            }
        }
    }

    /// Whether `--json` is given.
    pub fn is_json(&self) -> bool {
        self.text(&JSON).is_some()
    }

    /// The value of an option.
    pub fn text(&self, option: &Opt) -> Option<&OsStr> {
        self.value(option.name)
    }

    /// The value of the option with this name.
    pub fn value(&self, name: &str) -> Option<&OsStr> {
        let mut given = self.options.iter();
        let (_, value) = given.find(|(given, _)| *given == name)?;
        Some(value)
    }

    /// Whether all these options are given, or what stands in their place is.
    pub fn need(&self, options: &[&Opt], instead: Option<&Opt>) -> Result<(), Failure> {
        let missing = options.iter().filter(|option| self.text(option).is_none());
        let missing: Vec<&str> = missing.map(|option| option.name).collect();
        let (names, instead) = (missing.join(", "), instead.map(|option| option.name));
        match (missing.is_empty(), instead) {
            (true, _) => Ok(()),
            (false, None) => Err(self.usage(format!("missing: {names}"))),
            (false, Some(instead)) => match self.value(instead) {
                Some(_) => Ok(()),
                None => Err(self.usage(format!("missing: {instead}, or {names}"))),
            },
        }
    }

    /// The [number](decimal) that an option gives.
    pub fn number(&self, option: &Opt) -> Result<Option<u64>, Failure> {
        let Some(text) = self.text(option) else {
            return Ok(None);
        };
        match text.to_str().and_then(decimal) {
            None => Err(self.bad(option, "is no number")),
            number => Ok(number),
        }
    }

    /// Says what is wrong with an option's value.
    pub fn bad(&self, option: &Opt, wrong: &str) -> Failure {
        let value = self.text(option).unwrap_or_default().to_string_lossy();
        self.usage(format!("{}: \"{}\" {wrong}", option.name, plain(&value)))
    }

    /// Says what is wrong with the arguments, and how they go.
    pub fn usage(&self, wrong: impl AsRef<str>) -> Failure {
        let (name, usage, wrong) = (self.job.name, self.job.usage, wrong.as_ref());
        Failure::Usage(format!(
            "{name}: {wrong}\nusage: nuvaskoe {name} {usage}\n\"nuvaskoe help {name}\" says more"
        ))
    }
}

/// The number that a text is. One that is too large for `u64` is the largest.
pub fn decimal(text: &str) -> Option<u64> {
    let is_number = !text.is_empty() && text.bytes().all(|digit| digit.is_ascii_digit());
    is_number.then(|| text.parse().unwrap_or(u64::MAX))
}
