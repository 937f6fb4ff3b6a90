//! The settings of a job: a card, options, or options over a card.

use crate::{
    answer::{plain, Failure},
    arguments::{Arguments, Opt},
    input,
    json::{object, Object},
    words::{losses, microseconds, packets},
};
use nuvaskoe::{card, Refusal, RefusalKind};
use std::{ffi::OsStr, fmt, os::unix::ffi::OsStrExt, path::Path};

pub const CARD: Opt = Opt {
    name: "--card",
    value: Some("CARD"),
    words: "the settings card, twenty digits; - is standard input",
};
pub const GMIN: Opt = Opt {
    name: "--gmin",
    value: Some("G"),
    words: "so many packets without a loss end a burst, 1 to 255",
};
pub const BATCH: Opt = Opt {
    name: "--batch",
    value: Some("B"),
    words: "packets that are repaired together, 1 to 1,024",
};
pub const THRESHOLD: Opt = Opt {
    name: "--threshold",
    value: Some("T"),
    words: "losses in a batch that can be repaired, 0 to 1,024",
};
pub const SPACING: Opt = Opt {
    name: "--spacing",
    value: Some("S"),
    words: "microseconds from packet to packet, 1 to 40,000",
};

/// The most bytes of cards on standard input.
const MOST: usize = 65_536;

/// Where a job takes its settings from.
pub struct Source<'a> {
    arguments: &'a Arguments,
    card: Option<card::Settings>,
}

/// The card and options of a job. An option that this job does not look at has to be a number too.
pub fn given(arguments: &Arguments) -> Result<Source<'_>, Failure> {
    for option in [GMIN, BATCH, THRESHOLD, SPACING] {
        arguments.number(&option)?;
    }
    let card = match arguments.text(&CARD) {
        None => None,
        Some(text) => {
            let text = match text == "-" {
                true => from_input()?,
                false => text.as_bytes().to_vec(),
            };
            Some(card::read(&text).map_err(|refusal| refused(refusal, &text))?)
        }
    };
    Ok(Source { arguments, card })
}

/// What the library said of a card. Where the name of a file was given for its text, that is said too.
pub fn refused(refusal: Refusal, card: &[u8]) -> Failure {
    let is_file = Path::new(OsStr::from_bytes(card)).is_file();
    let card = plain(&String::from_utf8_lossy(card));
    let what = match is_file && refusal.kind == RefusalKind::CardDigits {
        true => format!("card {card} is a file: write - for the card, and < {card} at the end"),
        false => format!("card {}", cut(card)),
    };
    Failure::refused(refusal, what)
}

/// So much of a text as is needed to tell it.
fn cut(text: String) -> String {
    match text.char_indices().nth(40) {
        Some((place, _)) => format!("{}..", text.get(..place).unwrap_or_default()),
        None => text,
    }
}

/// A card or several on standard input; the end of the last line is no part of them.
pub fn from_input() -> Result<Vec<u8>, Failure> {
    let text = input::all(OsStr::new("-"), MOST)?;
    let line = text.strip_suffix(b"\n").unwrap_or(&text);
    Ok(line.strip_suffix(b"\r").unwrap_or(line).to_vec())
}

impl Source<'_> {
    /// What bursts depend on.
    pub fn bursts(&self) -> Result<Bursts, Failure> {
        self.arguments.need(&[&GMIN, &SPACING], Some(&CARD))?;
        Ok(Bursts {
            gmin: self.setting(&GMIN, |card| card.gmin)?,
            spacing: self.setting(&SPACING, |card| card.spacing)?,
        })
    }

    /// What batches depend on.
    pub fn batches(&self) -> Result<Batches, Failure> {
        self.arguments.need(&[&BATCH, &THRESHOLD], Some(&CARD))?;
        Ok(Batches {
            batch: self.setting(&BATCH, |card| card.batch)?,
            threshold: self.setting(&THRESHOLD, |card| card.threshold)?,
        })
    }

    /// All four.
    pub fn all(&self) -> Result<All, Failure> {
        self.arguments
            .need(&[&GMIN, &BATCH, &THRESHOLD, &SPACING], Some(&CARD))?;
        let (bursts, batches) = (self.bursts()?, self.batches()?);
        Ok(All { bursts, batches })
    }

    /// An option's number, or the card's. No setting can be as large as 32 bits, so a larger one is
    /// handed on as the largest, which the library refuses too.
    fn setting(&self, option: &Opt, on: fn(&card::Settings) -> u32) -> Result<u32, Failure> {
        let over = self.arguments.number(option)?;
        let over = over.map(|number| u32::try_from(number).unwrap_or(u32::MAX));
        let setting = over.or(self.card.as_ref().map(on));
        setting.ok_or_else(|| self.arguments.usage(format!("missing: {}", option.name)))
    }
}

/// The settings that a job looks at; shown, they have units.
pub trait Settings: fmt::Display {
    /// For scripts: those of `nuvaskoe_settings`.
    fn numbers(&self) -> Object;
}

/// The settings of burst figures.
pub struct Bursts {
    pub gmin: u32,
    pub spacing: u32,
}

impl Settings for Bursts {
    fn numbers(&self) -> Object {
        object([("gmin", self.gmin.into()), ("spacing", self.spacing.into())])
    }
}

impl fmt::Display for Bursts {
    fn fmt(&self, f: &mut fmt::Formatter<'_>) -> fmt::Result {
        let (gmin, spacing) = (packets(self.gmin), microseconds(self.spacing));
        write!(f, "Gmin {gmin}, spacing {spacing}")
    }
}

/// The settings of effective loss and of a plan.
pub struct Batches {
    pub batch: u32,
    pub threshold: u32,
}

impl Settings for Batches {
    fn numbers(&self) -> Object {
        object([
            ("batch", self.batch.into()),
            ("threshold", self.threshold.into()),
        ])
    }
}

impl fmt::Display for Batches {
    fn fmt(&self, f: &mut fmt::Formatter<'_>) -> fmt::Result {
        let (batch, threshold) = (packets(self.batch), losses(self.threshold));
        write!(f, "batch {batch}, threshold {threshold}")
    }
}

/// The settings of a card.
pub struct All {
    pub bursts: Bursts,
    pub batches: Batches,
}

impl Settings for All {
    fn numbers(&self) -> Object {
        self.bursts.numbers().and(self.batches.numbers())
    }
}

impl fmt::Display for All {
    fn fmt(&self, f: &mut fmt::Formatter<'_>) -> fmt::Result {
        write!(f, "{}, {}", self.bursts, self.batches)
    }
}

impl From<card::Settings> for All {
    fn from(card: card::Settings) -> All {
        let card::Settings {
            gmin,
            batch,
            threshold,
            spacing,
        } = card;
        All {
            bursts: Bursts { gmin, spacing },
            batches: Batches { batch, threshold },
        }
    }
}

impl From<&All> for card::Settings {
    fn from(all: &All) -> card::Settings {
        card::Settings {
            gmin: all.bursts.gmin,
            batch: all.batches.batch,
            threshold: all.batches.threshold,
            spacing: all.bursts.spacing,
        }
    }
}
