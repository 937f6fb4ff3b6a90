//! Settings cards, read and made.

use super::Job;
use crate::{
    answer::{not_refused, Answer, Failure, One, Part},
    arguments::{Arguments, Takes, JSON},
    json::object,
    settings::{self, All, Settings as _, BATCH, CARD, GMIN, SPACING, THRESHOLD},
    words::{losses, microseconds, packets},
};
use nuvaskoe::card::{self, Settings};
use std::{ffi::OsStr, os::unix::ffi::OsStrExt};

pub const READ: Job = Job {
    name: "card read",
    usage: "TEXT..",
    purpose: "settings cards in words",
    words: "\
A card is twenty digits: Gmin (3), batch (5), threshold (5), spacing (5) and a
check (2). A card with one digit changed, or with two exchanged, is refused.
The text - is standard input, with a card on each line.
",
    options: &[JSON],
    takes: Takes {
        least: 1,
        most: usize::MAX,
        files: usize::MAX,
        fewer: "TEXT is missing",
    },
    example: "\
$ nuvaskoe card read 01600100000100040096
card 01600100000100040096
  Gmin       16 packets: losses with fewer packets between them are one burst
  batch      100 packets, repaired together
  threshold  10 losses in a batch can be repaired, more cannot
  spacing    400 microseconds from packet to packet
",
    run: read,
};

pub const MAKE: Job = Job {
    name: "card make",
    usage: "--gmin G --batch B --threshold T --spacing S",
    purpose: "the card of four settings: twenty digits",
    words: "\
Settings have one card each. With --card, those that are not given stay as they
are on that card.
",
    options: &[GMIN, BATCH, THRESHOLD, SPACING, CARD, JSON],
    takes: Takes {
        least: 0,
        most: 0,
        files: 0,
        fewer: "",
    },
    example: "\
$ nuvaskoe card make --gmin 16 --batch 100 --threshold 10 --spacing 400
01600100000100040096
",
    run: make,
};

/// The bytes of a card.
const BYTES: usize = 20;

fn read(arguments: &Arguments) -> Result<Answer<'_>, Failure> {
    let json = arguments.is_json();
    let parts = arguments.words().iter().flat_map(move |word| {
        let parts: Vec<Part> = match texts(word) {
            Ok(texts) => texts.iter().map(|text| part(text, json)).collect(),
            Err(failure) => vec![Part::new(
                json,
                String::new(),
                failure.numbers(),
                Some(failure),
            )],
        };
        parts
    });
    Ok(Answer::Several {
        name: "cards",
        parts: Box::new(parts),
    })
}

/// The cards of a word: itself, or each line of standard input that is not empty. Of no such line one empty card, so that
/// it is refused.
fn texts(word: &OsStr) -> Result<Vec<Vec<u8>>, Failure> {
    if word != "-" {
        return Ok(vec![word.as_bytes().to_vec()]);
    }
    let input = settings::from_input()?;
    let lines = input.split(|byte| *byte == b'\n');
    let lines = lines.map(|line| line.strip_suffix(b"\r").unwrap_or(line));
    let cards: Vec<_> = lines
        .filter(|line| !line.is_empty())
        .map(<[u8]>::to_vec)
        .collect();
    match cards.is_empty() {
        true => Ok(vec![Vec::new()]),
        false => Ok(cards),
    }
}

/// One card among several.
fn part(text: &[u8], json: bool) -> Part {
    let card = String::from_utf8_lossy(text);
    let numbers = object([("card", card.as_ref().into())]);
    match card::read(text) {
        Ok(settings) => {
            let words = format!("card {card}\n{}", in_words(&settings));
            let settings = object([("settings", All::from(settings).numbers().into())]);
            Part::new(json, words, numbers.and(not_refused()).and(settings), None)
        }
        Err(refusal) => {
            let failure = settings::refused(refusal, text);
            Part::new(
                json,
                String::new(),
                numbers.and(failure.numbers()),
                Some(failure),
            )
        }
    }
}

fn make(arguments: &Arguments) -> Result<Answer<'_>, Failure> {
    let settings = settings::given(arguments)?.all()?;
    let mut card = [0; BYTES];
    let size = card::write((&settings).into(), &mut card)
        .map_err(|refusal| Failure::refused(refusal, settings.to_string()))?;
    let card = String::from_utf8_lossy(&card);
    let numbers = object([("settings", settings.numbers().into())]);
    let written = object([("size", size.into()), ("card", card.as_ref().into())]);
    Ok(Answer::One(One {
        words: format!("{card}\n"),
        numbers: numbers.and(not_refused()).and(written),
        ..One::default()
    }))
}

fn in_words(settings: &Settings) -> String {
    let (gmin, batch) = (packets(settings.gmin), packets(settings.batch));
    let (threshold, spacing) = (losses(settings.threshold), microseconds(settings.spacing));
    [
        format!("  Gmin       {gmin}: losses with fewer packets between them are one burst\n"),
        format!("  batch      {batch}, repaired together\n"),
        format!("  threshold  {threshold} in a batch can be repaired, more cannot\n"),
        format!("  spacing    {spacing} from packet to packet\n"),
    ]
    .concat()
}
