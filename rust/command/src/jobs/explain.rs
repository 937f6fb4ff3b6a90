//! Refusals and reasons explained.

use super::Job;
use crate::{
    answer::{plain, Answer, Failure, One},
    arguments::{decimal, Arguments, Takes, JSON},
    json::{object, Object},
};
use nuvaskoe::{block::Reason, RefusalKind};

pub const EXPLAIN: Job = Job {
    name: "explain",
    usage: "N..",
    purpose: "what a refusal or a reason means, and what to do",
    words: "\
`refused N at P` is refusal N, and a block that reads `dropped type T reason N`
has reason N. A number that is both is explained as both; D4 is reason 4 alone.
",
    options: &[JSON],
    takes: Takes {
        least: 1,
        most: usize::MAX,
        files: 0,
        fewer: "N is missing",
    },
    example: "\
$ nuvaskoe explain 12
refusal 12: the card's check does not fit
  what to do: a digit is wrong, or two are exchanged: compare with the master card
",
    run,
};

fn run(arguments: &Arguments) -> Result<Answer<'_>, Failure> {
    let (mut words, mut explained) = (String::new(), Vec::new());
    for word in arguments.words() {
        let word = word.to_string_lossy();
        let meant = meant(&word);
        if meant.is_empty() {
            let word = plain(&word);
            return Err(arguments.usage(format!("\"{word}\" is no refusal and no reason")));
        }
        words.extend(meant.iter().map(Meant::in_words));
        explained.extend(meant.iter().map(Meant::numbers));
    }
    Ok(Answer::One(One {
        words,
        numbers: object([("explained", explained.into_iter().collect())]),
        ..One::default()
    }))
}

/// What a number is: a refusal, or the reason of a dropped block.
struct Meant {
    kind: &'static str,
    number: u32,
    meaning: &'static str,
    advice: &'static str,
}

impl From<RefusalKind> for Meant {
    fn from(kind: RefusalKind) -> Meant {
        Meant {
            kind: "refusal",
            number: kind.number(),
            meaning: kind.meaning(),
            advice: kind.advice(),
        }
    }
}

impl From<Reason> for Meant {
    fn from(reason: Reason) -> Meant {
        Meant {
            kind: "reason",
            number: reason.number(),
            meaning: reason.meaning(),
            advice: reason.advice(),
        }
    }
}

impl Meant {
    fn in_words(&self) -> String {
        let Meant { kind, number, .. } = self;
        let Meant {
            meaning, advice, ..
        } = self;
        format!("{kind} {number}: {meaning}\n  what to do: {advice}\n")
    }

    fn numbers(&self) -> Object {
        object([
            ("kind", self.kind.into()),
            ("number", self.number.into()),
            ("meaning", self.meaning.into()),
            ("advice", self.advice.into()),
        ])
    }
}

/// All that a word can mean.
fn meant(word: &str) -> Vec<Meant> {
    let (refusal, reason) = match word.strip_prefix(['D', 'd']) {
        Some(digits) => (None, Reason::numbered(number(digits))),
        None => {
            let number = number(word);
            (RefusalKind::numbered(number), Reason::numbered(number))
        }
    };
    let refusal = refusal.map(Meant::from);
    refusal.into_iter().chain(reason.map(Meant::from)).collect()
}

/// The number of a word; 0, which is no refusal and no reason, where it has none.
fn number(digits: &str) -> u32 {
    let number = decimal(digits).unwrap_or_default();
    number.try_into().unwrap_or_default()
}
