//! Effective loss of a trace, or of a packed file.

use super::Job;
use crate::{
    answer::{Answer, Failure},
    arguments::{Arguments, JSON},
    count::COUNT,
    json::object,
    packed::{self, PACKED},
    settings::{self, Batches, BATCH, CARD, GMIN, SPACING, THRESHOLD},
    trace::{self, FORM},
    words,
};
use nuvaskoe::effective::EffectiveLoss;

pub const LOSS: Job = Job {
    name: "loss",
    usage: "--card CARD [--count WHAT | --packed PACKETS] TRACE",
    purpose: "effective loss: how many batches are beyond repair",
    words: "\
Batches are all runs of B packets, each beginning one packet after the one
before. A batch with more than T losses is over the threshold: it cannot be
repaired. K of N batches are; the index is their share as a report packet holds
it, in parts of 65,535, rounded down. Packets are numbered from 0. A loss is a
lost packet; with --count it is a discarded one alone, or either kind. A file of
the job `pack` is taken as it is with --packed and the number of its packets;
what counts was chosen when it was packed.
",
    options: &[
        CARD, GMIN, BATCH, THRESHOLD, SPACING, COUNT, FORM, PACKED, JSON,
    ],
    takes: trace::ONE,
    example: "\
$ echo 011 010 100 | nuvaskoe loss --batch 3 --threshold 1 -
standard input: 9 packets, taken as digits
batch 3 packets, threshold 1 loss

  batches over the threshold, K      4
  batches in all, N                  7
  effective loss index           37448  57.142 %
  first batch over               packets 0 to 2
$ echo 011 020 200 | nuvaskoe loss --batch 3 --threshold 1 --count either -
standard input: 9 packets, taken as digits
batch 3 packets, threshold 1 loss
counted as lost: lost and discarded packets

  batches over the threshold, K      4
  batches in all, N                  7
  effective loss index           37448  57.142 %
  first batch over               packets 0 to 2
",
    run,
};

fn run(arguments: &Arguments) -> Result<Answer<'_>, Failure> {
    let settings = settings::given(arguments)?.batches()?;
    let trace = packed::given(arguments)?;
    let loss = trace.loss(&settings)?;
    let numbers = object([
        ("over", loss.over.into()),
        ("batches", loss.batches.into()),
        ("index", loss.index.0.into()),
        ("found", u32::from(loss.first.is_some()).into()),
        ("first", loss.first.unwrap_or(0).into()),
    ]);
    let one = trace.answer(&settings, &in_words(&loss, &settings), numbers);
    Ok(Answer::One(one))
}

fn in_words(loss: &EffectiveLoss, settings: &Batches) -> String {
    let (over, batches, index) = (loss.over, loss.batches, loss.index);
    let first = match loss.first {
        Some(first) => words::run(first, settings.batch),
        None => "none".into(),
    };
    let per_cent = words::index(index, over);
    [
        format!("  batches over the threshold, K  {over:>5}\n"),
        format!("  batches in all, N              {batches:>5}\n"),
        format!("  effective loss index           {index:>5}  {per_cent}\n"),
        format!("  first batch over               {first}\n"),
    ]
    .concat()
}
