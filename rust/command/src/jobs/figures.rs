//! Burst and gap figures of a trace.

use super::Job;
use crate::{
    answer::{Answer, Failure},
    arguments::{Arguments, JSON},
    count::{self, Count, COUNT},
    json::{object, Object},
    settings::{self, Bursts, BATCH, CARD, GMIN, SPACING, THRESHOLD},
    trace::{self, Trace, FORM},
    words,
};
use nuvaskoe::figures::{self, Figures};

pub const FIGURES: Job = Job {
    name: "figures",
    usage: "--card CARD [--count WHAT] TRACE",
    purpose: "burst and gap figures of lost and of discarded packets",
    words: "\
A burst is two or more losses with fewer than Gmin packets between one and the
next; a loss by itself lies in a gap. There are figures with the lost packets as
losses, and with the discarded ones; with --count there are those of one choice,
and by either every packet that was lost or discarded is a loss.

Each figure is given as the 16-bit number that a report packet holds, and in
words. The number is rounded down, and the words are those of the number: 4 of 5
lost is 79.999 %. The number 65535 is of a figure that could not be measured,
65534 of a mean or variance that is too large to send. Mean and variance are of
how long the bursts lasted; the variance is divided by the number of bursts,
where RFC 7004 divides by one less.
",
    options: &[CARD, GMIN, BATCH, THRESHOLD, SPACING, COUNT, FORM, JSON],
    takes: trace::ONE,
    example: "\
$ echo 10100 10001 1 | nuvaskoe figures --gmin 2 --spacing 1000 -
standard input: 11 packets, taken as digits
Gmin 2 packets, spacing 1000 microseconds

lost
  burst rate      26214  79.999 % of the packets in bursts were lost
  gap rate         5461  16.666 % of the packets outside bursts were lost
  burst mean          2  2 milliseconds
  burst variance      0  0 square milliseconds
discarded
  burst rate      65535  could not be measured: there were no packets in bursts
  gap rate            0  0.000 %, fewer than 1 in 32768, of the packets outside bursts were discarded
  burst mean      65535  could not be measured: there was no burst
  burst variance  65535  could not be measured: there was no burst
$ echo 12000 | nuvaskoe figures --gmin 2 --spacing 1000 --count either - | tail -n 5
lost or discarded
  burst rate      32768  100.000 % of the packets in bursts were lost or discarded
  gap rate            0  0.000 %, fewer than 1 in 32768, of the packets outside bursts were lost or discarded
  burst mean          2  2 milliseconds
  burst variance      0  0 square milliseconds
",
    run,
};

fn run(arguments: &Arguments) -> Result<Answer<'_>, Failure> {
    let settings = settings::given(arguments)?.bursts()?;
    let count = count::given(arguments)?;
    let trace = trace::read(arguments, arguments.word())?;
    let counts = match count {
        Some(count) => vec![count],
        None => vec![count::LOST, count::DISCARDED],
    };
    let (mut words, mut of_counts) = (String::new(), count::numbers(count));
    for count in counts {
        let figures = of(&trace, &settings, count)?;
        words += &in_words(&figures, count.were);
        of_counts = of_counts.and(object([(count.name, numbers(&figures).into())]));
    }
    let one = trace.head.answer(&settings, &words, of_counts);
    Ok(Answer::One(one))
}

fn of(trace: &Trace, settings: &Bursts, count: Count) -> Result<Figures, Failure> {
    let (gmin, spacing) = (settings.gmin, settings.spacing);
    let figures = figures::of_trace(&trace.packets, gmin, spacing, count.event);
    figures.map_err(|refusal| trace.refused(refusal, settings))
}

fn in_words(figures: &Figures, event: &str) -> String {
    let (burst, gap) = (figures.burst_rate, figures.gap_rate);
    let (mean, variance) = (figures.mean, figures.variance);
    let rows = [
        (
            "burst rate",
            burst.0,
            words::rate(burst, "packets in bursts", event),
        ),
        (
            "gap rate",
            gap.0,
            words::rate(gap, "packets outside bursts", event),
        ),
        ("burst mean", mean.0, words::figure(mean, "milliseconds")),
        (
            "burst variance",
            variance.0,
            words::figure(variance, "square milliseconds"),
        ),
    ];
    let rows = rows.map(|(name, sent, words)| format!("  {name:<14}  {sent:>5}  {words}\n"));
    format!("{event}\n{}", rows.concat())
}

/// As `nuvaskoe_burst_figures`.
fn numbers(figures: &Figures) -> Object {
    object([
        ("burst_rate", figures.burst_rate.0.into()),
        ("gap_rate", figures.gap_rate.0.into()),
        ("burst_mean", figures.mean.0.into()),
        ("burst_variance", figures.variance.0.into()),
    ])
}
