//! The smallest resend plan of a trace, or of a packed file.

use super::Job;
use crate::{
    answer::{Answer, Failure},
    arguments::{Arguments, Opt, JSON},
    count::COUNT,
    json::object,
    output,
    packed::{self, PACKED},
    settings::{self, BATCH, CARD, GMIN, SPACING, THRESHOLD},
    trace::{self, FORM},
    words,
};

const OUT: Opt = output::option("the plan, a byte a packet; - is standard output");

pub const PLAN: Job = Job {
    name: "plan",
    usage: "--card CARD [--count WHAT | --packed PACKETS] TRACE
    [-o FILE]",
    purpose: "the fewest packets to resend so that every batch can be repaired",
    words: "\
With the packets of the plan resent, no batch of B packets is left with more
than T losses, and no plan with fewer packets does that. Only losses are resent:
lost packets, or with --count discarded ones alone, or either kind. Packets are
numbered from 0, and 4-7 are the packets 4 to 7. The file of -o has a byte for
each packet of the trace: 1 to resend it, 0 otherwise. A file of the job `pack`
is taken as it is with --packed and the number of its packets; what counts was
chosen when it was packed, and the plan has a byte for each packet all the same.
",
    options: &[
        CARD, GMIN, BATCH, THRESHOLD, SPACING, COUNT, FORM, PACKED, OUT, JSON,
    ],
    takes: trace::ONE,
    example: "\
$ echo 011 010 100 | nuvaskoe plan --batch 3 --threshold 1 -
standard input: 9 packets, taken as digits
batch 3 packets, threshold 1 loss

  resend 2 packets:
  2 6
$ echo 011 020 200 | nuvaskoe plan --batch 3 --threshold 1 --count discarded -
standard input: 9 packets, taken as digits
batch 3 packets, threshold 1 loss
counted as lost: discarded packets

  resend 1 packet:
  6
",
    run,
};

fn run(arguments: &Arguments) -> Result<Answer<'_>, Failure> {
    let settings = settings::given(arguments)?.batches()?;
    let trace = packed::given(arguments)?;
    let (marks, plan) = trace.plan(&settings)?;
    let which = match marks {
        0 => "  resend 0 packets: no batch is over the threshold\n".into(),
        1 => format!("  resend 1 packet:\n{}", words::lines(marked(&plan))),
        _ => format!("  resend {marks} packets:\n{}", words::lines(marked(&plan))),
    };
    let numbers = object([("marks", marks.into()), ("marked", marked(&plan).collect())]);
    let one = trace.answer(&settings, &which, numbers);
    Ok(Answer::One(output::with(arguments, one, plan)))
}

/// The packets that a plan marks.
fn marked(plan: &[u8]) -> impl Iterator<Item = usize> + '_ {
    let numbered = plan.iter().enumerate();
    numbered.filter_map(|(number, mark)| (*mark == 1).then_some(number))
}
