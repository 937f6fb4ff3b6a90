//! The trace of a packed file.

use super::Job;
use crate::{
    answer::{not_refused, Answer, Failure, One},
    arguments::{Arguments, Opt, Takes, JSON},
    json::object,
    output, packed, trace,
};

const OUT: Opt = output::option("where the trace goes, in place of standard output");

pub const UNPACK: Job = Job {
    name: "unpack",
    usage: "FILE PACKETS [-o TRACE]",
    purpose: "the trace of a packed file",
    words: "\
FILE was made by the job `pack`, and PACKETS is how many packets it has. The
trace has a digit for each, 1 for a packet that counted when it was packed and 0
for any other, 60 in a line, as other jobs take it: there a 1 is lost. With -o
the trace goes to a file, and it is said what it is. FILE has to have as many
words as so many packets need, and no more. Within the last word a wrong number
shows only where it leaves a one behind it.
",
    options: &[OUT, JSON],
    takes: Takes {
        least: 2,
        most: 2,
        files: 1,
        fewer: "FILE and PACKETS are needed",
    },
    example: "\
$ printf '\\0\\0\\0\\0\\0\\0\\0\\126' > hall.packed
$ nuvaskoe unpack hall.packed 9
011010100
$ nuvaskoe unpack hall.packed 9 | nuvaskoe plan --batch 3 --threshold 1 - | tail -n 1
  2 6
",
    run,
};

fn run(arguments: &Arguments) -> Result<Answer<'_>, Failure> {
    let [file, packets] = arguments.words() else {
        return Err(arguments.usage(UNPACK.takes.fewer));
    };
    let file = packed::read(file, arguments.numbered("PACKETS", packets)?)?;
    let (trace, head) = (file.trace()?, &file.head);
    let digits = trace::in_digits(&trace);
    // Standard output is the trace's, or the words' where it has a file of its own.
    let words = match arguments.value(output::NAME) {
        None => digits.clone(),
        Some(_) => format!("{head}\n"),
    };
    let one = One {
        words,
        numbers: head
            .numbers()
            .and(not_refused())
            .and(object([("trace", trace.into_iter().collect())])),
        ..One::default()
    };
    let bytes = digits.into_bytes();
    Ok(Answer::One(output::with(arguments, one, bytes)))
}
