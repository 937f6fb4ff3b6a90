//! A trace packed into a file of words.

use super::Job;
use crate::{
    answer::{not_refused, Answer, Failure, One},
    arguments::{Arguments, Opt, JSON},
    count::{self, COUNT},
    json::object,
    output,
    packed::{counted, in_bytes},
    trace::{self, FORM},
};
use nuvaskoe::packed;

const OUT: Opt = output::option("where the packed file goes; - is standard output");

pub const PACK: Job = Job {
    name: "pack",
    usage: "[--count WHAT] TRACE -o FILE",
    purpose: "a trace packed into a file of a bit for each packet",
    words: "\
FILE has a word of eight bytes for each 64 packets, the highest byte first, and
no header. In a word the first packet is the lowest bit. A one is a lost packet;
with --count it is a discarded one alone, or either kind. A zero is any other
packet. The last word is filled up with zeros.

FILE does not say how many packets it has, nor what its ones were: keep both
with it. The job `unpack`, and `loss` and `plan` with --packed, take the number,
and every one as a loss.
",
    options: &[COUNT, FORM, OUT, JSON],
    takes: trace::ONE,
    example: "\
$ echo 011 010 100 | nuvaskoe pack - -o example.packed
standard input: 9 packets, taken as digits

  1 word
  8 bytes to example.packed
$ nuvaskoe loss --batch 3 --threshold 1 --packed 9 example.packed | tail -n 1
  first batch over               packets 0 to 2
$ nuvaskoe unpack example.packed 9
011010100
$ echo 011 020 200 | nuvaskoe pack --count either - -o late.packed
standard input: 9 packets, taken as digits
counted as lost: lost and discarded packets

  1 word
  8 bytes to late.packed
$ nuvaskoe unpack late.packed 9
011010100
",
    run,
};

fn run(arguments: &Arguments) -> Result<Answer<'_>, Failure> {
    arguments.need(&[&OUT], None)?;
    let count = count::given(arguments)?;
    let trace = trace::read(arguments, arguments.word())?;
    let words = packed::words_of(&trace.packets, count::event(count));
    let words = words.map_err(|refusal| trace.refused(refusal, "to be packed"))?;
    let (head, size) = (&trace.head, counted(&words));
    let said = count::said_below(head, count);
    let one = One {
        words: format!("{said}\n\n  {size}\n"),
        numbers: head
            .numbers()
            .and(not_refused())
            .and(count::numbers(count))
            .and(object([("words", words.len().into())])),
        ..One::default()
    };
    Ok(Answer::One(output::with(arguments, one, in_bytes(&words))))
}
