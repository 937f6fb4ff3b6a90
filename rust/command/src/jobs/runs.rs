//! The trace of a block of type 1, Loss RLE, read out.

use super::Job;
use crate::{
    answer::{not_refused, plain, shown, Answer, Failure, One},
    arguments::{Arguments, Opt, Takes, JSON},
    input,
    json::object,
    listing, output, trace,
};
use nuvaskoe::{
    packet::{self, PacketBlock},
    Refusal, RefusalKind,
};

const OUT: Opt = output::option("where the trace goes, in place of standard output");

pub const RUNS: Job = Job {
    name: "runs",
    usage: "FILE K [-o TRACE]",
    purpose: "which packets were lost: the trace of a block of Loss RLE",
    words: "\
FILE holds one packet, and K is the number of a block, from 0, that the job
`list` shows as `rle`. Its trace has a digit for each packet from `begin` on, 0
received and 1 lost, 60 in a line, as other jobs take it; a block on no packets
has an empty one. With -o the trace goes to a file, and it is said what it is.
The job `report` makes such a block with --runs.
",
    options: &[OUT, JSON],
    takes: Takes {
        least: 2,
        most: 2,
        files: 1,
        fewer: "FILE and K are needed",
    },
    example: "\
$ printf '\\200\\317\\0\\5\\0\\0\\0\\1\\1\\0\\0\\3\\0\\0\\0\\2\\0\\7\\0\\24\\100\\12\\0\\3' > hall.xr
$ nuvaskoe list hall.xr
ssrc 00000001 blocks 1
0 rle source 00000002 begin 7 end 20 lost 3
$ nuvaskoe runs hall.xr 0
0000000000111
",
    run,
};

fn run(arguments: &Arguments) -> Result<Answer<'_>, Failure> {
    let [file, asked] = arguments.words() else {
        return Err(arguments.usage(RUNS.takes.fewer));
    };
    let index = arguments.numbered("K", asked)?;
    let packet = input::packet(file)?;
    let name = format!("{}, block {}", shown(file), plain(&asked.to_string_lossy()));
    let block = packet::blocks(&packet).map(|mut blocks| blocks.nth(index));
    let block = block.map_err(|refusal| Failure::refused(refusal, name.as_str()))?;
    let trace = packet::rle_trace(&packet, index);
    let trace = trace.map_err(|refusal| refused(refusal, &name, block.as_ref()))?;
    let line = block.as_ref().map(listing::line).unwrap_or_default();
    let numbers = block.as_ref().map(listing::numbered).unwrap_or_default();
    let digits = trace::in_digits(&trace);
    // Standard output is the trace's, or the words' where it has a file of its own.
    let words = match arguments.value(output::NAME) {
        None => digits.clone(),
        Some(_) => format!("{name} {line}\n"),
    };
    let one = One {
        words,
        numbers: object([("file", file.to_string_lossy().as_ref().into())])
            .and(not_refused())
            .and(numbers)
            .and(object([("trace", trace.into_iter().collect())])),
        ..One::default()
    };
    let bytes = digits.into_bytes();
    Ok(Answer::One(output::with(arguments, one, bytes)))
}

/// What the library said; a block that is there is named.
fn refused(refusal: Refusal, name: &str, block: Option<&PacketBlock<'_>>) -> Failure {
    match (refusal.kind, block) {
        (RefusalKind::NoSuchBlock, Some(block)) => {
            let what = format!("{name} {}", listing::line(block));
            Failure::refused(refusal, what).saying(
                "it has that block, but no trace: it is no good block of type 1",
                "the job `list` shows which blocks have one: they read `rle`",
            )
        }
        _ => Failure::refused(refusal, name),
    }
}
