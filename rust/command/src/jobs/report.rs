//! A report packet made from a measured trace: blocks 14, 17, 18 and 240, and 1 where it is asked for.

use super::Job;
use crate::{
    answer::{Answer, Failure},
    arguments::{Arguments, Opt, JSON},
    listing, output,
    settings::{self, All, BATCH, CARD, GMIN, SPACING, THRESHOLD},
    trace::{self, Trace, FORM},
};
use nuvaskoe::{
    block::{Block, Effective, Measurement},
    effective, figures, packet,
    trace::Event,
    Refusal, RefusalKind,
};
use std::ffi::OsStr;

const SENDER: Opt = Opt {
    name: "--sender",
    value: Some("S"),
    words: "who reports, one to eight hex digits",
};
const SOURCE: Opt = Opt {
    name: "--source",
    value: Some("S"),
    words: "whose packets were measured, one to eight hex digits",
};
const FLAG: Opt = Opt {
    name: "--flag",
    value: Some("F"),
    words: "2 figures of an interval, 3 since the start, 1 a sample",
};
const FIRST: Opt = Opt {
    name: "--first",
    value: Some("N"),
    words: "sequence number of the first packet of all, to 65535",
};
const EXTENDED_FIRST: Opt = Opt {
    name: "--extended-first",
    value: Some("N"),
    words: "extended sequence number of the interval's first",
};
const EXTENDED_LAST: Opt = Opt {
    name: "--extended-last",
    value: Some("N"),
    words: "extended sequence number of the last",
};
const INTERVAL: Opt = Opt {
    name: "--interval",
    value: Some("N"),
    words: "the interval, in parts of 1/65,536 of a second",
};
const SECONDS: Opt = Opt {
    name: "--seconds",
    value: Some("N"),
    words: "the time since the start, in whole seconds",
};
const FRACTION: Opt = Opt {
    name: "--fraction",
    value: Some("N"),
    words: "the rest of it, in parts of 1/4,294,967,296 of a second",
};
const RUNS: Opt = Opt {
    name: "--runs",
    value: None,
    words: "which packets were lost too, as Loss RLE (1)",
};
const OUT: Opt = output::option("where the packet goes; - is standard output");

pub const REPORT: Job = Job {
    name: "report",
    usage: "--card CARD --sender S --source S --flag F --first N
    --extended-first N --extended-last N --interval N --seconds N --fraction N
    [--runs] TRACE -o FILE",
    purpose: "a report packet made from a measured trace",
    words: "\
The packet has four blocks on its source: what was measured (14), bursts and
gaps of lost packets (17) and of discarded ones (18), and effective loss (240),
with lost packets as losses. A trace holds no sequence numbers and no clock, so
the numbers of block 14 are given as the receiver has them: 16 milliseconds are
1048 as an interval and 68719476 as a fraction. The job `list` then shows the
packet.

With --runs a block of Loss RLE (1) stands before the last and says of every
packet whether it was received or lost; its first sequence number is that of
--extended-first. A trace with discarded packets, or with over 65,533, is then
refused. The job `runs` reads the trace out of the packet again.
",
    options: &[
        CARD,
        GMIN,
        BATCH,
        THRESHOLD,
        SPACING,
        SENDER,
        SOURCE,
        FLAG,
        FIRST,
        EXTENDED_FIRST,
        EXTENDED_LAST,
        INTERVAL,
        SECONDS,
        FRACTION,
        RUNS,
        FORM,
        OUT,
        JSON,
    ],
    takes: trace::ONE,
    example: "\
$ echo 0110 1010 0200 0000 | nuvaskoe report --card 00200003000010100094 \\
    --sender 1 --source 2 --flag 2 --first 100 --extended-first 100 \\
    --extended-last 115 --interval 1048 --seconds 0 --fraction 68719476 \\
    - -o example.xr
standard input: 16 packets, taken as digits
Gmin 2 packets, spacing 1000 microseconds, batch 3 packets, threshold 1 loss

  80 bytes to example.xr
$ nuvaskoe list example.xr
ssrc 00000001 blocks 4
0 meas source 00000002 first 100 efirst 100 elast 115 interval 1048 seconds 0 fraction 68719476
1 loss source 00000002 i 2 burst 21845 gap 0 mean 6 var 0
2 discard source 00000002 i 2 burst none gap 2048
3 eli source 00000002 index 18724
",
    run,
};

/// The options that have to be there, beside the settings.
const NEEDED: [&Opt; 10] = [
    &SENDER,
    &SOURCE,
    &FLAG,
    &FIRST,
    &EXTENDED_FIRST,
    &EXTENDED_LAST,
    &INTERVAL,
    &SECONDS,
    &FRACTION,
    &OUT,
];

/// Enough for the four blocks, and for one on 65,533 packets, which has 8,752 bytes.
const ROOM: usize = 8_880;

fn run(arguments: &Arguments) -> Result<Answer<'_>, Failure> {
    arguments.need(&NEEDED, None)?;
    let (sender, span, flag) = (hex(arguments, &SENDER)?, span(arguments)?, flag(arguments)?);
    let settings = settings::given(arguments)?.all()?;
    let trace = trace::read(arguments, arguments.word())?;
    let blocks = measured(&trace, &settings, span, flag)?;
    let runs = arguments.text(&RUNS).map(|_| (span, &trace.packets[..]));
    let refused = |refusal| refused(&trace, refusal, flag);
    let packet = made(sender, &blocks, runs).map_err(refused)?;
    let numbers = listing::numbers(&packet).map_err(refused)?;
    let one = trace.head.answer(&settings, "", numbers);
    Ok(Answer::One(output::with(arguments, one, packet)))
}

/// The four blocks.
fn measured(
    trace: &Trace,
    settings: &All,
    span: Measurement,
    flag: u8,
) -> Result<[Block; 4], Failure> {
    let (packets, source) = (&trace.packets, span.source);
    let (gmin, spacing) = (settings.bursts.gmin, settings.bursts.spacing);
    let (batch, threshold) = (settings.batches.batch, settings.batches.threshold);
    let refused = |refusal| trace.refused(refusal, settings);
    let lost = figures::loss_of_trace(packets, gmin, spacing, source, flag).map_err(refused)?;
    let discarded =
        figures::discard_of_trace(packets, gmin, spacing, source, flag).map_err(refused)?;
    let effective = effective::effective_loss(packets, batch, threshold, Event::Lost);
    let index = effective.map_err(refused)?.index;
    Ok([
        Block::Measurement(span),
        Block::Loss(lost),
        Block::Discard(discarded),
        Block::Effective(Effective { source, index }),
    ])
}

/// The packet with these blocks and, before the last, the trace of this span. Some programs call a
/// packet malformed that ends with such a block.
fn made(
    sender: u32,
    blocks: &[Block; 4],
    runs: Option<(Measurement, &[u8])>,
) -> Result<Vec<u8>, Refusal> {
    let [measured, lost, discarded, effective] = blocks;
    let mut packet = vec![0; ROOM];
    packet::new(sender, &mut packet)?;
    for block in [measured, lost, discarded] {
        packet::add(&mut packet, block)?;
    }
    if let Some((span, trace)) = runs {
        // A sequence number is the low half of the extended one.
        let begin = span.extended_first as u16;
        packet::add_rle(&mut packet, span.source, begin, trace)?;
    }
    let size = packet::add(&mut packet, effective)?;
    packet.truncate(size);
    Ok(packet)
}

/// What the library said of the blocks. A trace was taken before, and is now refused for Loss RLE.
fn refused(trace: &Trace, refusal: Refusal, flag: u8) -> Failure {
    match refusal.kind {
        RefusalKind::TraceByte => trace.refused(refusal, RUNS.name).saying(
            "that packet was discarded, and Loss RLE has received and lost packets alone",
            "leave --runs out, or hand in a trace that counts it as received or as lost",
        ),
        RefusalKind::TraceLength => trace.refused(refusal, RUNS.name).saying(
            "the trace is over 65,533 packets, the most of Loss RLE",
            "leave --runs out, or measure in shorter stretches",
        ),
        _ => trace.refused(refusal, flag_in_words(flag)),
    }
}

/// The block 14, as it is given.
fn span(arguments: &Arguments) -> Result<Measurement, Failure> {
    Ok(Measurement {
        source: hex(arguments, &SOURCE)?,
        first: held(arguments, &FIRST)?,
        extended_first: held(arguments, &EXTENDED_FIRST)?,
        extended_last: held(arguments, &EXTENDED_LAST)?,
        interval: held(arguments, &INTERVAL)?,
        seconds: held(arguments, &SECONDS)?,
        fraction: held(arguments, &FRACTION)?,
    })
}

/// Every flag above 3 is refused, so one that no byte can hold is handed on as the largest.
fn flag(arguments: &Arguments) -> Result<u8, Failure> {
    let flag = arguments.number(&FLAG)?.unwrap_or_default();
    Ok(u8::try_from(flag).unwrap_or(u8::MAX))
}

fn flag_in_words(flag: u8) -> String {
    match flag {
        u8::MAX => format!("flag {flag} or more"),
        _ => format!("flag {flag}"),
    }
}

/// The number of an option, which its field has to hold.
fn held<T: TryFrom<u64>>(arguments: &Arguments, option: &Opt) -> Result<T, Failure> {
    let number = arguments.number(option)?.unwrap_or_default();
    T::try_from(number).map_err(|_| arguments.bad(option, "is too large for its field"))
}

/// A sender or source as the listing shows it.
fn hex(arguments: &Arguments, option: &Opt) -> Result<u32, Failure> {
    let text = arguments.text(option).and_then(OsStr::to_str);
    let digits = text.unwrap_or_default();
    let digits = digits.strip_prefix("0x").unwrap_or(digits);
    let number = match digits.bytes().all(|digit| digit.is_ascii_hexdigit()) && digits.len() <= 8 {
        true => u32::from_str_radix(digits, 16).ok(),
        false => None,
    };
    number.ok_or_else(|| arguments.bad(option, "is not one to eight hex digits"))
}
