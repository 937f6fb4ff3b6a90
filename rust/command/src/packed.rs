//! Packed files: a word of eight bytes for each 64 packets and nothing else, and what the jobs on batches take, a trace or
//! such a file.

use crate::{
    answer::{Failure, One},
    arguments::{Arguments, Opt},
    count::{self, Count},
    input,
    json::Object,
    settings::{Batches, Settings},
    trace::{self, Head, Trace, FORM, MOST},
};
use nuvaskoe::{
    effective::{self, EffectiveLoss},
    packed, resend, Refusal, RefusalKind,
};
use std::{ffi::OsStr, fmt};

/// A packed file in place of a trace.
pub const PACKED: Opt = Opt {
    name: "--packed",
    value: Some("PACKETS"),
    words: "TRACE is a packed file, of so many packets",
};

/// The bytes of a word.
const WORD_BYTES: usize = 8;
/// The most words of a packed file. One more is read, enough to tell that there are more.
const MOST_WORDS: usize = MOST / 64;

/// A packed file as it was read, and how many packets it is to have.
pub struct Packed {
    pub head: Head,
    words: Vec<u64>,
    packets: usize,
}

/// The packed file with this name.
pub fn read(name: &OsStr, packets: usize) -> Result<Packed, Failure> {
    let most = MOST_WORDS.saturating_add(1).saturating_mul(WORD_BYTES);
    let bytes = input::front(name, input::open(name)?, most)?;
    let head = Head::new(name, "packed", packets);
    let words = bytes.chunks_exact(WORD_BYTES);
    if !words.remainder().is_empty() {
        let (name, size) = (&head.name, bytes.len());
        let wrong = "it was cut off, or is no packed file: that has 8 bytes for each 64 packets";
        return Err(Failure::File(format!("{name}: {size} bytes: {wrong}")));
    }
    let words = words.filter_map(|word| word.try_into().ok());
    let words = words.map(u64::from_be_bytes).collect();
    Ok(Packed {
        head,
        words,
        packets,
    })
}

/// The bytes of a packed file.
pub fn in_bytes(words: &[u64]) -> Vec<u8> {
    words.iter().copied().flat_map(u64::to_be_bytes).collect()
}

/// How many words these are.
pub fn counted(words: &[u64]) -> String {
    match words.len() {
        1 => "1 word".into(),
        count if count > MOST_WORDS => format!("over {MOST_WORDS} words"),
        count => format!("{count} words"),
    }
}

impl Packed {
    /// The trace that it holds.
    pub fn trace(&self) -> Result<Vec<u8>, Failure> {
        let trace = packed::trace_of(&self.words, self.packets);
        self.judged(trace, "to be unpacked")
    }

    /// What the library answered. It does not look at words past those that it needs; but the file does not say how many
    /// packets it has, so that its length has to tell of a wrong number.
    fn judged<T>(
        &self,
        answer: Result<T, Refusal>,
        settings: impl fmt::Display,
    ) -> Result<T, Failure> {
        let answer = answer.map_err(|refusal| self.refused(refusal, settings))?;
        let needed = packed::words_for(self.packets);
        match self.words.len() > needed {
            true => {
                let (head, words) = (&self.head, counted(&self.words));
                let wrong = format!("{head}; it has {words}, and so many packets need {needed}");
                let advice = "give the number of packets that were packed";
                Err(Failure::File(format!("{wrong}: {advice}")))
            }
            false => Ok(answer),
        }
    }

    /// What the library said of this file under these settings.
    fn refused(&self, refusal: Refusal, settings: impl fmt::Display) -> Failure {
        let (head, words) = (&self.head, counted(&self.words));
        match refusal.kind {
            RefusalKind::BufferShort => {
                Failure::refused(refusal, format!("{head}; it has {words}")).saying(
                    "so many packets need more words, one for each 64",
                    "give the number of packets that were packed, and the whole file",
                )
            }
            RefusalKind::TraceByte => {
                let bit = refusal.place;
                Failure::refused(refusal, format!("{head}; bit {bit} is a one")).saying(
                    "the bits behind the last packet have to be 0",
                    "give the number of packets that were packed; if it is right, the file was damaged",
                )
            }
            _ => Failure::refused(refusal, format!("{head}; {settings}")),
        }
    }
}

/// What a job on batches takes: a trace and what counts in it, or a packed file, of which the ones count.
pub enum Batched {
    Trace(Trace, Option<Count>),
    Packed(Packed),
}

/// The trace or packed file that a job is given.
pub fn given(arguments: &Arguments) -> Result<Batched, Failure> {
    let (name, count) = (arguments.word(), count::given(arguments)?);
    let Some(packets) = arguments.number(&PACKED)? else {
        let trace = trace::read(arguments, name)?;
        return Ok(Batched::Trace(trace, count));
    };
    if arguments.text(&FORM).is_some() {
        return Err(arguments.usage("--form and --packed are two forms"));
    }
    if count.is_some() {
        let wrong = "--count and --packed: what counts was chosen when the file was packed";
        return Err(arguments.usage(wrong));
    }
    let packets = usize::try_from(packets).unwrap_or(usize::MAX);
    read(name, packets).map(Batched::Packed)
}

impl Batched {
    pub fn loss(&self, settings: &Batches) -> Result<EffectiveLoss, Failure> {
        let (batch, threshold) = (settings.batch, settings.threshold);
        match self {
            Batched::Trace(trace, count) => {
                let event = count::event(*count);
                let loss = effective::effective_loss(&trace.packets, batch, threshold, event);
                loss.map_err(|refusal| trace.refused(refusal, settings))
            }
            Batched::Packed(file) => {
                let loss = packed::effective_loss(&file.words, file.packets, batch, threshold);
                file.judged(loss, settings)
            }
        }
    }

    /// The plan, and how many packets it marks.
    pub fn plan(&self, settings: &Batches) -> Result<(usize, Vec<u8>), Failure> {
        let (batch, threshold) = (settings.batch, settings.threshold);
        let (marks, plan) = match self {
            Batched::Trace(trace, count) => {
                let (packets, event) = (&trace.packets, count::event(*count));
                let mut plan = vec![0; packets.len()];
                let marks = resend::plan(packets, batch, threshold, event, &mut plan);
                let marks = marks.map_err(|refusal| trace.refused(refusal, settings))?;
                (marks, plan)
            }
            Batched::Packed(file) => {
                // More packets are refused before any room is looked at.
                let mut plan = vec![0; file.packets.min(MOST)];
                let (words, packets) = (&file.words, file.packets);
                let marks = packed::plan(words, packets, batch, threshold, &mut plan);
                (file.judged(marks, settings)?, plan)
            }
        };
        Ok((marks, plan))
    }

    /// What the library answered under these settings.
    pub fn answer(&self, settings: &Batches, words: &str, numbers: Object) -> One {
        let (head, count) = match self {
            Batched::Trace(trace, count) => (&trace.head, *count),
            Batched::Packed(file) => (&file.head, None),
        };
        let settings = Counted { settings, count };
        head.answer(&settings, words, count::numbers(count).and(numbers))
    }
}

/// Settings with what counts, which is said below them.
struct Counted<'a> {
    settings: &'a Batches,
    count: Option<Count>,
}

impl Settings for Counted<'_> {
    fn numbers(&self) -> Object {
        self.settings.numbers()
    }
}

impl fmt::Display for Counted<'_> {
    fn fmt(&self, f: &mut fmt::Formatter<'_>) -> fmt::Result {
        f.write_str(&count::said_below(self.settings, self.count))
    }
}
