//! Answers as the text of worked cases has them.

use nuvaskoe::block::{Block, Reading, Verdict};
use nuvaskoe::effective::EffectiveLoss;
use nuvaskoe::figures::Figures;
use nuvaskoe::panel::{Needle, Panel};
use nuvaskoe::Refusal;

/// The most bytes, marks or packets, the most entries or words, and the most numbers of differences, that are shown.
const BYTES: usize = 64;
const ENTRIES: usize = 16;
const NUMBERS: usize = 100;

/// An answer, or the refusal alone.
pub fn or_refused<T>(answer: Result<T, Refusal>, text: impl FnOnce(T) -> String) -> String {
    answer.map_or_else(
        |refusal| format!("refused {} at {}", refusal.number(), refusal.place),
        text,
    )
}

pub fn bytes(lent: &[u8]) -> String {
    let front = lent.iter().take(BYTES);
    labelled("bytes", front.map(|byte| format!("{byte:02x}")).collect())
}

pub fn plan(lent: &[u8]) -> String {
    let front = lent.iter().take(BYTES);
    labelled("plan", front.map(u8::to_string).collect())
}

pub fn trace(lent: &[u8]) -> String {
    let front = lent.iter().take(BYTES);
    labelled("trace", front.map(u8::to_string).collect())
}

pub fn table(lent: &[u32]) -> String {
    labelled("table", decimals(lent, ENTRIES))
}

pub fn numbers(lent: &[u32]) -> String {
    labelled("numbers", decimals(lent, NUMBERS))
}

pub fn words(lent: &[u64]) -> String {
    let front: Vec<_> = lent
        .iter()
        .take(ENTRIES)
        .map(|w| format!("{w:016x}"))
        .collect();
    labelled("packed", front.join(" "))
}

fn decimals(lent: &[u32], most: usize) -> String {
    let front: Vec<_> = lent.iter().take(most).map(u32::to_string).collect();
    front.join(" ")
}

/// The word ends the line where nothing follows it.
fn labelled(word: &str, text: String) -> String {
    format!(" {word} {text}").trim_end().to_string()
}

pub fn figures(figures: Figures) -> String {
    let (burst, gap) = (figures.burst_rate, figures.gap_rate);
    let (mean, variance) = (figures.mean, figures.variance);
    format!("burst {burst} gap {gap} mean {mean} var {variance}")
}

pub fn loss(loss: EffectiveLoss) -> String {
    let first = loss
        .first
        .map_or("none".to_string(), |first| first.to_string());
    let (over, batches, index) = (loss.over, loss.batches, loss.index);
    format!("over {over} of {batches} index {index} first {first}")
}

/// Each needle by the bits of its position.
pub fn panel(panel: &Panel) -> String {
    let [burst, gap] = [panel.burst, panel.gap].map(|needle| match needle {
        Needle::Lit(position) => format!("{:08x}", position.to_bits()),
        Needle::Dark => "dark".to_string(),
    });
    let lamp = if panel.lamp() { "on" } else { "off" };
    format!("burst {burst} gap {gap} lamp {lamp}")
}

/// The listing's line of block number `index`.
pub fn line(index: u32, reading: &Reading, size: usize) -> String {
    let kind = reading.block_type;
    let text = match &reading.verdict {
        Verdict::Typed(block) => typed(block),
        Verdict::Rle(r) => format!(
            "rle source {:08x} begin {} end {} lost {}",
            r.source, r.begin, r.end, r.lost
        ),
        Verdict::Unknown => format!("unknown type {kind} bytes {size}"),
        Verdict::Dropped(_) => {
            let reason = reading.verdict.number();
            format!("dropped type {kind} reason {reason}")
        }
        other => unreachable!("{other:?}"),
    };
    format!("{index} {text}")
}

/// The same without the number.
pub fn typed(block: &Block) -> String {
    match block {
        Block::Measurement(m) => format!(
            "meas source {:08x} first {} efirst {} elast {} interval {} seconds {} fraction {}",
            m.source, m.first, m.extended_first, m.extended_last, m.interval, m.seconds, m.fraction
        ),
        Block::Loss(l) => format!(
            "loss source {:08x} i {} burst {} gap {} mean {} var {}",
            l.source, l.flag, l.burst_rate, l.gap_rate, l.mean, l.variance
        ),
        Block::Discard(d) => format!(
            "discard source {:08x} i {} burst {} gap {}",
            d.source, d.flag, d.burst_rate, d.gap_rate
        ),
        Block::Effective(e) => format!("eli source {:08x} index {}", e.source, e.index),
        Block::TransportStream(t) => {
            let (begin, end, packets, streams) = (t.begin, t.end, t.packets(), t.streams);
            let counts = t.counts.map(|count| format!(" {count}")).concat();
            let source = t.source;
            format!("ts source {source:08x} begin {begin} end {end} packets {packets} streams {streams} counts{counts}")
        }
        other => unreachable!("{other:?}"),
    }
}
