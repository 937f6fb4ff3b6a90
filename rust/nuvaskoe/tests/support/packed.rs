//! The library's four calls on packed traces beside the independent ones, and what holds of every
//! answer: by the bits one after another, and by the byte form through the library's own calls.

use super::{
    answers::{ours, theirs, written, Answer},
    batches::{independent_loss, whole_loss, whole_marks, LONGEST},
    events::{event_numbered, library_event, number_of},
    raw,
};
use independent::{effective::EffectiveLoss, packed, trace::Event};
use nuvaskoe::trace::Event::Lost as ONES; // The byte form of words has 1 for each one.

/// The packets of a word.
pub const WORD: usize = 64;

/// A trace that was packed, or whatever is handed in for one.
#[derive(Clone, Debug)]
pub struct Packed {
    pub words: Vec<u64>,
    pub packets: usize,
}

impl Packed {
    /// The words: "packet i in word i / 64 at bit i modulo 64", "a one for each packet counted by the
    /// choice it was packed by", packet by packet.
    pub fn by(event: Event, trace: &[u8]) -> Packed {
        let mut words = vec![0; trace.len().div_ceil(WORD)];
        for (place, packet) in trace.iter().enumerate() {
            words[place / WORD] |= u64::from(event.counts(*packet)) << (place % WORD);
        }
        let packets = trace.len();
        Packed { words, packets }
    }

    /// Those by lost only: the ones of a trace of zeros and ones.
    pub fn of(trace: &[u8]) -> Packed {
        Packed::by(Event::Lost, trace)
    }

    /// Whether a bit of the words is a one.
    pub fn bit(&self, place: usize) -> bool {
        self.words[place / WORD] >> (place % WORD) & 1 == 1
    }

    /// The trace of words that are not refused, 1 for each one.
    pub fn trace(&self) -> Vec<u8> {
        let packets = 0..self.packets;
        packets.map(|place| self.bit(place).into()).collect()
    }

    /// The first refusal of the words in order, bit by bit.
    pub fn refusal(&self) -> Option<(u32, usize)> {
        if self.packets == 0 || self.packets > LONGEST {
            return Some((10, 0));
        }
        let needed = self.packets.div_ceil(WORD);
        if self.words.len() < needed {
            return Some((8, 0));
        }
        let past = (self.packets..WORD * needed).find(|place| self.bit(*place));
        past.map(|place| (9, place))
    }

    /// That of a call with these settings; `room` is None for effective loss, which fills no buffer.
    pub fn batch_refusal(
        &self,
        (batch, threshold): (u32, u32),
        room: Option<usize>,
    ) -> Option<(u32, usize)> {
        if !(1..=1_024).contains(&batch) || threshold > 1_024 {
            return Some((15, 0));
        }
        if let Some(refusal) = self.refusal() {
            return Some(refusal);
        }
        if batch as usize > self.packets {
            return Some((14, 0));
        }
        (room? < self.packets).then_some((8, 0))
    }

    /// The same with these words behind, which no call looks at.
    pub fn followed(&self, words: &[u64]) -> Packed {
        let words = [&self.words[..], words].concat();
        let packets = self.packets;
        Packed { words, packets }
    }

    fn shown(&self) -> String {
        let front: Vec<_> = self
            .words
            .iter()
            .take(20)
            .map(|w| format!("{w:x}"))
            .collect();
        let (packets, count) = (self.packets, self.words.len());
        format!("{packets} packets in {count} words {}", front.join(" "))
    }
}

/// Words that differ from their neighbours in every byte, so that one written or moved shows.
pub fn word_pattern(length: usize) -> Vec<u64> {
    let words = 0..length as u64;
    words
        .map(|index| 0xA5C3_9669_5A3C_F00F ^ index.wrapping_mul(0x0101_0101_0101_0101))
        .collect()
}

/// Packs with all into equal words that hold `before`, and gives the answer and the words on which
/// they agree. Words after those needed, and all where refused, keep what they held. An event that
/// is none is refused.
pub fn pack_numbered(trace: &[u8], event: u32, before: &[u64]) -> (Answer<usize>, Vec<u64>) {
    let (expected, out) = match event_numbered(event) {
        None => (Err((15, 0)), before.to_vec()),
        Some(event) => safe_pack(trace, event, before),
    };
    let mut whole_out = before.to_vec();
    let whole = raw::trace_pack(trace, event, &mut whole_out);
    let shown = || shown(trace, before.len());
    assert_eq!(whole, written(&expected), "event {event}, {}", shown());
    assert!(whole_out == out, "event {event}, {}", shown());
    (expected, out)
}

/// The same of an event.
pub fn pack_both(trace: &[u8], event: Event, before: &[u64]) -> (Answer<usize>, Vec<u64>) {
    pack_numbered(trace, number_of(event), before)
}

/// The same with the library's safe calls and the independent one.
fn safe_pack(trace: &[u8], event: Event, before: &[u64]) -> (Answer<usize>, Vec<u64>) {
    let (mut library_out, mut independent_out) = (before.to_vec(), before.to_vec());
    let choice = library_event(event);
    let library = ours(nuvaskoe::packed::pack(trace, choice, &mut library_out));
    let independent = theirs(packed::pack(trace, event, &mut independent_out));
    let input = || format!("{event:?}, {}", shown(trace, before.len()));
    assert_eq!(library, independent, "{}", input());
    assert!(library_out == independent_out, "{}", input());
    let size = library.unwrap_or(0);
    assert!(library_out[size..] == before[size..], "{}", input());
    if library.is_ok() {
        let words = Packed::by(event, trace).words;
        assert!(library_out[..size] == words, "{}", input());
    }
    // By the call that makes room itself the words are the same, and the refusals but 8 too.
    match (library, ours(nuvaskoe::packed::words_of(trace, choice))) {
        (Ok(size), Ok(own)) => assert!(own == library_out[..size]),
        (Err((8, 0)), Ok(own)) => assert!(own.len() > before.len()),
        (answer, own) => assert_eq!(answer.err(), own.err()),
    }
    (library, library_out)
}

fn shown(trace: &[u8], room: usize) -> String {
    let front: Vec<_> = trace.iter().take(100).map(u8::to_string).collect();
    let packets = trace.len();
    format!("{packets} packets {} into {room} words", front.join(" "))
}

/// Unpacks with both into equal bytes that hold `before`, in the same way.
pub fn unpack_both(input: &Packed, before: &[u8]) -> (Answer<usize>, Vec<u8>) {
    let Packed { words, packets } = input;
    let mut outs = [before.to_vec(), before.to_vec(), before.to_vec()];
    let [library_out, whole_out, independent_out] = &mut outs;
    let library = ours(nuvaskoe::packed::unpack(words, *packets, library_out));
    let whole = raw::trace_unpack(words, *packets, whole_out);
    let independent = theirs(packed::unpack(words, *packets, independent_out));
    let shown = || format!("{} into {} bytes", input.shown(), before.len());
    assert_eq!(library, independent, "{}", shown());
    assert_eq!(whole, written(&independent), "{}", shown());
    assert!(library_out == independent_out, "{}", shown());
    assert!(whole_out == independent_out, "{}", shown());
    let size = library.unwrap_or(0);
    assert!(library_out[size..] == before[size..], "{}", shown());
    if library.is_ok() {
        assert!(library_out[..size] == input.trace(), "{}", shown());
    }
    match (library, ours(nuvaskoe::packed::trace_of(words, *packets))) {
        (Ok(size), Ok(own)) => assert!(own == library_out[..size]),
        (Err((8, 0)), Ok(own)) => assert!(own.len() > before.len(), "{}", shown()),
        (answer, own) => assert_eq!(answer.err(), own.err(), "{}", shown()),
    }
    let [out, ..] = outs;
    (library, out)
}

/// The effective loss on which both agree, and which is that of the byte form.
pub fn packed_loss_both(input: &Packed, (batch, threshold): (u32, u32)) -> Answer<EffectiveLoss> {
    let Packed { words, packets } = input;
    let library = nuvaskoe::packed::effective_loss(words, *packets, batch, threshold);
    let library = ours(library).map(independent_loss);
    let shown = || format!("B {batch}, T {threshold}, {}", input.shown());
    let whole = raw::packed_loss(words, *packets, batch, threshold);
    assert_eq!(whole, whole_loss(&library), "{}", shown());
    let (b, t) = (u64::from(batch), u64::from(threshold));
    let independent = theirs(packed::packed_loss(words, *packets, b, t));
    assert_eq!(library, independent, "{}", shown());
    if library.is_ok() {
        let bytes = nuvaskoe::effective::effective_loss(&input.trace(), batch, threshold, ONES);
        assert_eq!(library, ours(bytes).map(independent_loss), "{}", shown());
    }
    library
}

/// Plans with both into equal bytes that hold `before`, and gives the answer and the bytes on which
/// they agree, which are those of the byte form. Bytes after the plan, and all where refused, keep
/// what they held.
pub fn packed_plan_into(
    input: &Packed,
    settings: (u32, u32),
    before: &[u8],
) -> (Answer<usize>, Vec<u8>) {
    let (Packed { words, packets }, (batch, threshold)) = (input, settings);
    let mut outs = [before.to_vec(), before.to_vec(), before.to_vec()];
    let [library_out, whole_out, independent_out] = &mut outs;
    let library = nuvaskoe::packed::plan(words, *packets, batch, threshold, library_out);
    let library = ours(library);
    let whole = raw::packed_plan(words, *packets, settings, whole_out);
    let (b, t) = (u64::from(batch), u64::from(threshold));
    let independent = packed::packed_plan(words, *packets, b, t, independent_out);
    let independent = theirs(independent);
    let shown = || {
        let (packed, room) = (input.shown(), before.len());
        format!("B {batch}, T {threshold}, {packed} into {room} bytes")
    };
    assert_eq!(library, independent, "{}", shown());
    assert_eq!(whole, whole_marks(&independent), "{}", shown());
    assert!(library_out == independent_out, "{}", shown());
    assert!(whole_out == independent_out, "{}", shown());
    if library.is_ok() {
        let (trace, mut bytes) = (input.trace(), before.to_vec());
        let answer = nuvaskoe::resend::plan(&trace, batch, threshold, ONES, &mut bytes);
        assert_eq!(library, ours(answer), "{}", shown());
        assert!(*library_out == bytes, "{}", shown());
    }
    let size = library.map_or(0, |_| *packets);
    assert!(library_out[size..] == before[size..], "{}", shown());
    let [out, ..] = outs;
    (library, out)
}
