//! "Effective loss (document 002)", of what document 02's ticket 7 lets count as a loss: once over
//! every batch in full, once with the counted packets of a batch carried on to the next.
//! Refusals in order: 15, 10, 9, 14.

use crate::refusal::Refusal;
use crate::trace::{self, Event};

/// "The answer is K, N, the integer part of K × 65535 / N, and it names the first batch
/// whose losses exceed the threshold, or says none."
#[derive(Debug, Clone, Copy, PartialEq, Eq)]
pub struct EffectiveLoss {
    /// K
    pub over: u64,
    /// N
    pub batches: u64,
    pub index: u16,
    /// A batch goes by the position of its first packet.
    pub first: Option<usize>,
}

/// The effective loss of `trace`, each batch counted by itself.
pub fn effective_loss(
    trace: &[u8],
    batch: u64,
    threshold: u64,
    event: Event,
) -> Result<EffectiveLoss, Refusal> {
    check(trace, batch, threshold)?;
    let over: Vec<bool> = trace
        .windows(batch as usize)
        .map(|batch| counted(batch, event) > threshold)
        .collect();
    let count = over.iter().filter(|over| **over).count();
    Ok(answer(
        count as u64,
        over.len() as u64,
        over.iter().position(|over| *over),
    ))
}

/// The same in one pass after the checks: a batch has the counted packets of the batch before
/// it, and the packet that comes if it counts, less the one that leaves if that does.
pub fn running_effective_loss(
    trace: &[u8],
    batch: u64,
    threshold: u64,
    event: Event,
) -> Result<EffectiveLoss, Refusal> {
    check(trace, batch, threshold)?;
    let (first, after) = trace.split_at(batch as usize);
    let bits = event.bits();
    let one = |byte: &u8| i32::from(byte & bits != 0);
    let changes = trace
        .iter()
        .zip(after)
        .map(|(left, come)| one(come) - one(left));
    let counted = first.iter().map(one).sum();
    Ok(carried_on(counted, changes, threshold as i32))
}

/// The answer for a first batch with so many counted packets and as many more batches as there
/// are changes, each with those of the batch before it and its change.
#[inline]
pub(crate) fn carried_on(
    mut counted: i32,
    mut changes: impl ExactSizeIterator<Item = i32>,
    threshold: i32,
) -> EffectiveLoss {
    let batches = changes.len() as u64 + 1;
    let mut first = 0;
    while counted <= threshold {
        let Some(change) = changes.next() else {
            return answer(0, batches, None);
        };
        counted += change;
        first += 1;
    }
    let mut over = 1;
    for change in changes {
        counted += change;
        over += u32::from(counted > threshold);
    }
    answer(u64::from(over), batches, Some(first))
}

/// The checks of a call that takes a trace, B and T.
pub(crate) fn check(trace: &[u8], batch: u64, threshold: u64) -> Result<(), Refusal> {
    trace::check_batch_settings(batch, threshold)?;
    trace::check(trace)?;
    if batch > trace.len() as u64 {
        return Err(Refusal::BATCH_LONG);
    }
    Ok(())
}

/// The counted packets of a batch.
fn counted(batch: &[u8], event: Event) -> u64 {
    batch.iter().filter(|byte| event.counts(**byte)).count() as u64
}

fn answer(over: u64, batches: u64, first: Option<usize>) -> EffectiveLoss {
    EffectiveLoss {
        over,
        batches,
        index: (over * 65_535 / batches) as u16,
        first,
    }
}

#[cfg(test)]
mod tests;
