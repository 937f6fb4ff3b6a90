//! The resend plan: "one byte for each packet of the trace, 1 to resend and 0 otherwise".
//! Once in a single pass, once by a search of all plans from the words of demand 3, which by
//! document 02's ticket 7 "reads 'counted packets' for 'lost packets' and for 'losses'".

use crate::effective;
use crate::refusal::Refusal;
use crate::trace::Event;

/// Writes the smallest plan at the front of `out` and answers its count of marks.
/// A counted packet is marked where T counted packets without a mark stand among the B − 1
/// packets before it: one more would put their batch over the threshold.
/// Refusals in order: 15, 10, 9, 14, 8.
pub fn plan(
    trace: &[u8],
    batch: u64,
    threshold: u64,
    event: Event,
    out: &mut [u8],
) -> Result<usize, Refusal> {
    effective::check(trace, batch, threshold)?;
    if out.len() < trace.len() {
        return Err(Refusal::BUFFER_SHORT);
    }
    let batch = batch as usize;
    let bits = event.bits();
    let counts = |byte: u8| byte & bits != 0;
    let mut marks = 0;
    // The counted packets without a mark among the B − 1 packets before this one.
    let mut left = 0;
    for position in 0..trace.len() {
        if position >= batch {
            let gone = position - batch;
            left -= u64::from(counts(trace[gone]) && out[gone] == 0);
        }
        let counted = counts(trace[position]);
        let mark = counted && left == threshold;
        out[position] = u8::from(mark);
        marks += usize::from(mark);
        left += u64::from(counted && !mark);
    }
    Ok(marks)
}

/// The smallest plan of a short trace, by trying every plan. Of several it is the one
/// that, at the first packet where another differs, has no mark where the other has one.
pub fn best_by_search(trace: &[u8], batch: u64, threshold: u64, event: Event) -> Vec<u8> {
    let counted: Vec<bool> = trace.iter().map(|byte| event.counts(*byte)).collect();
    let mut best: Option<Vec<u8>> = None;
    let mut plan = vec![0; trace.len()];
    loop {
        if marks_counted_packets_only(&counted, &plan)
            && leaves_no_batch_over(&counted, &plan, batch, threshold)
            && best.as_ref().is_none_or(|best| better(&plan, best))
        {
            best = Some(plan.clone());
        }
        if !advance(&mut plan) {
            break;
        }
    }
    best.expect("the plan that marks every counted packet leaves no batch over")
}

/// "Each 1 is a mark."
fn marks(plan: &[u8]) -> usize {
    plan.iter().filter(|byte| **byte == 1).count()
}

fn marks_counted_packets_only(counted: &[bool], plan: &[u8]) -> bool {
    (0..counted.len()).all(|packet| plan[packet] == 0 || counted[packet])
}

/// What a plan leaves in a batch "are the batch's [counted] packets without a mark; the batch is
/// over the threshold when they are more than T".
fn leaves_no_batch_over(counted: &[bool], plan: &[u8], batch: u64, threshold: u64) -> bool {
    let batch = batch as usize;
    let batches = counted.windows(batch).zip(plan.windows(batch));
    batches.into_iter().all(|(packets, bytes)| {
        let left = (0..batch)
            .filter(|packet| packets[*packet] && bytes[*packet] == 0)
            .count();
        left as u64 <= threshold
    })
}

/// Fewer marks; among as many, no mark at the first packet where the two differ.
fn better(plan: &[u8], other: &[u8]) -> bool {
    if marks(plan) != marks(other) {
        return marks(plan) < marks(other);
    }
    let difference = (0..plan.len()).find(|packet| plan[*packet] != other[*packet]);
    difference.is_some_and(|packet| plan[packet] == 0)
}

/// The next list of zeros and ones as long, as a number counted up; false after the last.
fn advance(plan: &mut [u8]) -> bool {
    for byte in plan {
        if *byte == 0 {
            *byte = 1;
            return true;
        }
        *byte = 0;
    }
    false
}

#[cfg(test)]
mod tests;
