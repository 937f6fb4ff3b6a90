//! Answers of both implementations in one form, so that they can be compared, and in the form
//! of the boundary.

use super::boundary::{Refusal, Written};

/// A good answer, or a refusal's number and place.
pub type Answer<T> = Result<T, (u32, usize)>;

/// An answer of the library.
pub fn ours<T>(answer: Result<T, nuvaskoe::Refusal>) -> Answer<T> {
    answer.map_err(|refusal| (refusal.number(), refusal.place))
}

/// An answer of the independent implementation.
pub fn theirs<T>(answer: Result<T, independent::refusal::Refusal>) -> Answer<T> {
    answer.map_err(|refusal| (refusal.number, refusal.place))
}

/// What the boundary has for an answer's refusal: 0 and 0 where there is none.
pub fn refusal<T>(answer: &Answer<T>) -> Refusal {
    let (number, place) = answer.as_ref().err().copied().unwrap_or((0, 0));
    Refusal { number, place }
}

/// What it has for an answer about a lent buffer.
pub fn written(answer: &Answer<usize>) -> Written {
    Written {
        refusal: refusal(answer),
        size: answer.unwrap_or(0),
    }
}
