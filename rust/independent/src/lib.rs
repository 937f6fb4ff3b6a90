//! A plain second implementation of document 01, written from that document alone, but for
//! `late_tally`, a model of what the document leaves free, `compare`, document 02's ticket 1,
//! `panel`, document 02's ticket 4, `rle`, document 02's ticket 5, which `block` follows in type 1,
//! `packed`, document 02's ticket 6, document 02's ticket 3, which `burst` follows in the
//! variance and `tally` in the last line of soundness, and document 02's ticket 7, the choice of
//! what counts (`trace::Event`), which `burst`, `tally`, `late_tally`, `summary`, `effective`,
//! `resend` and `packed` follow. It shares no code with what it checks, and prefers the documents'
//! own words to speed: where the two disagree, one of them misreads a document.
//! `compare` is written for speed, with shortcuts: its plain form is tests/document02.py, to which
//! tests/cases.py holds the library by cases/compare.txt. So are `rle` and the conversions of
//! `packed`: their plain forms, packet by packet, are in their tests.
#![forbid(unsafe_code)]

pub mod block;
pub mod burst;
pub mod card;
#[cfg(test)]
mod choices;
pub mod compare;
pub mod compose;
pub mod effective;
pub mod late_tally;
pub mod packed;
pub mod packet;
pub mod panel;
pub mod refusal;
pub mod resend;
pub mod rle;
pub mod summary;
pub mod tally;
pub mod trace;
