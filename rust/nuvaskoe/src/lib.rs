//! Safe calls over the C boundary of the Nuvaskoe library.
//!
//! Every call is total: it answers or gives a [`Refusal`], and a refused call
//! changes no byte of any buffer that it was lent.
//!
//! ```
//! use nuvaskoe::RefusalKind;
//!
//! let settings = nuvaskoe::card::read(b"01600100000100040096")?;
//! assert_eq!(settings.gmin, 16);
//! let refusal = nuvaskoe::card::read(b"0160").unwrap_err();
//! assert_eq!(refusal.kind, RefusalKind::CardDigits);
//!
//! let packet = b"\x80\xCF\0\x04\0\0\0\x01\xF0\0\0\x02\0\0\0\x02\x92\x48\0\0";
//! assert_eq!(nuvaskoe::packet::read(packet)?.blocks, 1);
//! assert_eq!(nuvaskoe::packet::block(packet, 0)?.block_type, 240);
//! assert_eq!(nuvaskoe::packet::body(packet, 0), &packet[12..]);
//! # Ok::<(), nuvaskoe::Refusal>(())
//! ```
#![deny(unsafe_op_in_unsafe_fn)]
#![deny(missing_docs)]

pub mod block;
#[rustfmt::skip]
mod boundary;
pub mod card;
pub mod effective;
pub mod figures;
pub mod packed;
pub mod packet;
pub mod panel;
#[rustfmt::skip]
mod refusals;
pub mod resend;
pub mod tally;
pub mod trace;
pub mod values;

pub use refusals::RefusalKind;

use std::{error, fmt};

/// The version of the library that is linked: major × 10,000 + minor × 100 + patch. It is
/// this crate's.
#[inline]
pub fn version() -> u32 {
    // SAFETY: it takes nothing.
    unsafe { boundary::nuvaskoe_version() }
}

/// Why a call said no. Shown, it says what went wrong and what to do:
///
/// ```
/// let refusal = nuvaskoe::card::read(b"01600100000010040096").unwrap_err();
/// assert_eq!((refusal.number(), refusal.place), (12, 0));
/// assert_eq!(
///     refusal.to_string(),
///     "refused 12 at 0: the card's check does not fit; \
///      a digit is wrong, or two are exchanged: compare with the master card"
/// );
/// ```
#[derive(Debug, Clone, Copy, PartialEq, Eq, Hash)]
pub struct Refusal {
    /// Its row in the table of refusals.
    pub kind: RefusalKind,
    /// Its place; 0 where it has none.
    pub place: usize,
}

impl Refusal {
    /// The number in the table of refusals, from 1.
    pub fn number(&self) -> u32 {
        self.kind.number()
    }
}

impl fmt::Display for Refusal {
    fn fmt(&self, f: &mut fmt::Formatter<'_>) -> fmt::Result {
        let Refusal { kind, place } = self;
        let (number, meaning, advice) = (kind.number(), kind.meaning(), kind.advice());
        write!(f, "refused {number} at {place}: {meaning}; {advice}")
    }
}

impl error::Error for Refusal {}

impl boundary::Refusal {
    /// The rest of an answer holds only where the refusal's number is 0.
    fn unless_refused<T>(self, rest: T) -> Result<T, Refusal> {
        match self.number {
            0 => Ok(rest),
            number => Err(Refusal {
                kind: RefusalKind::numbered(number)
                    .unwrap_or_else(|| unreachable!("refusal {number}")),
                place: self.place,
            }),
        }
    }
}

impl boundary::Written {
    /// How much of a lent buffer is the result.
    #[inline]
    fn size(self) -> Result<usize, Refusal> {
        // What the header says of refused answers and no answer in Rust shows.
        debug_assert!(self.refusal.number == 0 || self.size == 0);
        self.refusal.unless_refused(self.size)
    }
}
