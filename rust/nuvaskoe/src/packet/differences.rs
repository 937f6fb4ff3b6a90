//! Two packets compared, block by block.

use crate::{boundary, Refusal};

/// Where two packets differ, from [`differences`].
#[non_exhaustive]
#[derive(Debug, Clone, Copy, PartialEq, Eq)]
pub enum Difference {
    /// The senders.
    Sender {
        /// The first packet's.
        first: u32,
        /// The second packet's.
        second: u32,
    },
    /// A field of two typed blocks of one type.
    Field {
        /// The blocks' number, from 0.
        block: usize,
        /// The field's number, from 0: the order of the fields of the block's struct in
        /// [`block`](crate::block), eight counts being eight fields.
        field: usize,
        /// The first packet's reading.
        first: u32,
        /// The second packet's reading.
        second: u32,
    },
    /// The whole of two blocks: of another type, typed in one packet alone, or typed in
    /// neither (unknown, dropped or of type 1) and of other bytes.
    Block {
        /// The blocks' number, from 0.
        block: usize,
    },
    /// A block that the first packet alone has.
    OnlyFirst {
        /// Its number, from 0.
        block: usize,
    },
    /// A block that the second packet alone has.
    OnlySecond {
        /// Its number, from 0.
        block: usize,
    },
}

/// The numbers of one difference in a list.
type Entry = [u32; boundary::DIFFERENCE_NUMBERS];

impl Difference {
    /// Numbers that a kind does not use are 0.
    fn new(entry: &Entry) -> Difference {
        let [_, block, field, ..] = entry.map(|number| number as usize);
        match *entry {
            [boundary::DIFFERENCE_SENDER, 0, 0, first, second] => {
                Difference::Sender { first, second }
            }
            [boundary::DIFFERENCE_FIELD, _, _, first, second] => Difference::Field {
                block,
                field,
                first,
                second,
            },
            [boundary::DIFFERENCE_BLOCK, _, 0, 0, 0] => Difference::Block { block },
            [boundary::DIFFERENCE_ONLY_FIRST, _, 0, 0, 0] => Difference::OnlyFirst { block },
            [boundary::DIFFERENCE_ONLY_SECOND, _, 0, 0, 0] => Difference::OnlySecond { block },
            other => unreachable!("difference {other:?}"),
        }
    }
}

/// All differences of two packets, their blocks paired by index: the sender first, then
/// block by block, in a block its fields in order. Reserved bits of the header and of typed
/// blocks are left out.
///
/// ```
/// use nuvaskoe::packet::{differences, Difference};
///
/// let east = b"\x80\xCF\0\x04\0\0\0\x01\xF0\0\0\x02\0\0\0\x02\x92\x48\0\0";
/// let west = b"\x80\xCF\0\x05\0\0\0\x01\xF0\0\0\x02\0\0\0\x02\x92\x49\0\0\x09\0\0\0";
/// let (block, field) = (0, 1);
/// let (first, second) = (37_448, 37_449);
/// let index = Difference::Field { block, field, first, second };
/// assert_eq!(differences(east, west)?, [index, Difference::OnlySecond { block: 1 }]);
/// assert_eq!(differences(east, east)?, []);
/// # Ok::<(), nuvaskoe::Refusal>(())
/// ```
///
/// Refusals: those of the first packet, then those of the second.
pub fn differences(first: &[u8], second: &[u8]) -> Result<Vec<Difference>, Refusal> {
    let mut entries = vec![[0; boundary::DIFFERENCE_NUMBERS]; most(first, second)];
    let count = compare(first, second, entries.as_flattened_mut())?;
    Ok(entries[..count].iter().map(Difference::new).collect())
}

/// The most differences that two packets of these bytes can have. Longer ones than the
/// longest packet are refused.
fn most(first: &[u8], second: &[u8]) -> usize {
    let longer = first.len().max(second.len());
    3 * longer.min(boundary::PACKET_BYTES_MAX) / 8
}

/// [`differences`] as a list: for each difference five numbers of `out`, its kind, block,
/// field, and the reading of each packet; those that a kind does not use are 0. Kinds: 0
/// sender, 1 field, 2 whole block, 3 only in the first packet, 4 only in the second.
/// Answers how many differences there are; the numbers after the last keep what they held.
///
/// Refusals: those of the first packet, those of the second, then 8, fewer than five
/// numbers for each difference. `5 * (3 * longer / 8)` numbers are always enough, `longer`
/// being the bytes of the longer packet; two for each of its bytes are more than that.
#[inline]
pub fn compare(first: &[u8], second: &[u8], out: &mut [u32]) -> Result<usize, Refusal> {
    // SAFETY: a slice's pointer is never null and is good for reading its length, and
    // `out` lends all its length for writing.
    let answer = unsafe {
        boundary::nuvaskoe_packet_compare(
            first.as_ptr(),
            first.len(),
            second.as_ptr(),
            second.len(),
            out.as_mut_ptr(),
            out.len(),
        )
    };
    debug_assert!(answer.refusal.number == 0 || answer.differences == 0);
    answer.refusal.unless_refused(answer.differences)
}
