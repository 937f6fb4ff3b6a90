//! "When the set says no": the numbered refusals.

/// A refusal's number, and its place: 0 wherever the document names no other.
#[derive(Debug, Clone, Copy, PartialEq, Eq)]
pub struct Refusal {
    pub number: u32,
    pub place: usize,
}

impl Refusal {
    /// packet under 8 bytes
    pub const PACKET_SHORT: Refusal = Refusal::without_place(1);
    /// version not 2
    pub const VERSION: Refusal = Refusal::without_place(2);
    /// byte 1 not 207
    pub const PACKET_TYPE: Refusal = Refusal::without_place(3);
    /// 4 × (length + 1) is not the slice's length; when adding, exceeds the buffer or is under 8
    pub const PACKET_LENGTH: Refusal = Refusal::without_place(4);
    /// padding bit set
    pub const PADDING: Refusal = Refusal::without_place(5);
    /// no block with that index; reading out, also one that is not a good type 1
    pub const NO_SUCH_BLOCK: Refusal = Refusal::without_place(7);
    /// buffer shorter than the result needs; a word slice too short to read
    pub const BUFFER_SHORT: Refusal = Refusal::without_place(8);
    /// trace empty or over 65,536; a tally at 65,536 given one more; a trace to write as type 1
    /// over 65,533
    pub const TRACE_LENGTH: Refusal = Refusal::without_place(10);
    /// card not 20 digits
    pub const CARD_DIGITS: Refusal = Refusal::without_place(11);
    /// card check not right
    pub const CARD_CHECK: Refusal = Refusal::without_place(12);
    /// card field outside its range
    pub const CARD_FIELD: Refusal = Refusal::without_place(13);
    /// batch longer than the trace
    pub const BATCH_LONG: Refusal = Refusal::without_place(14);
    /// a setting outside its range, either for a block among them, or a tally not sound
    pub const SETTING: Refusal = Refusal::without_place(15);
    /// block 17 or 18 to write has a flag other than 1, 2 or 3, or a rate that reading would drop
    pub const BLOCK_TO_WRITE: Refusal = Refusal::without_place(16);
    /// packet length would pass 65,535
    pub const PACKET_FULL: Refusal = Refusal::without_place(17);

    /// a block runs past the end; its place is the block's offset
    pub const fn block_past_end(offset: usize) -> Refusal {
        Refusal {
            number: 6,
            place: offset,
        }
    }

    /// trace byte above 2, or such a byte given to a tally; above 1 in a trace to write as
    /// type 1; its place is the first bad byte's index in a trace; a nonzero bit past the end of
    /// a packed trace, at the bit's index
    pub const fn trace_byte(index: usize) -> Refusal {
        Refusal {
            number: 9,
            place: index,
        }
    }

    const fn without_place(number: u32) -> Refusal {
        Refusal { number, place: 0 }
    }
}
