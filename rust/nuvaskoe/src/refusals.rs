//! The kinds of refusal, and the words of README's tables. Made by tools/boundary.py from the Rattle source; not edited by hand.

use crate::block::Reason;

/// Why a call said no: a row of the table of refusals.
#[non_exhaustive]
#[derive(Debug, Clone, Copy, PartialEq, Eq, Hash)]
#[repr(u32)]
pub enum RefusalKind {
    /// The packet has under 8 bytes.
    PacketShort = 1,
    /// Its version is not 2.
    Version = 2,
    /// Its second byte is not 207.
    PacketType = 3,
    /// Its length field does not fit its bytes.
    PacketLength = 4,
    /// Its padding bit is set.
    Padding = 5,
    /// A block runs past the end.
    BlockPastEnd = 6,
    /// It has no block with that number.
    NoSuchBlock = 7,
    /// The buffer is too short for the result, or there are fewer words than the packets need.
    BufferShort = 8,
    /// A byte of the trace is above 2, or a bit past the end of a packed one is not 0.
    TraceByte = 9,
    /// The trace is empty or over 65,536 packets, or a tally is full.
    TraceLength = 10,
    /// The card is not exactly twenty digits.
    CardDigits = 11,
    /// The card's check does not fit.
    CardCheck = 12,
    /// The card's digits are right, a setting is not.
    CardField = 13,
    /// The batch is longer than the trace.
    BatchLength = 14,
    /// A setting is outside its range, or a tally is not sound.
    Setting = 15,
    /// A block 17 or 18 to be written has a bad flag or rate.
    BlockValue = 16,
    /// The packet is full.
    PacketFull = 17,
}

impl RefusalKind {
    /// All kinds, in the table's order.
    pub const ALL: &'static [RefusalKind] = &[
        RefusalKind::PacketShort,
        RefusalKind::Version,
        RefusalKind::PacketType,
        RefusalKind::PacketLength,
        RefusalKind::Padding,
        RefusalKind::BlockPastEnd,
        RefusalKind::NoSuchBlock,
        RefusalKind::BufferShort,
        RefusalKind::TraceByte,
        RefusalKind::TraceLength,
        RefusalKind::CardDigits,
        RefusalKind::CardCheck,
        RefusalKind::CardField,
        RefusalKind::BatchLength,
        RefusalKind::Setting,
        RefusalKind::BlockValue,
        RefusalKind::PacketFull,
    ];

    /// The number in the table, from 1.
    pub fn number(self) -> u32 {
        self as u32
    }

    /// The kind with this number.
    pub fn numbered(number: u32) -> Option<RefusalKind> {
        let index = usize::try_from(number).ok()?.checked_sub(1)?;
        RefusalKind::ALL.get(index).copied()
    }

    /// What went wrong.
    pub fn meaning(self) -> &'static str {
        match self {
            RefusalKind::PacketShort => "the packet has under 8 bytes",
            RefusalKind::Version => "its version is not 2",
            RefusalKind::PacketType => "its second byte is not 207",
            RefusalKind::PacketLength => "its length field does not fit its bytes",
            RefusalKind::Padding => "its padding bit is set",
            RefusalKind::BlockPastEnd => "a block runs past the end",
            RefusalKind::NoSuchBlock => "it has no block with that number",
            RefusalKind::BufferShort => "the buffer is too short for the result, or there are fewer words than the packets need",
            RefusalKind::TraceByte => "a byte of the trace is above 2, or a bit past the end of a packed one is not 0",
            RefusalKind::TraceLength => "the trace is empty or over 65,536 packets, or a tally is full",
            RefusalKind::CardDigits => "the card is not exactly twenty digits",
            RefusalKind::CardCheck => "the card's check does not fit",
            RefusalKind::CardField => "the card's digits are right, a setting is not",
            RefusalKind::BatchLength => "the batch is longer than the trace",
            RefusalKind::Setting => "a setting is outside its range, or a tally is not sound",
            RefusalKind::BlockValue => "a block 17 or 18 to be written has a bad flag or rate",
            RefusalKind::PacketFull => "the packet is full",
        }
    }

    /// What to do about it.
    pub fn advice(self) -> &'static str {
        match self {
            RefusalKind::PacketShort => "it was cut off, or is no report packet: take it again",
            RefusalKind::Version => "it is no RTCP packet, or was damaged",
            RefusalKind::PacketType => "it is an RTCP packet, but no XR report",
            RefusalKind::PacketLength => "it was cut off, or two packets stand together: hand in one",
            RefusalKind::Padding => "padded packets are not read: the sender must send them without",
            RefusalKind::BlockPastEnd => "the packet was damaged: nothing of it is read",
            RefusalKind::NoSuchBlock => "blocks are numbered from 0",
            RefusalKind::BufferShort => "lend more: 20 bytes for a card, a byte a packet for a plan, two entries a block for a list; a packed trace has a word for each 64 packets",
            RefusalKind::TraceByte => "a packet is 0 received, 1 lost or 2 discarded; the last word of a packed trace is filled up with zeros",
            RefusalKind::TraceLength => "hand in at least one packet, and measure in shorter stretches",
            RefusalKind::CardDigits => "look for a missing digit, a letter or a space",
            RefusalKind::CardCheck => "a digit is wrong, or two are exchanged: compare with the master card",
            RefusalKind::CardField => "Gmin 1 to 255, batch 1 to 1,024, threshold 0 to 1,024, spacing 1 to 40,000",
            RefusalKind::BatchLength => "measure longer, or take a smaller batch",
            RefusalKind::Setting => "Gmin 1 to 255, batch 1 to 1,024, threshold 0 to 1,024, spacing 1 to 40,000, event 1 to 3; a tally is used as it was handed out; a block is of lost or of discarded packets, not of either",
            RefusalKind::BlockValue => "flag 1 to 3, rates 0 to 32,768 or 65,535",
            RefusalKind::PacketFull => "begin another",
        }
    }
}

impl Reason {
    /// All reasons, in the order in which they are looked for.
    pub const ALL: &'static [Reason] = &[
        Reason::BadSize,
        Reason::BadFlag,
        Reason::BadRate,
        Reason::Unmeasured,
        Reason::BadChunks,
    ];

    /// The number in a listing, from 1.
    pub fn number(self) -> u32 {
        match self {
            Reason::BadSize => 1,
            Reason::BadFlag => 2,
            Reason::BadRate => 3,
            Reason::Unmeasured => 4,
            Reason::BadChunks => 5,
        }
    }

    /// The reason with this number.
    pub fn numbered(number: u32) -> Option<Reason> {
        Reason::ALL.iter().copied().find(|reason| reason.number() == number)
    }

    /// What is wrong with the block.
    pub fn meaning(self) -> &'static str {
        match self {
            Reason::BadSize => "its length is not that of its type",
            Reason::BadFlag => "its interval flag is 0, which is reserved, or the thinning of Loss RLE (1) is not 0",
            Reason::BadRate => "a rate is between 32,769 and 65,534, which no rate can be",
            Reason::Unmeasured => "no measurement block (14) for its source is in the packet, so its figures have no span",
            Reason::BadChunks => "the chunks of Loss RLE (1) end before its packets do or go on behind them, or it is on over 65,533 packets",
        }
    }

    /// What to do about it.
    pub fn advice(self) -> &'static str {
        match self {
            Reason::BadSize => "its sender lays this type out in another way: tell its maker",
            Reason::BadFlag => "its sender must set the flag to 1, 2 or 3, or report on every packet: tell its maker",
            Reason::BadRate => "take no figure of this block: its sender measures wrongly",
            Reason::Unmeasured => "its sender must put a block 14 for this source into the same packet",
            Reason::BadChunks => "take no trace of this block: its sender writes it wrongly",
        }
    }
}
