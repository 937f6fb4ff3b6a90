//! "The packet": one block by itself, from its type, type-specific byte and body. Type 1 is
//! document 02's ticket 5.

use crate::rle;

/// A block of one of the five listed types.
#[derive(Debug, Clone, Copy, PartialEq, Eq)]
pub enum Block {
    Measurement(Measurement),
    Loss(Loss),
    Discard(Discard),
    Effective(Effective),
    TransportStream(TransportStream),
}

/// Block 14.
#[derive(Debug, Clone, Copy, PartialEq, Eq)]
pub struct Measurement {
    pub source: u32,
    pub first: u16,
    pub extended_first: u32,
    pub extended_last: u32,
    pub interval: u32,
    pub seconds: u32,
    pub fraction: u32,
}

/// Block 17.
#[derive(Debug, Clone, Copy, PartialEq, Eq)]
pub struct Loss {
    pub flag: u8,
    pub source: u32,
    pub burst_rate: u16,
    pub gap_rate: u16,
    pub mean: u16,
    pub variance: u16,
}

/// Block 18.
#[derive(Debug, Clone, Copy, PartialEq, Eq)]
pub struct Discard {
    pub flag: u8,
    pub source: u32,
    pub burst_rate: u16,
    pub gap_rate: u16,
}

/// Block 240.
#[derive(Debug, Clone, Copy, PartialEq, Eq)]
pub struct Effective {
    pub source: u32,
    pub index: u16,
}

/// Block 241.
#[derive(Debug, Clone, Copy, PartialEq, Eq)]
pub struct TransportStream {
    pub source: u32,
    pub begin: u16,
    pub end: u16,
    pub streams: u32,
    /// In document 004's order: losses of synchronization; errors of the sync byte,
    /// continuity count, transport, PCR, PCR repetition, PCR discontinuity indicator, PTS.
    pub counts: [u32; 8],
}

impl TransportStream {
    /// "end minus begin modulo 65,536".
    pub fn packets(&self) -> u16 {
        (i32::from(self.end) - i32::from(self.begin)).rem_euclid(65_536) as u16
    }
}

/// A good block of type 1, "outside the rules for typed blocks".
#[derive(Debug, Clone, Copy, PartialEq, Eq)]
pub struct LossRle {
    pub source: u32,
    pub begin: u16,
    pub end: u16,
    /// How many packets of the interval are lost.
    pub lost: u16,
}

impl LossRle {
    /// "The interval is end minus begin modulo 65,536, which may be 0."
    pub fn packets(&self) -> u16 {
        self.end.wrapping_sub(self.begin)
    }
}

/// Why a block is dropped; the first that applies.
#[derive(Debug, Clone, Copy, PartialEq, Eq, PartialOrd, Ord)]
pub enum Reason {
    /// a listed type with another length; a type 1 of "fewer than two words, or not whole words"
    D1 = 1,
    /// flag 0; in a type 1, thinning not 0
    D2 = 2,
    /// a rate from 32,769 to 65,534
    D3 = 3,
    /// a 17 or 18 with no well-sized block 14 for the same source in the packet
    D4 = 4,
    /// "an interval over 65,533, a null chunk before the end, chunks cover too little, or a chunk
    /// other than null follows the end"
    D5 = 5,
}

/// The four kinds of answer to asking for a block.
#[derive(Debug, Clone, Copy, PartialEq, Eq)]
pub enum Reading {
    Typed(Block),
    Unknown,
    Dropped(Reason),
    Rle(LossRle),
}

impl Reading {
    /// The boundary's number: 0 for typed, the reason's own, 254 for a good type 1, 255 for
    /// unknown.
    pub fn verdict(&self) -> u32 {
        match self {
            Reading::Typed(_) => 0,
            Reading::Dropped(reason) => *reason as u32,
            Reading::Rle(_) => 254,
            Reading::Unknown => 255,
        }
    }
}

/// "Words after the first (block length)" of a listed type, which type 1 with its many lengths
/// is not.
pub fn words(block_type: u8) -> Option<usize> {
    match block_type {
        14 => Some(7),
        17 => Some(3),
        18 => Some(2),
        240 => Some(2),
        241 => Some(11),
        _ => None,
    }
}

/// Reads one block by itself, which never gives D4.
pub fn read(block_type: u8, specific: u8, body: &[u8]) -> Reading {
    if block_type == 1 {
        return match loss_rle(specific, body) {
            Ok(rle) => Reading::Rle(rle),
            Err(reason) => Reading::Dropped(reason),
        };
    }
    let Some(words) = words(block_type) else {
        return Reading::Unknown;
    };
    if body.len() != 4 * words {
        return Reading::Dropped(Reason::D1);
    }
    let flag = specific >> 6;
    if matches!(block_type, 17 | 18) {
        if flag == 0 {
            return Reading::Dropped(Reason::D2);
        }
        if !is_rate(half(body, 4)) || !is_rate(half(body, 6)) {
            return Reading::Dropped(Reason::D3);
        }
    }
    Reading::Typed(match block_type {
        14 => Block::Measurement(measurement(body)),
        17 => Block::Loss(loss(flag, body)),
        18 => Block::Discard(discard(flag, body)),
        240 => Block::Effective(effective_loss(body)),
        _ => Block::TransportStream(transport_stream(body)),
    })
}

/// "Rates are 0 to 32,768, or 65,535 for unavailable."
pub(crate) fn is_rate(number: u16) -> bool {
    number <= 32_768 || number == 65_535
}

/// A block of type 1, or why it is dropped.
fn loss_rle(specific: u8, body: &[u8]) -> Result<LossRle, Reason> {
    if body.len() < 8 || body.len() & 0b11 != 0 {
        return Err(Reason::D1);
    }
    // The low four bits are the thinning, the high four reserved.
    if specific & 0x0F != 0 {
        return Err(Reason::D2);
    }
    let mut rle = LossRle {
        source: word(body, 0),
        begin: half(body, 4),
        end: half(body, 6),
        lost: 0,
    };
    let packets = usize::from(rle.packets());
    if packets > rle::MOST_PACKETS {
        return Err(Reason::D5);
    }
    let lost = rle::count(&body[8..], packets).ok_or(Reason::D5)?;
    // No more than the packets, which 16 bits hold.
    rle.lost = lost as u16;
    Ok(rle)
}

fn measurement(body: &[u8]) -> Measurement {
    Measurement {
        source: word(body, 0),
        // After 16 reserved bits.
        first: half(body, 6),
        extended_first: word(body, 8),
        extended_last: word(body, 12),
        interval: word(body, 16),
        seconds: word(body, 20),
        fraction: word(body, 24),
    }
}

fn loss(flag: u8, body: &[u8]) -> Loss {
    Loss {
        flag,
        source: word(body, 0),
        burst_rate: half(body, 4),
        gap_rate: half(body, 6),
        mean: half(body, 8),
        variance: half(body, 10),
    }
}

fn discard(flag: u8, body: &[u8]) -> Discard {
    Discard {
        flag,
        source: word(body, 0),
        burst_rate: half(body, 4),
        gap_rate: half(body, 6),
    }
}

fn effective_loss(body: &[u8]) -> Effective {
    Effective {
        source: word(body, 0),
        // Before 16 reserved bits.
        index: half(body, 4),
    }
}

fn transport_stream(body: &[u8]) -> TransportStream {
    TransportStream {
        source: word(body, 0),
        begin: half(body, 4),
        end: half(body, 6),
        streams: word(body, 8),
        counts: [12, 16, 20, 24, 28, 32, 36, 40].map(|offset| word(body, offset)),
    }
}

/// The big-endian 16 bits at `offset`.
pub(crate) fn half(bytes: &[u8], offset: usize) -> u16 {
    u16::from_be_bytes([bytes[offset], bytes[offset + 1]])
}

/// The big-endian 32 bits at `offset`.
pub(crate) fn word(bytes: &[u8], offset: usize) -> u32 {
    u32::from(half(bytes, offset)) << 16 | u32::from(half(bytes, offset + 2))
}

#[cfg(test)]
mod tests;
