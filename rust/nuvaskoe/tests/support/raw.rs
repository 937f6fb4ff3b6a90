//! The boundary's calls on slices: whole answers, of which the safe calls show a part.

use super::boundary::{self, *};

pub fn version() -> u32 {
    // SAFETY: it takes nothing.
    unsafe { boundary::nuvaskoe_version() }
}

pub fn card_read(card: &[u8]) -> Card {
    // SAFETY: a slice's pointer is never null and is good for reading its length; so below,
    // and a slice lent for writing lends all its length.
    unsafe { boundary::nuvaskoe_card_read(card.as_ptr(), card.len()) }
}

pub fn card_write(settings: Settings, out: &mut [u8]) -> Written {
    // SAFETY: as above.
    unsafe { boundary::nuvaskoe_card_write(settings, out.as_mut_ptr(), out.len()) }
}

pub fn packet_read(packet: &[u8]) -> Packet {
    // SAFETY: as above.
    unsafe { boundary::nuvaskoe_packet_read(packet.as_ptr(), packet.len()) }
}

pub fn packet_block(packet: &[u8], index: usize) -> Block {
    // SAFETY: as above.
    unsafe { boundary::nuvaskoe_packet_block(packet.as_ptr(), packet.len(), index) }
}

pub fn packet_body(packet: &[u8], index: usize) -> Part {
    // SAFETY: as above.
    unsafe { boundary::nuvaskoe_packet_body(packet.as_ptr(), packet.len(), index) }
}

pub fn packet_list(packet: &[u8], out: &mut [u32]) -> Written {
    let (start, length) = (packet.as_ptr(), packet.len());
    // SAFETY: as above.
    unsafe { boundary::nuvaskoe_packet_list(start, length, out.as_mut_ptr(), out.len()) }
}

pub fn packet_compare(first: &[u8], second: &[u8], out: &mut [u32]) -> Compared {
    let (start, length) = (first.as_ptr(), first.len());
    let (other, other_length) = (second.as_ptr(), second.len());
    let (out, room) = (out.as_mut_ptr(), out.len());
    // SAFETY: as above.
    unsafe { boundary::nuvaskoe_packet_compare(start, length, other, other_length, out, room) }
}

pub fn block_read(block_type: u8, specific: u8, body: &[u8]) -> Block {
    // SAFETY: as above.
    unsafe { boundary::nuvaskoe_block_read(block_type, specific, body.as_ptr(), body.len()) }
}

pub fn packet_new(sender: u32, out: &mut [u8]) -> Written {
    // SAFETY: as above.
    unsafe { boundary::nuvaskoe_packet_new(sender, out.as_mut_ptr(), out.len()) }
}

pub fn packet_add(out: &mut [u8], block: &independent::block::Block) -> Written {
    use independent::block::Block;
    let (start, length) = (out.as_mut_ptr(), out.len());
    // SAFETY: as above.
    unsafe {
        match block {
            Block::Measurement(block) => {
                boundary::nuvaskoe_packet_add_measurement(start, length, block.into())
            }
            Block::Loss(block) => boundary::nuvaskoe_packet_add_loss(start, length, block.into()),
            Block::Discard(block) => {
                boundary::nuvaskoe_packet_add_discard(start, length, block.into())
            }
            Block::Effective(block) => {
                boundary::nuvaskoe_packet_add_effective(start, length, block.into())
            }
            Block::TransportStream(block) => {
                boundary::nuvaskoe_packet_add_streams(start, length, block.into())
            }
        }
    }
}

pub fn packet_rle(packet: &[u8], index: usize, out: &mut [u8]) -> Written {
    let (start, length) = (packet.as_ptr(), packet.len());
    // SAFETY: as above.
    unsafe { boundary::nuvaskoe_packet_rle(start, length, index, out.as_mut_ptr(), out.len()) }
}

pub fn packet_add_rle(out: &mut [u8], source: u32, begin: u16, trace: &[u8]) -> Written {
    let (start, length) = (trace.as_ptr(), trace.len());
    let (out, room) = (out.as_mut_ptr(), out.len());
    // SAFETY: as above.
    unsafe { boundary::nuvaskoe_packet_add_rle(out, room, source, begin, start, length) }
}

pub fn tally_open(gmin: u32, spacing: u32, event: u32) -> Tallied {
    // SAFETY: it takes any numbers.
    unsafe { boundary::nuvaskoe_tally_open(gmin, spacing, event) }
}

pub fn tally_take(tally: Tally, packet: u8) -> Tallied {
    // SAFETY: it takes any numbers.
    unsafe { boundary::nuvaskoe_tally_take(tally, packet) }
}

pub fn tally_close(tally: Tally) -> Figured {
    // SAFETY: it takes any numbers.
    unsafe { boundary::nuvaskoe_tally_close(tally) }
}

pub fn tally_block(tally: Tally, source: u32, flag: u8) -> Summary {
    // SAFETY: it takes any numbers.
    unsafe { boundary::nuvaskoe_tally_block(tally, source, flag) }
}

pub fn figures(trace: &[u8], gmin: u32, spacing: u32, event: u32) -> Figured {
    let (start, length) = (trace.as_ptr(), trace.len());
    // SAFETY: as above.
    unsafe { boundary::nuvaskoe_figures(start, length, gmin, spacing, event) }
}

pub fn loss_of_trace(trace: &[u8], gmin: u32, spacing: u32, source: u32, flag: u8) -> Summary {
    let (start, length) = (trace.as_ptr(), trace.len());
    // SAFETY: as above.
    unsafe { boundary::nuvaskoe_loss_of_trace(start, length, gmin, spacing, source, flag) }
}

pub fn discard_of_trace(trace: &[u8], gmin: u32, spacing: u32, source: u32, flag: u8) -> Summary {
    let (start, length) = (trace.as_ptr(), trace.len());
    // SAFETY: as above.
    unsafe { boundary::nuvaskoe_discard_of_trace(start, length, gmin, spacing, source, flag) }
}

pub fn effective_loss(trace: &[u8], batch: u32, threshold: u32, event: u32) -> Loss {
    let (start, length) = (trace.as_ptr(), trace.len());
    // SAFETY: as above.
    unsafe { boundary::nuvaskoe_effective_loss(start, length, batch, threshold, event) }
}

pub fn resend_plan(trace: &[u8], batch: u32, threshold: u32, event: u32, out: &mut [u8]) -> Marks {
    let (start, length) = (trace.as_ptr(), trace.len());
    let (out, room) = (out.as_mut_ptr(), out.len());
    // SAFETY: as above.
    unsafe { boundary::nuvaskoe_resend_plan(start, length, batch, threshold, event, out, room) }
}

pub fn trace_pack(trace: &[u8], event: u32, out: &mut [u64]) -> Written {
    let (start, length) = (trace.as_ptr(), trace.len());
    // SAFETY: as above.
    unsafe { boundary::nuvaskoe_trace_pack(start, length, event, out.as_mut_ptr(), out.len()) }
}

pub fn trace_unpack(words: &[u64], packets: usize, out: &mut [u8]) -> Written {
    let (start, length) = (words.as_ptr(), words.len());
    let (out, room) = (out.as_mut_ptr(), out.len());
    // SAFETY: as above.
    unsafe { boundary::nuvaskoe_trace_unpack(start, length, packets, out, room) }
}

pub fn packed_loss(words: &[u64], packets: usize, batch: u32, threshold: u32) -> Loss {
    let (start, length) = (words.as_ptr(), words.len());
    // SAFETY: as above.
    unsafe { boundary::nuvaskoe_packed_loss(start, length, packets, batch, threshold) }
}

pub fn packed_plan(
    words: &[u64],
    packets: usize,
    (batch, threshold): (u32, u32),
    out: &mut [u8],
) -> Marks {
    let (start, length) = (words.as_ptr(), words.len());
    let (out, room) = (out.as_mut_ptr(), out.len());
    // SAFETY: as above.
    unsafe { boundary::nuvaskoe_packed_plan(start, length, packets, batch, threshold, out, room) }
}

pub fn panel_of_packet(packet: &[u8], index: usize) -> Panel {
    // SAFETY: as above.
    unsafe { boundary::nuvaskoe_panel_of_packet(packet.as_ptr(), packet.len(), index) }
}

pub fn panel_of_read(block: Block) -> Panel {
    // SAFETY: it takes any numbers.
    unsafe { boundary::nuvaskoe_panel_of_read(block) }
}

pub fn panel_of_loss(block: LossSummary) -> Panel {
    // SAFETY: it takes any numbers.
    unsafe { boundary::nuvaskoe_panel_of_loss(block) }
}

pub fn panel_of_discard(block: DiscardSummary) -> Panel {
    // SAFETY: it takes any numbers.
    unsafe { boundary::nuvaskoe_panel_of_discard(block) }
}
