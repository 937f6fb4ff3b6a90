//! The C boundary as `include/nuvaskoe.h` has it. Made by tools/boundary.py from the Rattle source; not edited by hand.
#![allow(dead_code)]

use std::mem::{offset_of, size_of};

pub(crate) const VERSION_MAJOR: u32 = 0;
pub(crate) const VERSION_MINOR: u32 = 7;
pub(crate) const VERSION_PATCH: u32 = 0;
pub(crate) const VERSION: u32 = 700;
pub(crate) const CARD_BYTES: usize = 20;
pub(crate) const PACKET_BYTES_MAX: usize = 262144;
pub(crate) const BLOCK_RLE: u32 = 1;
pub(crate) const BLOCK_MEASUREMENT: u32 = 14;
pub(crate) const BLOCK_LOSS: u32 = 17;
pub(crate) const BLOCK_DISCARD: u32 = 18;
pub(crate) const BLOCK_EFFECTIVE: u32 = 240;
pub(crate) const BLOCK_STREAMS: u32 = 241;
pub(crate) const VERDICT_TYPED: u32 = 0;
pub(crate) const VERDICT_BAD_SIZE: u32 = 1;
pub(crate) const VERDICT_BAD_FLAG: u32 = 2;
pub(crate) const VERDICT_BAD_RATE: u32 = 3;
pub(crate) const VERDICT_UNMEASURED: u32 = 4;
pub(crate) const VERDICT_BAD_CHUNKS: u32 = 5;
pub(crate) const VERDICT_RLE: u32 = 254;
pub(crate) const VERDICT_UNKNOWN: u32 = 255;
pub(crate) const RATE_MAX: u16 = 32768;
pub(crate) const OVER_RANGE: u16 = 65534;
pub(crate) const UNAVAILABLE: u16 = 65535;
pub(crate) const FULL_LOSS: usize = 65535;
pub(crate) const FIELDS: usize = 13;
pub(crate) const DIFFERENCE_SENDER: u32 = 0;
pub(crate) const DIFFERENCE_FIELD: u32 = 1;
pub(crate) const DIFFERENCE_BLOCK: u32 = 2;
pub(crate) const DIFFERENCE_ONLY_FIRST: u32 = 3;
pub(crate) const DIFFERENCE_ONLY_SECOND: u32 = 4;
pub(crate) const DIFFERENCE_NUMBERS: usize = 5;
pub(crate) const INTERVAL_MAX: u16 = 65533;
pub(crate) const TRACE_MAX: usize = 65536;
pub(crate) const EVENT_LOST: u32 = 1;
pub(crate) const EVENT_DISCARDED: u32 = 2;
pub(crate) const EVENT_EITHER: u32 = 3;

#[repr(C)]
#[derive(Debug, Clone, Copy, PartialEq, Eq)]
pub(crate) struct Refusal {
    pub(crate) number: u32,
    pub(crate) place: usize,
}

#[repr(C)]
#[derive(Debug, Clone, Copy, PartialEq, Eq)]
pub(crate) struct Settings {
    pub(crate) gmin: u32,
    pub(crate) batch: u32,
    pub(crate) threshold: u32,
    pub(crate) spacing: u32,
}

#[repr(C)]
#[derive(Debug, Clone, Copy, PartialEq, Eq)]
pub(crate) struct Written {
    pub(crate) refusal: Refusal,
    pub(crate) size: usize,
}

#[repr(C)]
#[derive(Debug, Clone, Copy, PartialEq, Eq)]
pub(crate) struct Card {
    pub(crate) refusal: Refusal,
    pub(crate) settings: Settings,
}

#[repr(C)]
#[derive(Debug, Clone, Copy, PartialEq, Eq)]
pub(crate) struct Packet {
    pub(crate) refusal: Refusal,
    pub(crate) sender: u32,
    pub(crate) blocks: usize,
}

#[repr(C)]
#[derive(Debug, Clone, Copy, PartialEq, Eq)]
pub(crate) struct Block {
    pub(crate) refusal: Refusal,
    pub(crate) block_type: u32,
    pub(crate) verdict: u32,
    pub(crate) fields: [u32; 13],
}

#[repr(C)]
#[derive(Debug, Clone, Copy, PartialEq, Eq)]
pub(crate) struct Part {
    pub(crate) start: usize,
    pub(crate) length: usize,
}

#[repr(C)]
#[derive(Debug, Clone, Copy, PartialEq, Eq)]
pub(crate) struct Compared {
    pub(crate) refusal: Refusal,
    pub(crate) differences: usize,
}

#[repr(C)]
#[derive(Debug, Clone, Copy, PartialEq, Eq)]
pub(crate) struct Measurement {
    pub(crate) source: u32,
    pub(crate) first: u16,
    pub(crate) extended_first: u32,
    pub(crate) extended_last: u32,
    pub(crate) interval: u32,
    pub(crate) seconds: u32,
    pub(crate) fraction: u32,
}

#[repr(C)]
#[derive(Debug, Clone, Copy, PartialEq, Eq)]
pub(crate) struct LossSummary {
    pub(crate) flag: u8,
    pub(crate) source: u32,
    pub(crate) burst_rate: u16,
    pub(crate) gap_rate: u16,
    pub(crate) burst_mean: u16,
    pub(crate) burst_variance: u16,
}

#[repr(C)]
#[derive(Debug, Clone, Copy, PartialEq, Eq)]
pub(crate) struct DiscardSummary {
    pub(crate) flag: u8,
    pub(crate) source: u32,
    pub(crate) burst_rate: u16,
    pub(crate) gap_rate: u16,
}

#[repr(C)]
#[derive(Debug, Clone, Copy, PartialEq, Eq)]
pub(crate) struct EffectiveSummary {
    pub(crate) source: u32,
    pub(crate) index: u16,
}

#[repr(C)]
#[derive(Debug, Clone, Copy, PartialEq, Eq)]
pub(crate) struct StreamCounts {
    pub(crate) source: u32,
    pub(crate) begin: u16,
    pub(crate) end: u16,
    pub(crate) streams: u32,
    pub(crate) sync_losses: u32,
    pub(crate) sync_byte_errors: u32,
    pub(crate) continuity_errors: u32,
    pub(crate) transport_errors: u32,
    pub(crate) pcr_errors: u32,
    pub(crate) pcr_repetition_errors: u32,
    pub(crate) pcr_discontinuity_errors: u32,
    pub(crate) pts_errors: u32,
}

#[repr(C)]
#[derive(Debug, Clone, Copy, PartialEq, Eq)]
pub(crate) struct BurstFigures {
    pub(crate) burst_rate: u16,
    pub(crate) gap_rate: u16,
    pub(crate) burst_mean: u16,
    pub(crate) burst_variance: u16,
}

#[repr(C)]
#[derive(Debug, Clone, Copy, PartialEq, Eq)]
pub(crate) struct Figured {
    pub(crate) refusal: Refusal,
    pub(crate) figures: BurstFigures,
}

#[repr(C)]
#[derive(Debug, Clone, Copy, PartialEq, Eq)]
pub(crate) struct Summary {
    pub(crate) refusal: Refusal,
    pub(crate) block_type: u32,
    pub(crate) loss: LossSummary,
    pub(crate) discard: DiscardSummary,
}

#[repr(C)]
#[derive(Debug, Clone, Copy, PartialEq, Eq)]
pub(crate) struct Sums {
    pub(crate) packets: u64,
    pub(crate) events: u64,
    pub(crate) burst_packets: u64,
    pub(crate) burst_events: u64,
    pub(crate) bursts: u64,
    pub(crate) durations: u64,
    pub(crate) squares: u64,
}

#[repr(C)]
#[derive(Debug, Clone, Copy, PartialEq, Eq)]
pub(crate) struct Stretch {
    pub(crate) events: u64,
    pub(crate) packets: u64,
    pub(crate) since: u64,
}

#[repr(C)]
#[derive(Debug, Clone, Copy, PartialEq, Eq)]
pub(crate) struct Tally {
    pub(crate) gmin: u32,
    pub(crate) spacing: u32,
    pub(crate) event: u32,
    pub(crate) sums: Sums,
    pub(crate) stretch: Stretch,
}

#[repr(C)]
#[derive(Debug, Clone, Copy, PartialEq, Eq)]
pub(crate) struct Tallied {
    pub(crate) refusal: Refusal,
    pub(crate) tally: Tally,
}

#[repr(C)]
#[derive(Debug, Clone, Copy, PartialEq, Eq)]
pub(crate) struct Loss {
    pub(crate) refusal: Refusal,
    pub(crate) over: usize,
    pub(crate) batches: usize,
    pub(crate) first: usize,
    pub(crate) index: u32,
    pub(crate) found: u32,
}

#[repr(C)]
#[derive(Debug, Clone, Copy, PartialEq, Eq)]
pub(crate) struct Marks {
    pub(crate) refusal: Refusal,
    pub(crate) marks: usize,
}

#[repr(C)]
#[derive(Debug, Clone, Copy, PartialEq)]
pub(crate) struct Needle {
    pub(crate) lit: u32,
    pub(crate) position: f32,
}

#[repr(C)]
#[derive(Debug, Clone, Copy, PartialEq)]
pub(crate) struct Panel {
    pub(crate) burst: Needle,
    pub(crate) gap: Needle,
    pub(crate) lamp: u32,
}

extern "C" {
    pub(crate) fn nuvaskoe_version() -> u32;
    pub(crate) fn nuvaskoe_card_read(card: *const u8, card_len: usize) -> Card;
    pub(crate) fn nuvaskoe_card_write(settings: Settings, out: *mut u8, out_len: usize) -> Written;
    pub(crate) fn nuvaskoe_block_read(block_type: u8, specific: u8, body: *const u8, body_len: usize) -> Block;
    pub(crate) fn nuvaskoe_packet_read(packet: *const u8, packet_len: usize) -> Packet;
    pub(crate) fn nuvaskoe_packet_block(packet: *const u8, packet_len: usize, index: usize) -> Block;
    pub(crate) fn nuvaskoe_packet_body(packet: *const u8, packet_len: usize, index: usize) -> Part;
    pub(crate) fn nuvaskoe_packet_list(packet: *const u8, packet_len: usize, out: *mut u32, out_len: usize) -> Written;
    pub(crate) fn nuvaskoe_packet_compare(first: *const u8, first_len: usize, second: *const u8, second_len: usize, out: *mut u32, out_len: usize) -> Compared;
    pub(crate) fn nuvaskoe_packet_new(sender: u32, out: *mut u8, out_len: usize) -> Written;
    pub(crate) fn nuvaskoe_packet_add_measurement(out: *mut u8, out_len: usize, block: Measurement) -> Written;
    pub(crate) fn nuvaskoe_packet_add_loss(out: *mut u8, out_len: usize, block: LossSummary) -> Written;
    pub(crate) fn nuvaskoe_packet_add_discard(out: *mut u8, out_len: usize, block: DiscardSummary) -> Written;
    pub(crate) fn nuvaskoe_packet_add_effective(out: *mut u8, out_len: usize, block: EffectiveSummary) -> Written;
    pub(crate) fn nuvaskoe_packet_add_streams(out: *mut u8, out_len: usize, block: StreamCounts) -> Written;
    pub(crate) fn nuvaskoe_packet_rle(packet: *const u8, packet_len: usize, index: usize, out: *mut u8, out_len: usize) -> Written;
    pub(crate) fn nuvaskoe_packet_add_rle(out: *mut u8, out_len: usize, source: u32, begin: u16, trace: *const u8, trace_len: usize) -> Written;
    pub(crate) fn nuvaskoe_figures(trace: *const u8, trace_len: usize, gmin: u32, spacing: u32, event: u32) -> Figured;
    pub(crate) fn nuvaskoe_loss_block(figures: BurstFigures, source: u32, flag: u8) -> LossSummary;
    pub(crate) fn nuvaskoe_discard_block(figures: BurstFigures, source: u32, flag: u8) -> DiscardSummary;
    pub(crate) fn nuvaskoe_tally_open(gmin: u32, spacing: u32, event: u32) -> Tallied;
    pub(crate) fn nuvaskoe_tally_take(tally: Tally, packet: u8) -> Tallied;
    pub(crate) fn nuvaskoe_tally_close(tally: Tally) -> Figured;
    pub(crate) fn nuvaskoe_loss_of_trace(trace: *const u8, trace_len: usize, gmin: u32, spacing: u32, source: u32, flag: u8) -> Summary;
    pub(crate) fn nuvaskoe_discard_of_trace(trace: *const u8, trace_len: usize, gmin: u32, spacing: u32, source: u32, flag: u8) -> Summary;
    pub(crate) fn nuvaskoe_tally_block(tally: Tally, source: u32, flag: u8) -> Summary;
    pub(crate) fn nuvaskoe_effective_loss(trace: *const u8, trace_len: usize, batch: u32, threshold: u32, event: u32) -> Loss;
    pub(crate) fn nuvaskoe_resend_plan(trace: *const u8, trace_len: usize, batch: u32, threshold: u32, event: u32, out: *mut u8, out_len: usize) -> Marks;
    pub(crate) fn nuvaskoe_trace_pack(trace: *const u8, trace_len: usize, event: u32, out: *mut u64, out_len: usize) -> Written;
    pub(crate) fn nuvaskoe_trace_unpack(words: *const u64, words_len: usize, packets: usize, out: *mut u8, out_len: usize) -> Written;
    pub(crate) fn nuvaskoe_packed_loss(words: *const u64, words_len: usize, packets: usize, batch: u32, threshold: u32) -> Loss;
    pub(crate) fn nuvaskoe_packed_plan(words: *const u64, words_len: usize, packets: usize, batch: u32, threshold: u32, out: *mut u8, out_len: usize) -> Marks;
    pub(crate) fn nuvaskoe_panel_of_packet(packet: *const u8, packet_len: usize, index: usize) -> Panel;
    pub(crate) fn nuvaskoe_panel_of_read(block: Block) -> Panel;
    pub(crate) fn nuvaskoe_panel_of_loss(block: LossSummary) -> Panel;
    pub(crate) fn nuvaskoe_panel_of_discard(block: DiscardSummary) -> Panel;
}

/// C name and size of every struct, and the name, offset and size of each field.
pub(crate) type Layout = (&'static str, usize, &'static [(&'static str, usize, usize)]);

macro_rules! layout {
    ($c:literal, $rust:ident { $($field:ident: $kind:ty),* }) => {
        ($c, size_of::<$rust>(), &[$((stringify!($field), offset_of!($rust, $field), size_of::<$kind>())),*])
    };
}

pub(crate) const LAYOUTS: &[Layout] = &[
    layout!("nuvaskoe_refusal", Refusal { number: u32, place: usize }),
    layout!("nuvaskoe_settings", Settings { gmin: u32, batch: u32, threshold: u32, spacing: u32 }),
    layout!("nuvaskoe_written", Written { refusal: Refusal, size: usize }),
    layout!("nuvaskoe_card", Card { refusal: Refusal, settings: Settings }),
    layout!("nuvaskoe_packet", Packet { refusal: Refusal, sender: u32, blocks: usize }),
    layout!("nuvaskoe_block", Block { refusal: Refusal, block_type: u32, verdict: u32, fields: [u32; 13] }),
    layout!("nuvaskoe_part", Part { start: usize, length: usize }),
    layout!("nuvaskoe_compared", Compared { refusal: Refusal, differences: usize }),
    layout!("nuvaskoe_measurement", Measurement { source: u32, first: u16, extended_first: u32, extended_last: u32, interval: u32, seconds: u32, fraction: u32 }),
    layout!("nuvaskoe_loss_summary", LossSummary { flag: u8, source: u32, burst_rate: u16, gap_rate: u16, burst_mean: u16, burst_variance: u16 }),
    layout!("nuvaskoe_discard_summary", DiscardSummary { flag: u8, source: u32, burst_rate: u16, gap_rate: u16 }),
    layout!("nuvaskoe_effective_summary", EffectiveSummary { source: u32, index: u16 }),
    layout!("nuvaskoe_stream_counts", StreamCounts { source: u32, begin: u16, end: u16, streams: u32, sync_losses: u32, sync_byte_errors: u32, continuity_errors: u32, transport_errors: u32, pcr_errors: u32, pcr_repetition_errors: u32, pcr_discontinuity_errors: u32, pts_errors: u32 }),
    layout!("nuvaskoe_burst_figures", BurstFigures { burst_rate: u16, gap_rate: u16, burst_mean: u16, burst_variance: u16 }),
    layout!("nuvaskoe_figured", Figured { refusal: Refusal, figures: BurstFigures }),
    layout!("nuvaskoe_summary", Summary { refusal: Refusal, block_type: u32, loss: LossSummary, discard: DiscardSummary }),
    layout!("nuvaskoe_sums", Sums { packets: u64, events: u64, burst_packets: u64, burst_events: u64, bursts: u64, durations: u64, squares: u64 }),
    layout!("nuvaskoe_stretch", Stretch { events: u64, packets: u64, since: u64 }),
    layout!("nuvaskoe_tally", Tally { gmin: u32, spacing: u32, event: u32, sums: Sums, stretch: Stretch }),
    layout!("nuvaskoe_tallied", Tallied { refusal: Refusal, tally: Tally }),
    layout!("nuvaskoe_loss", Loss { refusal: Refusal, over: usize, batches: usize, first: usize, index: u32, found: u32 }),
    layout!("nuvaskoe_marks", Marks { refusal: Refusal, marks: usize }),
    layout!("nuvaskoe_needle", Needle { lit: u32, position: f32 }),
    layout!("nuvaskoe_panel", Panel { burst: Needle, gap: Needle, lamp: u32 }),
];
