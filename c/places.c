/* places.c: each kind of block written, read back, and every field found at the place that the header names. */
#include "check.h"

static uint8_t packet[176];

/* The last block of the packet, whose size is in the answer of adding it. */
static nuvaskoe_block last(nuvaskoe_written added)
{
    CHECK(added.refusal.number == NUVASKOE_OK);
    return nuvaskoe_packet_block(packet, added.size, nuvaskoe_packet_read(packet, added.size).blocks - 1);
}

#define AT(KIND, PLACE, value) CHECK(block.fields[NUVASKOE_FIELD_##KIND##_##PLACE] == (value))

static void check_measurement(void)
{
    nuvaskoe_measurement m = {1, 2, 3, 4, 5, 6, 7};
    nuvaskoe_block block = last(nuvaskoe_packet_add_measurement(packet, sizeof packet, m));

    CHECK(block.block_type == NUVASKOE_BLOCK_MEASUREMENT && block.verdict == NUVASKOE_VERDICT_TYPED);
    AT(MEASUREMENT, SOURCE, m.source);
    AT(MEASUREMENT, FIRST, m.first);
    AT(MEASUREMENT, EXTENDED_FIRST, m.extended_first);
    AT(MEASUREMENT, EXTENDED_LAST, m.extended_last);
    AT(MEASUREMENT, INTERVAL, m.interval);
    AT(MEASUREMENT, SECONDS, m.seconds);
    AT(MEASUREMENT, FRACTION, m.fraction);
}

static void check_summaries(void)
{
    nuvaskoe_loss_summary l = {3, 1, 8, 9, 10, 11};
    nuvaskoe_discard_summary d = {2, 1, 12, 13};
    nuvaskoe_effective_summary e = {14, 15};
    nuvaskoe_block block = last(nuvaskoe_packet_add_loss(packet, sizeof packet, l));

    CHECK(block.block_type == NUVASKOE_BLOCK_LOSS && block.verdict == NUVASKOE_VERDICT_TYPED);
    AT(LOSS, FLAG, l.flag);
    AT(LOSS, SOURCE, l.source);
    AT(LOSS, BURST_RATE, l.burst_rate);
    AT(LOSS, GAP_RATE, l.gap_rate);
    AT(LOSS, BURST_MEAN, l.burst_mean);
    AT(LOSS, BURST_VARIANCE, l.burst_variance);

    block = last(nuvaskoe_packet_add_discard(packet, sizeof packet, d));
    CHECK(block.block_type == NUVASKOE_BLOCK_DISCARD && block.verdict == NUVASKOE_VERDICT_TYPED);
    AT(DISCARD, FLAG, d.flag);
    AT(DISCARD, SOURCE, d.source);
    AT(DISCARD, BURST_RATE, d.burst_rate);
    AT(DISCARD, GAP_RATE, d.gap_rate);

    block = last(nuvaskoe_packet_add_effective(packet, sizeof packet, e));
    CHECK(block.block_type == NUVASKOE_BLOCK_EFFECTIVE && block.verdict == NUVASKOE_VERDICT_TYPED);
    AT(EFFECTIVE, SOURCE, e.source);
    AT(EFFECTIVE, INDEX, e.index);
}

static void check_streams(void)
{
    nuvaskoe_stream_counts t = {16, 65535, 2, 17, 18, 19, 20, 21, 22, 23, 24, 25};
    nuvaskoe_block block = last(nuvaskoe_packet_add_streams(packet, sizeof packet, t));

    CHECK(block.block_type == NUVASKOE_BLOCK_STREAMS && block.verdict == NUVASKOE_VERDICT_TYPED);
    AT(STREAMS, SOURCE, t.source);
    AT(STREAMS, BEGIN, t.begin);
    AT(STREAMS, END, t.end);
    AT(STREAMS, PACKETS, 3u);
    AT(STREAMS, STREAMS, t.streams);
    AT(STREAMS, SYNC_LOSSES, t.sync_losses);
    AT(STREAMS, SYNC_BYTE_ERRORS, t.sync_byte_errors);
    AT(STREAMS, CONTINUITY_ERRORS, t.continuity_errors);
    AT(STREAMS, TRANSPORT_ERRORS, t.transport_errors);
    AT(STREAMS, PCR_ERRORS, t.pcr_errors);
    AT(STREAMS, PCR_REPETITION_ERRORS, t.pcr_repetition_errors);
    AT(STREAMS, PCR_DISCONTINUITY_ERRORS, t.pcr_discontinuity_errors);
    AT(STREAMS, PTS_ERRORS, t.pts_errors);
}

static void check_rle(void)
{
    static const uint8_t trace[5] = {1, 0, 0, 1, 1};
    nuvaskoe_block block = last(nuvaskoe_packet_add_rle(packet, sizeof packet, 26, 65534, trace, sizeof trace));

    CHECK(block.block_type == NUVASKOE_BLOCK_RLE && block.verdict == NUVASKOE_VERDICT_RLE);
    AT(RLE, SOURCE, 26u);
    AT(RLE, BEGIN, 65534u);
    AT(RLE, END, 3u);
    AT(RLE, PACKETS, 5u);
    AT(RLE, LOST, 3u);
}

int main(void)
{
    CHECK(nuvaskoe_packet_new(1, packet, sizeof packet).size == 8);
    check_measurement();
    check_summaries();
    check_streams();
    check_rle();
    return checked("places.c");
}
